"""Files that are written whole or not at all: beside their places first, and then put there."""
import os
import tempfile

from .errors import Refused


def same(a, b):
    return os.path.realpath(a) == os.path.realpath(b)


def judge(outputs, inputs):
    """Stops where writing these files would lose one: two of one name, one that is read, or what is no file."""
    for k, path in enumerate(outputs):
        for other in outputs[:k]:
            if same(path, other):
                raise Refused(f'{path} would be written twice: give the sheet and the table a file each.')
        for other in inputs:
            if same(path, other):
                raise Refused(f'{path} is read, so it is not written over: give another file.')
        if os.path.exists(path) and not os.path.isfile(path):
            raise Refused(f'{path} is no file, so it cannot be replaced by one.')


def permissions(path):
    """Those of the file that is replaced; of a new one, what the user's mask leaves."""
    try:
        return os.stat(path).st_mode & 0o777
    except OSError:
        mask = os.umask(0)
        os.umask(mask)
        return 0o666 & ~mask


def write_all(texts):
    """Writes each (path, text): none is put into its place before all are written beside theirs."""
    beside, written, path = {}, [], None
    try:
        for path, text in texts:
            place = os.path.realpath(path)
            handle, beside[path] = tempfile.mkstemp(prefix=f'.{os.path.basename(place)}.', dir=os.path.dirname(place))
            with os.fdopen(handle, 'w', encoding='utf-8', newline='') as file:
                file.write(text)
                file.flush()
                os.fchmod(file.fileno(), permissions(place))
                os.fsync(file.fileno())
        for path, _ in texts:
            os.replace(beside[path], os.path.realpath(path))
            del beside[path]
            written.append(path)
    except OSError as why:
        raise Refused(f'{path} cannot be written, and is as it was: {why.strerror}.'
                      + (f' {", ".join(written)} is written.' if written else '')) from None
    finally:
        for left in beside.values():
            os.unlink(left)
