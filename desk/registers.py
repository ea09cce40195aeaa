"""A register as frames: judged by the importer, and in parts where the lookup has no room for the whole."""
from . import frames
from .errors import Broken, Refused
from .numbers import sentence
from .programs import Found, Imported, Number, REFUSED, importer, lookup

# a line more than a register may have is refused there, so no more need be handed over to judge it
MOST_NAMES = 256


def text(pools):
    return ''.join(frames.name(pool.id, pool.bytes) for pool in pools)


def judge(path, pools, settings, threshold):
    """Stops at the first pool that is refused, with its line in the file, and at a bad threshold. The importer says so, of a log with one line whose
    name is good and whose reading is missing."""
    came = importer(text(pools[:MOST_NAMES + 1]), settings, frames.log(0, None, b'a'))
    if not isinstance(came, Imported):
        part, number, line = came
        if part != 1 or not 1 <= line <= len(pools):
            raise Broken(f'importer refused part {part} with number {number} at line {line}, which cannot be.')
        raise Refused(f'{path}, line {pools[line - 1].line}: {sentence(number)}')
    case, number = came.outcomes[0]
    if case == REFUSED and number in (4, 5):
        raise Refused(f'threshold {threshold}: {sentence(number)}')


def asked(pools, queries):
    """What was found for each query, as `lookup` says it, of names that the register has."""
    answers = lookup(text(pools), queries)
    known = {pool.id for pool in pools}
    for found in [] if isinstance(answers, Number) else answers:
        if isinstance(found, Found) and any(row[0] not in known for row in found.rows):
            raise Broken('lookup listed an id that the register does not have, and nothing of its output is used.')
    return answers


def search(pools, queries):
    """The same of the whole register. One that is too large for the lookup's index is searched in parts: whether a name is listed depends on that
    name and the query alone, so the lists together are the list."""
    answers = asked(pools, queries)
    if not isinstance(answers, Number):
        return answers
    if answers.number != 8 or len(pools) < 2:
        raise Refused(f'the register: {sentence(answers.number)}')
    half = len(pools) // 2
    return [joined(a, b) for a, b in zip(search(pools[:half], queries), search(pools[half:], queries))]


def joined(first, second):
    for one in (first, second):
        if isinstance(one, Number):
            return one
    return Found(first.rows + second.rows, first.touches + second.touches)
