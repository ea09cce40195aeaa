"""The frames that the desk writes and reads, as docs/RULE.md has them."""

NO_READING = 0xFFFF
LONGEST_NAME = 255


def name(pool, text):
    return f'4E{pool:04X}{len(text):02X}{text.hex().upper()}\n'


def query(measure, p, q, allowance, text=b''):
    """A query; with an empty text, the settings line of an import."""
    return f'51{measure:02X}{p:04X}{q:04X}{allowance:08X}{len(text):02X}{text.hex().upper()}\n'


def log(day, reading, text):
    """A log line; a reading of None is missing."""
    return f'4C{day:04X}{NO_READING if reading is None else reading:04X}{len(text):02X}{text.hex().upper()}\n'


# the bytes of each field after the kind
WIDTHS = {
    '52': (2, 1, 1, 1), '45': (2, 4, 2, 2), '58': (1, 4),
    '4F': (1, 2), '50': (2, 2, 4, 2), '5A': (2, 2), '59': (1, 1, 2),
}


def read(line):
    """The kind and the fields of a line that a program wrote, or None where it is no frame, exactly."""
    kind = line[:2]
    widths = WIDTHS.get(kind)
    if widths is None or len(line) != 2 + 2 * sum(widths) or any(c not in '0123456789ABCDEF' for c in line):
        return None
    fields, at = [], 2
    for width in widths:
        fields.append(int(line[at:at + 2 * width], 16))
        at += 2 * width
    return kind, tuple(fields)
