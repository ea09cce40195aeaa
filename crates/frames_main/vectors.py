"""Writes the lines that frames_main reads and what it must write, from the rule of the frames alone (docs/RULE.md, Frames).

    python3 vectors.py stdin stdout

It shares no code and no table with the crates: a line is matched by a regular expression, and numbers are read and written by
Python's own hexadecimal.
"""
import re
import sys

FRAMES = {  # kind: widths, named
    '4E': ((2,), True),
    '51': ((1, 2, 2, 4), True),
    '52': ((2, 1, 1, 1), False),
    '45': ((2, 4, 2, 2), False),
    '58': ((1, 4), False),
}
ORDER = ['4E', '51', '52', '45', '58']


def write(kind, numbers, name=b''):
    widths, named = FRAMES[kind]
    text = kind + ''.join('%0*X' % (2 * w, n) for w, n in zip(widths, numbers))
    if named:
        text += '%02X' % len(name) + ''.join('%02X' % b for b in name)
    return text.encode() + b'\n'


def read(kind, line):
    """None where the line is no frame of the kind, else its numbers and its name."""
    widths, named = FRAMES[kind]
    pattern = kind + ''.join('([0-9A-F]{%d})' % (2 * w) for w in widths)
    if named:
        pattern += '([0-9A-F]{2})((?:[0-9A-F]{2})*)'
    m = re.fullmatch(pattern.encode() + b'\n', line)
    if not m:
        return None
    groups = [g.decode() for g in m.groups()]
    numbers = [int(g, 16) for g in groups[:len(widths)]]
    if not named:
        return numbers, b''
    name = bytes.fromhex(groups[-1])
    return (numbers, name) if len(name) == int(groups[-2], 16) else None


def shown(kind, line):
    widths, named = FRAMES[kind]
    got = read(kind, line)
    out = kind.encode()
    buffer = b'.' * 8
    if got is None:
        number, numbers, name = 11, [0] * len(widths), b''
    elif len(got[1]) > 8:
        number, numbers, name = 8, [0] * len(widths), b''
    else:
        number, (numbers, name) = 0, got
        buffer = name + buffer[len(name):]
    row = [number] + numbers + [len(name)] if named else ([0] + numbers if number == 0 else [11])
    out += b''.join(b' %d' % n for n in row)
    if named:
        out += b' ' + buffer
    out += b'\n'
    if got is not None:
        # into dots, as many as the line is long, then one fewer; what is left, and one byte beyond
        out += b' wrote 0 %d ' % len(line) + write(kind, *got) + b'.\n'
        out += b' wrote 8 0 ' + b'.' * len(line) + b'\n'
    return out


GOOD = [
    ('4E', [10], b'LANE'), ('4E', [11], b'LANES'), ('4E', [12], b'PLANE'),
    ('4E', [0], b''), ('4E', [65535], b'X'), ('4E', [256], b'EIGHTLET'), ('4E', [255], b'NINELETTE'),
    ('4E', [4660], bytes(range(255))), ('4E', [1], b'A' * 254),
    ('51', [1, 8, 13, 15], b'LANE'), ('51', [0, 0, 0, 0], b''), ('51', [255, 65535, 65535, 4294967295], b'Z'),
    ('51', [4, 700, 1000, 16909060], b'EIGHTLET'), ('51', [2, 1, 2, 3], b'NINELETTE'),
    ('51', [3, 258, 772, 84281096], bytes(range(255, 0, -1))),
    ('52', [10, 6, 6, 4], b''), ('52', [11, 4, 7, 4], b''), ('52', [12, 4, 7, 4], b''),
    ('52', [0, 0, 0, 0], b''), ('52', [65535, 255, 255, 255], b''), ('52', [4660, 86, 120, 154], b''),
    ('45', [3, 15, 8, 13], b''), ('45', [0, 0, 0, 0], b''), ('45', [65535, 4294967295, 65535, 65535], b''),
    ('45', [4660, 1450744508, 39612, 57072], b''),
    ('58', [7, 14], b''), ('58', [0, 0], b''), ('58', [255, 4294967295], b''), ('58', [11, 305419896], b''),
]


def lines():
    for kind, numbers, name in GOOD:
        yield write(kind, numbers, name)
    for kind in ORDER:
        widths, named = FRAMES[kind]
        numbers = [0x0A + i for i in range(len(widths))]
        good = write(kind, numbers, b'LANE' if named else b'')
        body = good[:-1]
        yield body                                  # no line feed
        yield good + b'\n'                          # a second one
        yield b'\n' + good
        yield body[:4] + b'\n' + body[4:] + b'\n'   # one within
        yield body + b'\r\n'
        yield body + b' \n'
        yield body + b'\n ' 
        yield body[:-2] + b'\n'                     # a byte too few
        yield body + b'00\n'                        # a byte too many
        yield body[:-1] + b'\n'                     # half a byte too few
        yield body + b'0\n'                         # half a byte too many
        yield body[1:] + b'\n'
        yield body[2:] + b'\n'                      # no kind
        yield body.replace(b'A', b'a') + b'\n'      # lower case
        yield body.lower() + b'\n'
        yield b'4F' + body[2:] + b'\n'              # an unknown kind
        yield b'00' + body[2:] + b'\n'
        yield kind.lower().encode() + body[2:] + b'\n'
        yield kind[::-1].encode() + body[2:] + b'\n'
        yield kind.encode() + b'\n'                 # the kind alone
        for other in b'/:@G`g\x00\xff':             # no digit, beside the digits on either side
            yield body[:5] + bytes([other]) + body[6:] + b'\n'
            yield body[:-2] + bytes([other]) + body[-1:] + b'\n'
            yield body[:-1] + bytes([other]) + b'\n'
        if named:
            at = len(body) - 2 * 4 - 2
            for n in (0, 3, 5, 255):                # a length byte that disagrees
                yield body[:at] + b'%02X' % n + body[at + 2:] + b'\n'
            yield body[:at] + b'\n'                 # no length byte
            yield body[:at] + b'00\n'               # and one that says none
            yield body[:at] + b'01\n'
            yield body[:at] + b'FF' + b'41' * 254 + b'\n'
            yield body[:at] + b'FF' + b'41' * 255 + b'\n'
            yield body[:at] + b'FF' + b'41' * 256 + b'\n'
            yield body[:at] + b'00' + b'41' * 256 + b'\n'
    yield b''
    yield b'\n'
    yield b'\n\n'
    yield b'4\n'
    yield b'4E'
    yield b'0\n'
    yield b'00\n'


everything = list(lines())
assert all(b'|' not in l for l in everything)
expected = b''.join(shown(kind, line) for line in everything for kind in ORDER)
for room in (600, 3, 600, 3):                       # 256 bytes of name, with room for them and without
    expected += b' wrote 2 0 ' + b'.' * (room + 1) + b'\n'
sent = b''.join(l + b'|' for l in everything)
assert len(sent) <= 65536
open(sys.argv[1], 'wb').write(sent)
open(sys.argv[2], 'wb').write(expected)
print(len(everything), 'lines,', len(sent), 'bytes;', len(expected), 'bytes expected')
