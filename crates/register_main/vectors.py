# Writes the cases of register_main, one a line: the length of a slice and the bytes of a register. The edges of the rule, one after the other.
#   python3 vectors.py >stdin
#   second build <stdin >stdout      (the second program, second/README.md)


def line(id, name):
    return ("4E%04X%02X" % (id, len(name)) + name.hex().upper() + "\n").encode()


def case(length, register):
    print(length, register.hex().upper() or "-")


def total(names):  # 3 + N + 4D + P, from the sizes and features of the names
    rows = set()
    postings = 0
    for name in names:
        padded = b"\0\0" + name + b"\0\0"
        seen = {}
        for i in range(len(name) + 2):
            gram = padded[i : i + 3]
            seen[gram] = seen.get(gram, 0) + 1
            rows.add((len(name) + 2, gram, seen[gram]))
            postings += 1
    return 3 + len(names) + 4 * len(rows) + postings


def lengths(names):
    register = b"".join(line(id, name) for id, name in names)
    return register, total([name for _, name in names])


LANES = [(10, b"LANE"), (11, b"LANES"), (12, b"PLANE")]

# a slice of 0 to 3 words, one word short, exact, and longer
for names in [[], LANES, [(0, b"A")], [(65535, b"A" * 64)], [(65535, b"A" * 200)], [(5, b"AAA"), (6, b"AAAA")], [(5, b"A"), (9, b"A")], [(1, bytes(range(32, 96))), (2, bytes(range(192, 256)))]]:
    register, words = lengths(names)
    for length in sorted({0, 1, 2, 3, words - 1, words, words + 1, words + 5}):
        case(length, register)

# each kind of bad line as the first, a middle and the last of five
good = [line(100 + 10 * k, b"NAME%d" % k) for k in range(5)]
bad = [
    "\n", "4E006400\r\n", "4e0064014A\n", "4E0064014a\n", "4E00640141", "4E006401410\n", "4E0064024A\n",
    "4E0064004A\n", "4E0064014A \n", "4E0064\n", "51010001000100000000014A\n", "4E0064004E\n\n", "\0\n",
]
for at in [0, 2, 4]:
    for text in bad:  # 11
        case(170, b"".join(good[:at]) + text.encode() + b"".join(good[at + 1 :]))
    for name in [b"", b"A" * 201, b"A" * 255, b"A\0", b"\0" * 200, b"A\t", b"\x7f" * 200, b"\x1f\0", b" ~\x80"]:  # 1, 2, 2, 3, 3, 12, 12, 3, good
        case(170, b"".join(good[:at]) + line(100 + 10 * at, name) + b"".join(good[at + 1 :]))
    for id in [0, 100 + 10 * (at - 1) - 1, 100 + 10 * (at - 1), 100 + 10 * (at - 1) + 1]:  # 9 up to the id before, and good from there on
        case(170, b"".join(good[:at]) + line(id, b"NAME") + b"".join(good[at + 1 :]))

# two faults in one line: the order of judging
for name, id in [(b"", 0), (b"A" * 201, 0), (b"\0", 0), (b"\0" * 201, 0), (b"\0" * 201, 200), (b"\t", 0), (b"\t" * 201, 0)]:  # 1, 2, 3, 2, 2, 12, 2
    case(60, good[0] + line(id, name))
case(60, good[0] + line(0, b"J"))  # 9
case(60, good[0] + line(0, b"J").replace(b"4A", b"4a"))  # 11

# two bad lines: the first decides
case(60, good[0] + line(0, b"B") + b"\n")
case(60, good[0] + b"\n" + line(0, b"B"))
case(60, line(7, b"") + line(8, b"\0") + line(9, b"A" * 201))
case(60, line(7, b"A" * 201) + line(8, b"") + b"4E")

# the end of a register: no line feed, nothing but line feeds, an empty line behind the last
whole = b"".join(good)
for register in [whole[:-1], whole + b"4", whole + b"\n", b"\n", b"\n\n", b"4", whole + good[4][:-1], good[0][:-1], whole[:-2], b"\n" + whole, good[0] + b"\n" + good[1]]:
    case(170, register)
    case(2, register)

# 255, 256 and 257 names; a 257th name that is bad otherwise, too
for count in [255, 256, 257, 258]:
    names = [(id, b"A") for id in range(count)]
    register, words = lengths(names)
    for length in [words - 1, words, words + 2] if count < 257 else [20]:
        case(length, register)
many = b"".join(line(id, b"A") for id in range(256))
for text in [b"\n", line(300, b""), line(300, b"A" * 201), line(300, b"\0"), line(300, b"\t"), line(255, b"A"), line(256, b"A")]:  # 11, 1, 2, 3, 12, 9, 10
    case(20, many + text)

# many postings: 256 names of 64 bytes
register, words = lengths([(id, b"A" * 64) for id in range(0, 65536, 256)])
case(words, register)
