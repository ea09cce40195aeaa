"""`find`: the registered names that are like a typed one."""
import os

from . import frames, reading, registers
from .errors import Broken, Refused
from .exact import MEASURES, Similarity, threshold
from .numbers import sentence
from .programs import MOST_ALLOWANCE, Number
from .text import count, quoted, shown, table

HOW = {1: '2c / (x + y)', 2: 'c / (x + y - c)', 3: 'c / √(xy)', 4: 'c / min(x, y)'}
# beside a name that shares no more than the least count of its size
ONLY_JUST = 'only just'
# groups of three letters over a name with two marks before it and two after it
MORE_FEATURES = 2


class Question:
    """What is asked: a name as it was typed, byte for byte, a measure, a threshold and an allowance."""

    def __init__(self, options):
        self.name, self.bytes = options.name, os.fsencode(options.name)
        self.measure, self.called = MEASURES[options.measure], options.measure
        self.p, self.q = threshold(options.threshold)
        self.allowance = options.allowance
        self.size = len(self.bytes) + MORE_FEATURES

    def by(self):
        return f'{self.called} at {self.p}/{self.q}'

    def frame(self, text=None):
        return frames.query(self.measure, self.p, self.q, self.allowance, self.bytes if text is None else text)


def find(options):
    asked = Question(options)
    pools = reading.register(options.register)
    registers.judge(options.register, pools, asked.frame(b''), f'{asked.p}/{asked.q}')
    found = answer(asked, pools)
    names = {pool.id: pool.name for pool in pools}
    rows = [(Similarity(asked.measure, shared, asked.size, size), number, shared, size, least) for number, shared, size, least in found.rows]
    if options.by == 'similarity':
        rows.sort(key=lambda row: (-row[0].key, row[1]))
    if rows:
        print(table(('id', 'name', 'similarity', 'decimal', 'shared', 'least', ''),
                    [(str(number), shown(names[number]), alike.fraction, alike.decimal, str(shared), str(least), ONLY_JUST if shared == least else '')
                     for alike, number, shared, _, least in rows],
                    right=('id', 'similarity', 'decimal', 'shared', 'least')))
    else:
        print(f'No registered name is like {quoted(asked.name)} by {asked.by()}. The register was searched whole.' + in_small_letters(asked, pools))
    if options.explain:
        print('\n' + explained(asked, found, rows))
    return 0 if rows else 1


def answer(asked, pools):
    if len(asked.bytes) > frames.LONGEST_NAME:
        raise Refused(f'{quoted(asked.name)}: {sentence(2)}')
    if asked.allowance == MOST_ALLOWANCE:
        found = registers.search(pools, [asked.frame()])[0]
    else:
        # an allowance is that of one search, so the register is not parted
        answers = registers.asked(pools, [asked.frame()])
        found = answers if isinstance(answers, Number) else answers[0]
    if isinstance(found, Number):
        raise Refused(f'{quoted(asked.name)}: {sentence(found.number)}')
    if any(not 1 <= least <= shared <= min(asked.size, size) for _, shared, size, least in found.rows):
        raise Broken('lookup listed a name with counts of shared features that no name has, and nothing of its output is used.')
    return found


def in_small_letters(asked, pools):
    """Capital and small letters are different letters. Where that alone keeps names out, it is worth a hint; they are not listed for that."""
    small = [reading.Pool(pool.id, pool.name.lower(), pool.line) for pool in pools]
    typed = asked.name.lower().encode('utf-8', 'surrogateescape')
    if any(len(each) > frames.LONGEST_NAME for each in [typed] + [pool.bytes for pool in small]):
        return ''
    try:
        found = registers.search(small, [frames.query(asked.measure, asked.p, asked.q, MOST_ALLOWANCE, typed)])[0]
    except Refused:
        return ''
    if isinstance(found, Number) or not found.rows:
        return ''
    names = {pool.id: pool.name for pool in pools}
    return ('\nCapital and small letters are different letters. In small letters throughout it would be like '
            + ', '.join(f'{shown(names[row[0]])} ({row[0]})' for row in found.rows) + '.')


def explained(asked, found, rows):
    lines = [f'{quoted(asked.name)} has x = {asked.size} features: its groups of three letters, with two marks before it and two after it.',
             f'A name with y features, c of them shared, is listed exactly if {HOW[asked.measure]} is at least {asked.p}/{asked.q}.']
    lines += [f'  id {number}: y = {size}, c = {shared} where {least} would do: {alike.fraction}' for alike, number, shared, size, least in rows]
    lines.append(f'Decimals are rounded down. The search took {count(found.touches, "touch", "touches")}.')
    return '\n'.join(lines)
