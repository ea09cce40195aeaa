"""Numbers as people write them, taken exactly or not at all, and shown again. Nothing here is a float."""
import re
from fractions import Fraction
from math import isqrt

from .errors import Refused
from .numbers import sentence
from .text import quoted

MEASURES = {'dice': 1, 'jaccard': 2, 'cosine': 3, 'overlap': 4}
# in hundredths: the number above it stands for a missing reading in a frame
LARGEST_READING = 65534


def threshold(text):
    """p and q of a threshold: of `3/5` as they stand, of a decimal in lowest terms. Whether they are a good threshold the programs say."""
    typed = text.strip()
    parts = re.fullmatch(r'([0-9]{1,9}) */ *([0-9]{1,9})', typed)
    if parts:
        p, q = int(parts[1]), int(parts[2])
    elif re.fullmatch(r'[0-9]{1,9}([.][0-9]{1,9})?|[.][0-9]{1,9}', typed):
        p, q = Fraction(typed).as_integer_ratio()
    else:
        raise Refused(f'the threshold {quoted(text)} is no fraction such as 3/5 and no decimal such as 0.6.')
    if p > 65535 or q > 65535:
        raise Refused(f'threshold {quoted(text)}: {sentence(5)}')
    return p, q


def hundredths(text):
    """A reading in milligrams per litre as hundredths; None where the cell is blank. Raises ValueError with a sentence."""
    typed = text.strip()
    if not typed:
        return None
    parts = re.fullmatch(r'([0-9]*)(?:[.]([0-9]+))?', typed)
    if not parts:
        raise ValueError(f'the reading {quoted(typed)} is no number such as 1.25.')
    whole, decimals = parts[1].lstrip('0'), parts[2] or ''
    if len(decimals) > 2:
        raise ValueError(f'the reading {quoted(typed)} has more than two decimals, and nothing is rounded here.')
    value = int(whole + decimals.ljust(2, '0')) if len(whole) <= 3 else LARGEST_READING + 1
    if value > LARGEST_READING:
        raise ValueError(f'the reading {quoted(typed)} is above 655.34.')
    return value


def reading(value):
    """A reading of so many hundredths, as people read it; words where there is none."""
    return 'no reading' if value is None else f'{value // 100}.{value % 100:02d}'


def mean(total, count):
    """The mean of readings with that sum, in hundredths, to two decimals, halves upward; None of no readings."""
    return reading((2 * total + count) // (2 * count)) if count else None


class Similarity:
    """How alike sizes x and y are with so many features shared: a number to sort by, the fraction as text, and three decimals, rounded down."""

    def __init__(self, measure, shared, x, y):
        if measure == 3:
            # c / √(xy), by its square
            self.key, root = Fraction(shared * shared, x * y), isqrt(x * y)
            self.fraction = f'{shared}/{root}' if root * root == x * y else f'{shared}/√{x * y}'
            down = isqrt(10**6 * shared * shared // (x * y))
        else:
            over, under = {1: (2 * shared, x + y), 2: (shared, x + y - shared), 4: (shared, min(x, y))}[measure]
            self.key, self.fraction, down = Fraction(over, under), f'{over}/{under}', 1000 * over // under
        self.decimal = f'{down // 1000}.{down % 1000:03d}'
