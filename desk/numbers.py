"""Every number that a caller can get: what it means, and what to do. The meanings are those of docs/RULE.md; a test holds them to it."""

# number: (when it is given, in the words of docs/RULE.md; what to do)
NUMBERS = {
    0: ('answered', 'nothing is to be done'),
    1: ('name or query is empty', 'type a name'),
    2: ('name or query is longer than 200 bytes', 'shorten it; a letter with an accent takes two bytes or more'),
    3: ('name or query holds a 0 byte', 'type it again by hand'),
    4: ('the measure is not 1 to 4', 'choose dice, jaccard, cosine or overlap'),
    5: ('the threshold is not p/q with 1 ≤ p ≤ q ≤ 1000', 'give a fraction such as 3/5, or a decimal such as 0.6'),
    6: ('the index is not good', 'this is no fault of your files: report it'),
    7: ('the search needs more touches than its allowance', 'give a larger --allowance, or leave it out'),
    8: ('there are more rows, words, bytes, outcomes or pairs than room is lent for', 'use a smaller register'),
    9: ("a register's id is not above the id of the line before", 'give each pool an id of its own'),
    10: ('a register has more than 256 names', 'use a smaller register'),
    11: ('a line is not a frame of its kind', 'this is no fault of your files: report it'),
    12: ('name or query holds a control character other than 0: a byte from 1 to 31, or 127', 'type it again without tabs and line feeds'),
    13: ('a withdrawal: the id is not live', 'withdraw an id that a name has'),
}

UNKNOWN = ('a number that this desk does not know', 'report it')


def sentence(number):
    """A refusal in one sentence, with its number and what to do."""
    meaning, advice = NUMBERS.get(number, UNKNOWN)
    return f'{meaning} (number {number}): {advice}.'
