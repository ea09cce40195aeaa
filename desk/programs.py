"""The proved programs, run through their launchers, and their outputs read. An output that is not whole, to the letter, is no answer."""
import os
import subprocess

from . import frames
from .errors import Broken

HERE = os.path.dirname(os.path.dirname(os.path.realpath(__file__)))
MOST_ALLOWANCE = 0xFFFFFFFF


def run(program, text):
    """The frames of what the program wrote. What it says on standard error goes to the desk's own."""
    path = os.path.join(os.environ.get('RUSHGIRDLE_PROGRAMS', HERE), program)
    try:
        ended = subprocess.run([path], input=text.encode('ascii'), stdout=subprocess.PIPE, check=False)
    except OSError as why:
        raise Broken(f'{program} cannot be run: {why.strerror}.') from None
    if ended.returncode < 0:
        raise Broken(f'{program} was ended by signal {-ended.returncode}, and nothing of its output is used.')
    if ended.returncode:
        raise Broken(f'{program} ended with status {ended.returncode}, and nothing of its output is used.')
    lines = ended.stdout.decode('ascii', 'replace').split('\n')
    if lines.pop():
        raise torn(program)
    read = [frames.read(line) for line in lines]
    if None in read:
        raise Broken(f'{program} wrote a line that is none of its frames, and nothing of its output is used.')
    return read


def torn(program):
    return Broken(f'{program} wrote an output that is not whole, and nothing of it is used.')


class Found:
    """An answered search: its rows (id, shared features, size, least count), and its touches."""

    def __init__(self, rows, touches):
        self.rows, self.touches = rows, touches


class Number:
    """A refusal by its number."""

    def __init__(self, number):
        self.number = number


def lookup(register, queries):
    """What was found for each query, or its number; one number alone where the register was refused."""
    # a query more, which is no frame, tells a refused register from a refused query
    read = run('lookup', register + ''.join(queries) + '51\n')
    if len(read) == 1 and read[0][0] == '58':
        return Number(read[0][1][0])
    answers, rows = [], []
    for kind, fields in read:
        if kind == '52':
            rows.append(fields)
        elif kind == '45' and fields[0] == len(rows):
            answers.append(Found(rows, fields[1]))
            rows = []
        elif kind == '58' and not rows:
            answers.append(Number(fields[0]))
        else:
            raise torn('lookup')
    if rows or len(answers) != len(queries) + 1 or not isinstance(answers[-1], Number) or answers[-1].number != 11:
        raise torn('lookup')
    return answers[:-1]


class Imported:
    """What came of an import: a case and a value for each line, and (id, week, sum, count) for each pair."""

    def __init__(self, outcomes, pairs):
        self.outcomes, self.pairs = outcomes, pairs


BELONGS, UNRESOLVED, AMBIGUOUS, REFUSED = 1, 2, 3, 4


def importer(register, settings, log):
    """What came of it, or (part, number, line) where a part was refused."""
    read = run('importer', register + settings + log)
    if len(read) == 1 and read[0][0] == '59':
        return read[0][1]
    outcomes = [fields for kind, fields in read if kind == '4F']
    pairs = [fields for kind, fields in read if kind == '50']
    kinds = ['4F'] * len(outcomes) + ['50'] * len(pairs) + ['5A']
    if [kind for kind, _ in read] != kinds or read[-1][1] != (len(outcomes), len(pairs)) or len(outcomes) != log.count('\n'):
        raise torn('importer')
    if any(case not in (BELONGS, UNRESOLVED, AMBIGUOUS, REFUSED) for case, _ in outcomes):
        raise Broken('importer wrote an outcome of a case that there is none of, and nothing of its output is used.')
    return Imported(outcomes, pairs)
