"""The command line."""
import argparse
import os
import re
import sys

from .errors import Broken, Stop
from .exact import MEASURES
from .find import find
from .imports import import_log
from .numbers import NUMBERS
from .programs import MOST_ALLOWANCE
from .text import table


def allowance(text):
    if not re.fullmatch('[0-9]{1,12}', text) or int(text) > MOST_ALLOWANCE:
        raise argparse.ArgumentTypeError(f'"{text}" is no whole number from 0 to {MOST_ALLOWANCE}')
    return int(text)


def parser():
    p = argparse.ArgumentParser(
        prog='rushgirdle', description='Which registered pool names are like this one, and what a log comes to by pool and week.',
        epilog='Status: 0 done, 1 no name is like it, 2 refused (nothing is written), 3 a program failed (nothing is written), or standard output did.')
    commands = p.add_subparsers(dest='command', required=True, metavar='COMMAND')
    choices = argparse.ArgumentParser(add_help=False)
    choices.add_argument('--register', required=True, metavar='FILE', help='a CSV of pools, with the columns id and name')
    choices.add_argument('--measure', choices=sorted(MEASURES), default='dice', help='how likeness is measured (dice)')
    choices.add_argument('--threshold', default='3/5', metavar='P/Q', help='how alike a name has to be: a fraction, or a decimal (3/5)')
    choices.add_argument('--allowance', type=allowance, default=MOST_ALLOWANCE, metavar='N',
                         help='how many touches a search may make; one that needs more is refused (no limit)')
    f = commands.add_parser('find', parents=[choices], help='the registered names that are like a typed one')
    f.add_argument('name', help='the name as it was typed')
    f.add_argument('--by', choices=('similarity', 'id'), default='similarity', help='what the rows are sorted by (similarity)')
    f.add_argument('--explain', action='store_true', help='say how the names were compared')
    f.set_defaults(run=find)
    i = commands.add_parser('import', parents=[choices], help='a log to the readings of each pool and week',
                            description='A log to the readings of each pool and week. Weeks begin on Monday; day 0 is Monday, 5 January 1970.')
    i.add_argument('--log', required=True, metavar='FILE',
                   help='a CSV with the columns date (such as 2026-03-31), reading (in mg/L, at most two decimals, blank where missing) and name')
    i.add_argument('--sheet', metavar='FILE', help='the weekly sheet to write, as HTML')
    i.add_argument('--table', metavar='FILE', help='the means to write, as a CSV')
    i.set_defaults(run=import_log)
    n = commands.add_parser('numbers', help='every number that a refusal can have')
    n.set_defaults(run=numbers)
    return p


def numbers(options):
    print(table(('number', 'given when', 'what to do'), [(str(number), *said) for number, said in sorted(NUMBERS.items())], right=('number',)))
    return 0


def main(words):
    for stream in (sys.stdout, sys.stderr):
        stream.reconfigure(errors='backslashreplace')
    options = parser().parse_args(words)
    try:
        try:
            status = options.run(options)
            sys.stdout.flush()
            return status
        except OSError as why:
            # what is left in the buffer must not be tried again at the end
            os.dup2(os.open(os.devnull, os.O_WRONLY), sys.stdout.fileno())
            raise Broken(f'standard output cannot be written, so the answer is not all there: {why.strerror}.') from None
    except Stop as why:
        print(f'rushgirdle: {why}', file=sys.stderr)
        return why.status
    except KeyboardInterrupt:
        print('rushgirdle: interrupted.', file=sys.stderr)
        return 130
