"""People's files: a register and a log as CSV, each taken exactly or not at all."""
import csv
import io
import re

from .days import day_of
from .errors import Refused
from .exact import hundredths
from .frames import LONGEST_NAME
from .text import quoted


class Pool:
    """A registered name, its id, and its line in the file."""

    def __init__(self, number, name, line):
        self.id, self.name, self.line = number, name, line
        self.bytes = name.encode('utf-8')


class Entry:
    """A line of a log: its day, its reading in hundredths or None, the name as typed, and its line in the file."""

    def __init__(self, day, reading, name, line):
        self.day, self.reading, self.name, self.line = day, reading, name, line
        self.bytes = name.encode('utf-8')


class At:
    """A line of a file, to refuse it at."""

    def __init__(self, path, line):
        self.path, self.line = path, line

    def refuse(self, sentence):
        raise Refused(f'{self.path}, line {self.line}: {sentence}') from None


def text_of(path):
    try:
        with open(path, 'rb') as file:
            text = file.read().decode('utf-8-sig')
    except OSError as why:
        raise Refused(f'{path} cannot be read: {why.strerror}.') from None
    except UnicodeDecodeError as why:
        raise Refused(f'{path} is not UTF-8 text (at byte {why.start}): save it as "CSV UTF-8".') from None
    if '\0' in text:
        raise Refused(f'{path} holds a 0 byte: save it as "CSV UTF-8".')
    return text


def rows_of(path, columns):
    """The rows of a CSV file whose first row names these columns, in any order and among any others: each row's cells by column, and where it
    stands. Rows without any text are passed over."""
    reader = csv.reader(io.StringIO(text_of(path), newline=''), strict=True)
    header, begins = None, 1
    try:
        for cells in reader:
            at, begins = At(path, begins), reader.line_num + 1
            if not any(cell.strip() for cell in cells):
                continue
            if header is None:
                header = headed(at, cells, columns)
                continue
            if len(cells) != len(header):
                at.refuse(f'there are {len(cells)} cells, and the first line has {len(header)}.')
            yield dict(zip(header, cells)), at
    except csv.Error as why:
        At(path, begins).refuse(f'this is no CSV: {why}.')
    if header is None:
        raise Refused(f'{path} is empty: its first line has to name the columns {", ".join(columns)}.')


def headed(at, cells, columns):
    header = [cell.strip().lower() for cell in cells]
    for column in columns:
        if header.count(column) != 1:
            there = 'no column' if column not in header else 'more than one column'
            parted = any(mark in cell for cell in cells for mark in ';\t')
            at.refuse(f'there is {there} "{column}"; the first line has to name the columns {", ".join(columns)}'
                      + (', with commas between them.' if parted else '.'))
    return header


def name_of(at, cell):
    """A name without the blanks around it, short enough for a frame. Whether it is a good name the programs say."""
    name = cell.strip(' ')
    size = len(name.encode('utf-8'))
    if size > LONGEST_NAME:
        at.refuse(f'the name has {size} bytes, and cannot be handed over: at most {LONGEST_NAME} can.')
    return name


def register(path):
    """The pools of a register, by ascending id."""
    pools = {}
    for cells, at in rows_of(path, ('id', 'name')):
        typed = cells['id'].strip()
        if not re.fullmatch('[0-9]{1,9}', typed) or int(typed) > 65535:
            at.refuse(f'the id {quoted(typed)} is no whole number from 0 to 65535.')
        pool = Pool(int(typed), name_of(at, cells['name']), at.line)
        if pool.id in pools:
            at.refuse(f'the id {pool.id} stands in line {pools[pool.id].line} already.')
        pools[pool.id] = pool
    return [pools[number] for number in sorted(pools)]


def log(path):
    """The lines of a log, in their order."""
    entries = []
    for cells, at in rows_of(path, ('date', 'reading', 'name')):
        try:
            reading = hundredths(cells['reading'])
        except ValueError as why:
            at.refuse(str(why))
        typed = cells['date'].strip()
        try:
            day = day_of(typed)
        except ValueError as why:
            at.refuse(f'the date {quoted(typed)} {why}')
        entries.append(Entry(day, reading, name_of(at, cells['name']), at.line))
    return entries
