"""`import`: a log to the readings of each pool and week, as a sheet and a table."""
import csv
import io
import sys

from . import frames, reading, registers, sheet, writing
from .days import monday
from .errors import Broken
from .exact import MEASURES, mean, threshold
from .numbers import sentence
from .programs import AMBIGUOUS, BELONGS, MOST_ALLOWANCE, UNRESOLVED, Found, Imported, importer
from .text import count, quoted, shown

# as many lines as the importer takes at once, and as many queries as the lookup is asked at once
MOST_LINES = 1024
QUERIES = 64
# a longer stretch of weeks in which the log has no line is said once, and not week by week
LONG = 8


class Week:
    """The readings of a pool in a week: their sum in hundredths, and how many there are."""

    def __init__(self):
        self.total = self.count = 0

    def mean(self):
        return mean(self.total, self.count)


class Came:
    """What came of a log: the weeks of each pool, how many lines belong, how many of these have no reading, and the lines that need a person."""

    def __init__(self, entries):
        self.entries, self.weeks, self.belong, self.missing = entries, {}, 0, 0
        self.unresolved, self.ambiguous, self.refused = [], [], []
        self.slots = slots(sorted({entry.day // 7 for entry in entries}))

    def week(self, pool, week):
        """The readings of a pool in a week, or None where no line belongs."""
        return self.weeks.get(pool.id, {}).get(week)

    def summary(self):
        without = f' ({self.missing:,} without a reading)' if self.missing else ''
        return (f'{count(len(self.entries), "line", "lines")}: {self.belong:,} belong{without}, {len(self.unresolved):,} unresolved, '
                f'{len(self.ambiguous):,} ambiguous, {len(self.refused):,} refused.')


def slots(weeks):
    """The weeks from the first to the last of a log, as (first, last): each by itself, but a long stretch without a line as one."""
    all_of = []
    for week in weeks:
        if all_of:
            after = all_of[-1][1] + 1
            all_of += [(after, week - 1)] if week - after > LONG else [(w, w) for w in range(after, week)]
        all_of.append((week, week))
    return all_of


def import_log(options):
    measure, (p, q) = MEASURES[options.measure], threshold(options.threshold)
    outputs = [path for path in (options.sheet, options.table) if path]
    writing.judge(outputs, [options.register, options.log])
    pools = reading.register(options.register)
    entries = reading.log(options.log)
    settings = frames.query(measure, p, q, options.allowance)
    registers.judge(options.register, pools, settings, f'{p}/{q}')
    came = Came(entries)
    progress(0, len(entries))
    for at in range(0, len(entries), MOST_LINES):
        take(came, pools, settings, entries[at:at + MOST_LINES])
        progress(min(at + MOST_LINES, len(entries)), len(entries))
    name_candidates(came, pools, measure, p, q)
    texts = []
    if options.sheet:
        texts.append((options.sheet, sheet.page(pools, came, f'Log {options.log}, register {options.register}; names compared by {options.measure}, {p}/{q}.')))
    if options.table:
        texts.append((options.table, table(pools, came)))
    writing.write_all(texts)
    print(came.summary())
    if not options.sheet:
        for line in waiting(came):
            print(f'{options.log}, {line}')
    print(f'Written: {", ".join(outputs)}.' if outputs else 'Nothing is written: give --sheet FILE or --table FILE.')
    return 0


def take(came, pools, settings, entries):
    """One part of the log: its sums are added to those of the parts before it."""
    got = importer(registers.text(pools), settings, ''.join(frames.log(entry.day, entry.reading, entry.bytes) for entry in entries))
    if not isinstance(got, Imported):
        part, number, line = got
        raise Broken(f'importer refused part {part} with number {number} at line {line}, which cannot be.')
    for entry, (case, value) in zip(entries, got.outcomes):
        if case == BELONGS:
            came.belong += 1
            came.missing += entry.reading is None
        elif case == UNRESOLVED:
            came.unresolved.append(entry)
        elif case == AMBIGUOUS:
            came.ambiguous.append((entry, []))
        else:
            came.refused.append((entry, value))
    known = {pool.id for pool in pools}
    for number, week, total, many in got.pairs:
        if number not in known:
            raise Broken(f'importer wrote a pair of id {number}, which the register does not have.')
        there = came.weeks.setdefault(number, {}).setdefault(week, Week())
        there.total += total
        there.count += many


def name_candidates(came, pools, measure, p, q):
    """Which pools each ambiguous name is like. A list does not depend on the allowance, so these searches have no limit."""
    typed = sorted({entry.bytes for entry, _ in came.ambiguous})
    names = {pool.id: pool for pool in pools}
    found = {}
    for at in range(0, len(typed), QUERIES):
        part = typed[at:at + QUERIES]
        found.update(zip(part, registers.search(pools, [frames.query(measure, p, q, MOST_ALLOWANCE, text) for text in part])))
    for entry, candidates in came.ambiguous:
        answer = found[entry.bytes]
        if not isinstance(answer, Found) or len(answer.rows) < 2:
            raise Broken('lookup and importer do not agree on an ambiguous line, which cannot be.')
        candidates += [names[row[0]] for row in answer.rows]


def progress(done, of):
    """A bar, for a log in several parts, on a terminal."""
    if of > MOST_LINES and sys.stderr.isatty():
        full = 40 * done // of
        print(f'\r[{"#" * full}{"." * (40 - full)}] {done:,} of {of:,} lines', end='' if done < of else '\n', file=sys.stderr, flush=True)


def waiting(came):
    """The lines that need a person, in words; they are in the sheet where there is one."""
    for entry in came.unresolved:
        yield f'line {entry.line}: unresolved: no registered name is like {quoted(entry.name)}.'
    for entry, pools in came.ambiguous:
        yield f'line {entry.line}: ambiguous: {quoted(entry.name)} is like {", ".join(f"{shown(pool.name)} ({pool.id})" for pool in pools)}.'
    for entry, number in came.refused:
        yield f'line {entry.line}: refused: {quoted(entry.name)}: {sentence(number)}'


def table(pools, came):
    """A CSV with a row for each pool and week. Where there is no reading the mean says so: a blank could be taken for 0."""
    out = io.StringIO(newline='')
    rows = csv.writer(out, lineterminator='\r\n')
    rows.writerow(('id', 'name', 'week', 'mean', 'readings'))
    for pool in pools:
        for first, last in came.slots:
            if first == last:
                there = came.week(pool, first) or Week()
                rows.writerow((pool.id, pool.name, monday(first), there.mean() or 'no reading', there.count))
    return out.getvalue()
