"""The weekly sheet: one HTML file that stands alone, for a screen, a phone and paper. Where there is no reading it says so, and the plot has a gap."""
from fractions import Fraction
from html import escape

from .days import date, monday
from .exact import reading
from .numbers import sentence
from .text import count, shown

STYLE = '''
:root { color-scheme: light; --ink: #1b2830; --pale: #55656f; --rule: #cbd5db; --water: #0a6796; --warn: #8a3b00; --gap: #f6ebe3; }
* { box-sizing: border-box; }
body { margin: 0 auto; max-width: 60rem; padding: 1rem; font: 1rem/1.45 system-ui, sans-serif; color: var(--ink); background: #fff; overflow-wrap: anywhere; }
h1 { font-size: 1.4rem; line-height: 1.2; margin: 0 0 .25rem; } h2 { font-size: 1.15rem; margin: 1.75rem 0 .5rem; } h3 { font-size: 1rem; margin: 0 0 .25rem; }
p { margin: .25rem 0; } .pale { color: var(--pale); font-weight: normal; } .warn { color: var(--warn); }
table { border-collapse: collapse; width: 100%; font-variant-numeric: tabular-nums; margin-bottom: 1rem; }
caption { text-align: left; font-weight: bold; padding: .5rem 0 .25rem; }
th, td { text-align: left; padding: .2rem .75rem .2rem 0; border-bottom: 1px solid var(--rule); vertical-align: top; }
th { color: var(--pale); font-weight: normal; } .n { text-align: right; } .none { color: var(--warn); text-align: right; }
.line, .date, .mg { white-space: nowrap; } .person { table-layout: fixed; } .person .line { width: 3.5em; } .person .date { width: 6.75em; } .person .mg { width: 6em; } .person .more { width: 40%; }
.pool { display: grid; grid-template-columns: minmax(0, 1fr) minmax(0, 1fr); gap: 0 1.5rem; padding: .75rem 0; border-top: 2px solid var(--rule); }
.pool h3, .pool p { grid-column: 1 / -1; } .pool table { align-self: start; margin: 0; }
svg { width: 100%; height: auto; display: block; }
svg .mean { fill: none; stroke: var(--water); stroke-width: 2; } svg .dot { fill: var(--water); } svg .gap { fill: var(--gap); }
svg .axis { stroke: var(--rule); } svg text { font-size: 10px; fill: var(--pale); } svg .said { fill: var(--warn); text-anchor: middle; }
@media (max-width: 34rem) {
  .pool { grid-template-columns: minmax(0, 1fr); }
  .person thead { display: none; } .person tbody, .person caption { display: block; } .person tr { display: block; border-bottom: 1px solid var(--rule); padding: .4rem 0; }
  .person td, .person .line, .person .date, .person .mg, .person .more { display: block; border: 0; padding: 0; text-align: left; width: auto; } .person td::before { content: attr(data-is) " "; color: var(--pale); }
}
@media print { body { max-width: none; padding: 0; font-size: 10pt; } .pool, .person tr { break-inside: avoid; } h2, h3, caption { break-after: avoid; } @page { size: A4; margin: 15mm; } }
'''


def page(pools, came, about):
    if came.slots:
        title = f'Readings from {monday(came.slots[0][0])} to {date(7 * came.slots[-1][1] + 6)}'
    else:
        title = 'Readings: the log has no lines'
    body = [f'<h1>{title}</h1>',
            f'<p class="pale">{escape(shown(about))} Weeks begin on Monday. Means are in mg/L, of the readings that are there; halves are rounded up.</p>',
            for_a_person(came), '<h2>Pools</h2>'] + [of_pool(pool, came) for pool in pools]
    return ('<!DOCTYPE html>\n<html lang="en">\n<head>\n<meta charset="utf-8">\n<meta name="viewport" content="width=device-width, initial-scale=1">\n'
            f'<title>{title}</title>\n<style>{STYLE}</style>\n</head>\n<body>\n' + '\n'.join(body) + '\n</body>\n</html>\n')


# ---- what needs a person

def for_a_person(came):
    waits = came.unresolved or came.ambiguous or came.refused
    text = [f'<h2>{"What needs a person" if waits else "No line needs a person"}</h2>',
            f'<p>{came.summary()}{" Only lines that belong to a pool are in its means." if waits else ""}</p>']
    for first, last in came.slots:
        if first != last:
            text.append(f'<p class="warn">The log has no line from {monday(first)} to {date(7 * last + 6)}, {count(last - first + 1, "week", "weeks")}: '
                        'is a date mistyped?</p>')
    if came.unresolved:
        text.append(lines('Unresolved: no registered name is like these', [(entry, None) for entry in came.unresolved], None))
    if came.ambiguous:
        listed = [(entry, ', '.join(f'{shown(pool.name)} ({pool.id})' for pool in found)) for entry, found in came.ambiguous]
        text.append(lines('Ambiguous: several registered names are like these', listed, 'like'))
    if came.refused:
        text.append(lines('Refused: these could not be looked up', [(entry, sentence(number)) for entry, number in came.refused], 'why'))
    return '\n'.join(text)


def lines(caption, rows, more):
    """Lines of the log with their place in the file, and a last column where it has a name."""
    heads = [('line', 'line n'), ('date', 'date'), ('reading', 'mg n'), ('typed', 'typed')] + ([(more, 'more')] if more else [])
    text = [f'<table class="person"><caption>{caption}</caption>',
            '<thead><tr>' + ''.join(f'<th class="{kind}" scope="col">{name}</th>' for name, kind in heads) + '</tr></thead>', '<tbody>']
    for entry, last in rows:
        cells = [str(entry.line), str(date(entry.day)), reading(entry.reading), shown(entry.name) or '(nothing)', last]
        text.append('<tr>' + ''.join(f'<td class="{kind}" data-is="{name}">{escape(cell)}</td>' for (name, kind), cell in zip(heads, cells)) + '</tr>')
    return '\n'.join(text + ['</tbody></table>'])


# ---- a pool

def of_pool(pool, came):
    text = [f'<section class="pool"><h3>{escape(shown(pool.name))} <span class="pale">({pool.id})</span></h3>']
    if pool.id not in came.weeks:
        return '\n'.join(text + ['<p class="warn">no reading: no line of the log belongs to this pool.</p>', '</section>'])
    means = [week_of(pool, came, slot) for slot in came.slots]
    text += [plot(came.slots, means), '<table>', '<thead><tr><th scope="col">week</th><th class="n" scope="col">mean</th><th class="n" scope="col">readings</th></tr></thead>', '<tbody>']
    for slot, there in zip(came.slots, means):
        cell = f'<td class="n">{there.mean()}</td>' if there else '<td class="none">no reading</td>'
        text.append(f'<tr><td class="date">{said(slot)}</td>{cell}<td class="n">{there.count if there else 0}</td></tr>')
    return '\n'.join(text + ['</tbody></table>', '</section>'])


def week_of(pool, came, slot):
    """The readings of the pool there, or None where it has none: a week whose readings are all missing is as one without lines."""
    there = came.week(pool, slot[0]) if slot[0] == slot[1] else None
    return there if there and there.count else None


def said(slot):
    return f'{monday(slot[0])}' if slot[0] == slot[1] else f'{monday(slot[0])} to {date(7 * slot[1] + 6)}'


# the plot's size and margins, in its own units
WIDTH, HEIGHT, LEFT, TOP, BOTTOM = 320, 104, 34, 8, 18


def plot(slots, means):
    """The means week by week: dots, a line through neighbouring weeks, and a band that says "no reading" where there is none."""
    step = Fraction(WIDTH - LEFT, len(slots))
    floor = HEIGHT - BOTTOM
    exact = [Fraction(there.total, there.count) if there else None for there in means]
    highest = max((value for value in exact if value is not None), default=0) or Fraction(1)

    def dot(k):
        return f'{float(LEFT + step * k + step / 2):.1f}', f'{float(floor - (floor - TOP) * exact[k] / highest):.1f}'

    parts = [f'<svg viewBox="0 0 {WIDTH} {HEIGHT}" role="img" aria-label="mean by week">',
             f'<line class="axis" x1="{LEFT}" x2="{WIDTH}" y1="{floor}" y2="{floor}"/>', f'<text x="0" y="{floor}">0.00</text>']
    if any(value for value in exact):
        parts.append(f'<text x="0" y="{TOP + 6}">{means[exact.index(highest)].mean()}</text>')
    for first, last in runs(exact):
        if exact[first] is None:
            parts.append(band(first, last, slots, step, floor))
            continue
        if first < last:
            parts.append('<polyline class="mean" points="' + ' '.join(','.join(dot(k)) for k in range(first, last + 1)) + '"/>')
        for k in range(first, last + 1):
            x, y = dot(k)
            parts.append(f'<circle class="dot" cx="{x}" cy="{y}" r="2.5"><title>{said(slots[k])}: {means[k].mean()}</title></circle>')
    parts.append(f'<text x="{LEFT}" y="{HEIGHT - 5}">{monday(slots[0][0])}</text>')
    if len(slots) > 1:
        parts.append(f'<text x="{WIDTH}" y="{HEIGHT - 5}" text-anchor="end">{monday(slots[-1][1])}</text>')
    return '\n'.join(parts + ['</svg>'])


def runs(values):
    """The stretches, as (first, last), that are all numbers or all None."""
    out = []
    for k, value in enumerate(values):
        if out and (values[k - 1] is None) == (value is None):
            out[-1] = (out[-1][0], k)
        else:
            out.append((k, k))
    return out


def band(first, last, slots, step, floor):
    left, width = LEFT + step * first, step * (last - first + 1)
    x, y = float(left + width / 2), (TOP + floor) / 2
    # the words stand upright where they are too wide, and in the title alone where that is too narrow for them too
    turn = f' transform="rotate(-90 {x:.1f} {y:.1f})"' if width < 56 else ''
    words = f'<text class="said" x="{x:.1f}" y="{y:.1f}" dominant-baseline="central"{turn}>no reading</text>' if width >= 12 else ''
    return (f'<rect class="gap" x="{float(left):.1f}" y="{TOP}" width="{float(width):.1f}" height="{floor - TOP}">'
            f'<title>{monday(slots[first][0])} to {date(7 * slots[last][1] + 6)}: no reading</title></rect>{words}')
