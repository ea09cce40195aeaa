"""Text for a terminal: names with nothing hidden in them, and tables."""


def shown(text):
    """The text with whatever cannot be seen, or could steer a terminal, spelled out: a tab is `\\t`."""
    return ''.join(c if c.isprintable() else c.encode('unicode_escape', 'surrogatepass').decode('ascii') for c in text)


def quoted(text):
    return f'"{shown(text)}"'


def count(number, one, more):
    """So many things, in words for one of them and for more."""
    return f'{number:,} {one if number == 1 else more}'


def table(head, rows, right=()):
    """Columns side by side, those named in `right` to the right."""
    lines = [head] + rows
    widths = [max(len(line[k]) for line in lines) for k in range(len(head))]
    cells = [[cell.rjust(width) if name in right else cell.ljust(width) for name, cell, width in zip(head, line, widths)] for line in lines]
    return '\n'.join('  '.join(line).rstrip() for line in cells)
