"""Tables in Markdown, and the bars that their rows are held to."""


class Bars:
    """Each row that has a bar, and whether it meets it."""

    def __init__(self):
        self.rows = []

    def verdict(self, bar, row, met):
        """Notes a row, and answers what its cell says."""
        self.rows.append((bar, row, met))
        return 'met' if met else 'missed'

    def summary(self):
        """A line for each bar: how many rows meet it, and which do not."""
        lines = []
        for bar in dict.fromkeys(bar for bar, _, _ in self.rows):
            rows = [(row, met) for name, row, met in self.rows if name == bar]
            missed = [row for row, met in rows if not met]
            lines.append([bar, f'{len(rows) - len(missed)} of {len(rows)}', '; '.join(missed) or 'none'])
        return table(['Bar', 'Rows that meet it', 'Rows that miss it'], lines)


def table(header, rows):
    """A table; all columns but the first are set right where they hold numbers."""
    lines = ['| ' + ' | '.join(header) + ' |']
    numbers = [any(row[i] for row in rows) and all(row[i][:1].isdigit() or not row[i] for row in rows)
               for i in range(len(header))]
    lines.append('|' + '|'.join('---:' if number else '---' for number in numbers) + '|')
    return lines + ['| ' + ' | '.join(row) + ' |' for row in rows]


def short(number):
    """A number in about three digits."""
    if number == 0 or number >= 100:
        return f'{number:,.0f}'
    places = 1 if number >= 10 else 2
    while number < 10 ** (2 - places):
        places += 1
    return f'{number:.{places}f}'


def span(nanoseconds):
    """A time in the unit that suits it."""
    for unit, size in (('s', 1e9), ('ms', 1e6), ('µs', 1e3)):
        if nanoseconds >= size:
            return f'{short(nanoseconds / size)} {unit}'
    return f'{short(nanoseconds)} ns'


def size_name(size):
    """A number of bytes in words."""
    if size == 1 << 30:
        return '1 GiB'
    return f'{size // 1000000} MB' if size >= 1000000 else f'{size // 1000} KB'
