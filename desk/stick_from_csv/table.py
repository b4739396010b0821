"""The log as a table: its letters, what parts its cells, its header, and the columns that the site file names."""

import codecs
import csv
import io
import re
from dataclasses import dataclass

from .plan import folded
from .words import Refused, commas, joined, kept, many, nearest, ordinal, quoted, some

# Of a log that is longer no stick could hold much, and it is all kept while it is read.
MOST_BYTES = 1 << 30
PIECE = 1 << 20
DELIMITERS = {';': 'semicolons', '\t': 'tabs', ',': 'commas'}
SEPARATOR_LINE = re.compile(r'sep=(.)')
# How far down a header is looked for, to say where it is.
HEADER_ROWS = 30

WORKBOOK = 'It is a workbook of a spreadsheet, not a log: open it there and save it as CSV.'
FOREIGN = (
    (b'PK\x03\x04', WORKBOOK),
    (b'\xd0\xcf\x11\xe0', WORKBOOK),
    (b'\x01\x00\x06', 'It begins like a stick, not like a log: import check says what is on it.'),
    (b'%PDF', 'It is a PDF, not a log: ask for the log as CSV.'),
)
MARKS = ((codecs.BOM_UTF8, 'utf-8-sig'), (codecs.BOM_UTF16_LE, 'utf-16'), (codecs.BOM_UTF16_BE, 'utf-16'))
ENCODINGS = {'utf-8': 'UTF-8', 'utf-8-sig': 'UTF-8 with a byte order mark', 'utf-16': 'UTF-16', 'cp1252': 'Latin-1'}


class Broken(Exception):
    """A row that cannot be parted into cells."""

    def __init__(self, row):
        super().__init__(row)
        self.row = row

    def refused(self, name):
        return Refused(name, f'Row {commas(self.row)} cannot be parted into cells: a quote in it is not closed, '
                             'something stands between a closing quote and the next cell, or a cell is too long.')


@dataclass
class Table:
    """A log whose header is read: rows() gives its rows as often as it is asked for them."""
    name: str
    data: bytes
    encoding: str
    delimiter: str
    header_row: int
    names: list
    places: dict

    def rows(self):
        """Each row behind the header with its number, as a spreadsheet counts them, the first row being 1."""
        try:
            for row, cells in records(self.data, self.encoding, self.delimiter):
                if row > self.header_row:
                    yield row, cells
        except Broken as broken:
            raise broken.refused(self.name) from None

    def column(self, place):
        return quoted(self.names[place])

    def left_out(self):
        """The names of the columns that nothing was asked of."""
        used = {place for places in self.places.values() for place in places}
        return [name for place, name in enumerate(self.names) if place not in used and name]


def letters(data):
    """The encoding: UTF-8, unless a mark says otherwise or the bytes cannot be that."""
    for mark, encoding in MARKS:
        if data.startswith(mark):
            return encoding
    decoder = codecs.getincrementaldecoder('utf-8')()
    try:
        for at in range(0, len(data), PIECE):
            decoder.decode(data[at:at + PIECE])
        decoder.decode(b'', final=True)
        return 'utf-8'
    except UnicodeDecodeError:
        return 'cp1252'


def look(name, data, encoding):
    """Refuses what is no text."""
    for start, words in FOREIGN:
        if data.startswith(start):
            raise Refused(name, words)
    if not data.strip():
        raise Refused(name, 'It is empty: export the log again.')
    if encoding != 'utf-16' and b'\0' in data:
        raise Refused(name, f'It is no text: byte {commas(data.index(0))} is 0. Export the log as CSV.')


def text_of(data, encoding):
    return io.TextIOWrapper(io.BytesIO(data), encoding=encoding, errors='replace', newline='')


def records(data, encoding, delimiter):
    """Every row of the file with its number."""
    reader = csv.reader(text_of(data, encoding), delimiter=delimiter, strict=True)
    row = 0
    while True:
        row += 1
        try:
            cells = next(reader)
        except StopIteration:
            return
        except csv.Error:
            raise Broken(row) from None
        yield row, cells


def first_rows(data, encoding, delimiter, most):
    """The names in each of the first rows, as far as they can be parted."""
    rows = []
    try:
        for _, cells in records(data, encoding, delimiter):
            rows.append([folded(cell) for cell in cells])
            if len(rows) == most:
                break
    except Broken:
        pass
    return rows


def separator(data, encoding):
    """What a first line such as sep=; says, which is there for a spreadsheet, or None."""
    match = SEPARATOR_LINE.fullmatch(text_of(data, encoding).readline(10).strip('\r\n'))
    return match.group(1) if match and match.group(1) in DELIMITERS else None


def open_table(name, data, plan):
    """The table of a log, with a place for every column that the site file names."""
    encoding = letters(data)
    look(name, data, encoding)
    marked = separator(data, encoding)
    header_row = plan.header_row or (2 if marked else 1)
    wanted = [column for _, column in plan.roles()]
    said = plan.delimiter or marked
    headers = {}
    for mark in [said] if said else DELIMITERS:
        rows = first_rows(data, encoding, mark, header_row)
        headers[mark] = trimmed(rows[header_row - 1]) if len(rows) == header_row else []
    # The delimiter that finds most of the names; and of two that find as many, the one that gives more cells.
    best = max(headers, key=lambda mark: (sum(column in headers[mark] for column in wanted), len(headers[mark])))
    table = Table(name, data, encoding, best, header_row, headers[best], {})
    if not all(column in table.names for column in wanted):
        if not table.names:
            # Where a row up to the header cannot be parted, that is what is wrong.
            next(table.rows(), None)
        raise Refused(name, *lacking(table, wanted))
    for role, column in plan.roles():
        table.places.setdefault(role, []).append(place_of(table, column))
    return table


def trimmed(names):
    """A header without the empty cells at its end."""
    while names and not names[-1]:
        names.pop()
    return names


def place_of(table, column):
    places = [place for place, name in enumerate(table.names) if name == column]
    if len(places) > 1:
        raise Refused(table.name, f'The header has {many(len(places), "column")} of the name {quoted(column)}, the '
                                  f'{joined(ordinal(place + 1) for place in places)}: give each a name of its own.')
    return places[0]


def lacking(table, wanted):
    """What to say of columns that are not there."""
    names = [name for name in table.names if name]
    for column in wanted:
        if column not in names:
            close = nearest(column, names)
            yield f'There is no column {quoted(column)}' + (f'; is {quoted(close)} meant?' if close else '.')
    there = f'It has the columns {some([quoted(name) for name in names], 12)}.' if names else 'It has no names.'
    yield (f'The header is row {commas(table.header_row)}, read with {DELIMITERS[table.delimiter]} between its cells. '
           f'{there}')
    yield from elsewhere(table, wanted)


def elsewhere(table, wanted):
    """Where all columns would be found: with another delimiter, or in another row."""
    for mark, words in DELIMITERS.items():
        for row, names in enumerate(first_rows(table.data, table.encoding, mark, HEADER_ROWS), 1):
            if set(wanted) <= set(names):
                said = [] if mark == table.delimiter else [f'delimiter = "{"tab" if mark == chr(9) else mark}"']
                said += [] if row == table.header_row else [f'header_row = {row}']
                yield f'Row {row}, read with {words}, has them all: say {joined(map(kept, said))} in [log].'
                return
