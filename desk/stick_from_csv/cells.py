"""The numbers in a log's cells: decimal numbers, taken as they are written, without a mark between thousands."""

import re

from .exact import fraction_of
from .words import Refused, commas, kept, quoted

MARKS = {'.': 'point', ',': 'comma'}
# What parts thousands in some countries, besides points and commas.
PARTING = re.compile("[0-9][\\s'\u2019_\u202f\u00a0][0-9]")
LONGEST = 60

# A hyphen or the sign itself.
SIGN = r'([+\-\u2212]?)'
NUMBER = re.compile(SIGN + r'(?=[.,]?[0-9])[0-9]*([.,])[0-9]*(?:[eE][+-]?[0-9]+)?')
# One mark with three digits behind it and one to three before it, which may as well be thousands.
EITHER = re.compile(SIGN + r'[1-9][0-9]{0,2}[.,][0-9]{3}')


class Cells:
    """How the cells of a log are read. Of the decimal mark it is known whether it was said or where it was seen."""

    def __init__(self, decimal, missing, seen=''):
        self.decimal = decimal
        self.missing = missing
        self.seen = seen
        self.pattern = re.compile(rf'{SIGN}([0-9]*)(?:{re.escape(decimal)}([0-9]*))?(?:[eE]([+-]?[0-9]{{1,3}}))?')

    def parts(self, text):
        """Sign, digits before and behind the mark, and the power of ten. ValueError says why it is no number."""
        match = self.pattern.fullmatch(text)
        if match and len(text) <= LONGEST:
            sign, whole, behind, exponent = match.groups()
            if whole or behind:
                return sign, whole or '0', behind or '', int(exponent or 0)
        raise ValueError(self.why(text))

    def double(self, text, shift):
        """The double closest to a number with its point moved: exactly that number, rounded once."""
        sign, whole, behind, exponent = self.parts(text)
        return float(f'{"-" if sign and sign != "+" else ""}{whole}.{behind}e{exponent + shift}')

    def exact(self, text):
        return fraction_of(*self.parts(text))

    def why(self, text):
        other = '.' if self.decimal == ',' else ','
        if not any(letter.isdigit() for letter in text) or len(text) > LONGEST:
            return (f'{quoted(text)} is no number; if it stands for a missing reading, list it in [log], as in '
                    + kept('missing = ["-", "n/a"]'))
        if PARTING.search(text) or text.count(self.decimal) > 1 or 0 <= text.find(other) < text.find(self.decimal):
            return f'{quoted(text)} has a thousands separator: export the log without them'
        if other in text:
            return (f'{quoted(text)} has a {MARKS[other]}, and the decimal mark of this log is the '
                    f'{MARKS[self.decimal]}{self.seen}: if it is a thousands separator, export the log without them; '
                    'if not, say ' + kept(f'decimal = "{other}"') + ' in [log]')
        return f'{quoted(text)} is no number; a cell has a number alone, without a unit'


def decimal_mark(table, places, missing):
    """The cells of a log whose decimal mark was not said: the first number shows it that can be read in one way."""
    doubtful = None
    for row, cells in table.rows():
        for place in places:
            text = cells[place].strip() if place < len(cells) else ''
            if '.' not in text and ',' not in text:
                continue
            mark = shown_mark(text)
            if mark:
                return Cells(mark, missing, f', by row {commas(row)}, column {table.column(place)}')
            if doubtful is None and EITHER.fullmatch(text):
                doubtful = row, place, text
    if doubtful and not (table.delimiter == ',' and '.' in doubtful[2]):
        row, place, text = doubtful
        raise Refused(table.name, f'Row {commas(row)}, column {table.column(place)}: {quoted(text)} could be read with '
                                  'three decimals or as thousands, and no other number shows which. Say '
                                  + kept('decimal = "."') + ' or ' + kept('decimal = ","') + ' in [log].')
    return Cells('.', missing)


def shown_mark(text):
    """The decimal mark that a cell can only have, or None."""
    if '.' in text and ',' in text:
        return max('.,', key=text.rindex)
    match = NUMBER.fullmatch(text)
    if match and not EITHER.fullmatch(text):
        return match.group(2)
    return None
