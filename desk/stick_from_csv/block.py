"""One part of a site file: its values are taken key by key, and what is wrong is kept, so that all is told at once."""

from dataclasses import replace
from fractions import Fraction

from .exact import LONGEST, Number, decimal_words
from .keys import KNOWN, LEAST_POINTS, MOST_POINTS, with_unit
from .words import joined, kept, nearest, plain, quoted, which


class Block:
    """A table of a site file. What cannot be taken is None, and a fault says why."""

    def __init__(self, kind, words, table, faults):
        self.kind = kind
        self.words = words
        self.table = table
        self.faults = faults
        self.misspelt = set()
        self.place = 0
        for key in table:
            if key not in KNOWN[kind]:
                self.unknown(key)

    def fault(self, text):
        self.faults.append(f'{self.words}: {text}{"" if text.endswith("?") else "."}')

    def unknown(self, key):
        close = nearest(key, KNOWN[self.kind])
        homes = [home_words(kind) for kind in KNOWN if key in KNOWN[kind]]
        if homes:
            self.fault(f'the key {quoted(key)} does not belong here, but {joined(homes, "or")}')
        elif close:
            self.misspelt.add(close)
            self.fault(f'the key {quoted(key)} is not known; is {close} meant?')
        else:
            self.fault(f'the key {quoted(key)} is not known; there are {joined(KNOWN[self.kind])}')

    def missing(self, key, example):
        """A key that must be there is not; where its misspelt form was told, that is enough."""
        if key not in self.misspelt:
            self.fault(f'{key} is missing; an example is {kept(f"{key} = {example}")}')

    def has(self, key):
        return key in self.table

    def number(self, key):
        """The number of a key, or None."""
        return self.number_in(self.table[key], key)

    def number_in(self, given, words):
        number = number_of(given)
        if number is not None:
            return number
        self.fault(f'{words} is {kind_of(given)}; it must be a number, without quotes and with a decimal point')
        return None

    def value(self, quantity, default=None):
        """A quantity in the stick's units; the default where the key is not there."""
        if not self.has(quantity.key):
            if default is None:
                self.missing(quantity.key, sample(quantity))
            return default
        number = self.number(quantity.key)
        return None if number is None else self.within(quantity, number)

    def within(self, quantity, number):
        """A number in the stick's units, exactly, or a fault with what it would be."""
        whole = None if number.value is None else number.value * quantity.factor
        if whole is not None and whole.denominator == 1 and quantity.low <= whole <= quantity.high:
            return int(whole)
        self.fault(f'{given_words(quantity, number)} {misfit(quantity, whole)}; it may be {quantity.range_words()}')
        return None

    def at_most(self, quantity, value, limit, most):
        """A value that another of the same block, the limit, is the most of."""
        if value is None or most is None or value <= most:
            return value
        self.fault(f'{given_words(quantity, self.number(quantity.key))} is {value:,} {quantity.stored}; it may be 0 to '
                   f'its {limit.words}, which is {limit.given(most)}')
        return None

    def percent_of(self, key, words, whole, of):
        """So many per cent of a whole number, exactly, at least 0 and at most all of it."""
        number = self.number(key)
        if number is None or whole is None:
            return None
        part = None if number.value is None else number.value * whole / 100
        if part is not None and part.denominator == 1 and 0 <= part <= whole:
            return int(part)
        why = 'is beyond any range' if part is None else f'is {decimal_words(part)} J'
        if part is not None and 0 <= part <= whole:
            why += ', no whole number of them: give it in kWh'
        self.fault(f'{words} {shown(number)} % ({key}) {why}; it may be 0 to 100 % of the {of}')
        return None

    def text(self, key, default=None):
        """A text that is not empty."""
        if not self.has(key):
            return default
        given = self.table[key]
        if isinstance(given, str) and given.strip():
            return given
        self.fault(f'{key} is {kind_of(given)}; it must be a text between quotes')
        return default

    def choice(self, key, names, default=None):
        """One of a few names, or its number."""
        if not self.has(key):
            if default is None:
                self.missing(key, f'"{next(iter(names))}"')
            return default
        given = self.table[key]
        if isinstance(given, int) and not isinstance(given, bool) and given in names.values():
            return given
        if isinstance(given, str):
            for name, number in names.items():
                if name.casefold() == given.strip().casefold():
                    return number
        known = joined((f'"{name}" ({number})' for name, number in names.items()), 'or')
        self.fault(f'{key} is {kind_of(given)}; it may be {known}')
        return None

    def option(self, key, allowed, default=None):
        """One of a few numbers or texts, as they stand."""
        if not self.has(key):
            return default
        given = self.table[key]
        if type(given) in (int, str) and given in allowed:
            return given
        known = joined((f'"{one}"' if isinstance(one, str) else str(one) for one in allowed), 'or')
        self.fault(f'{key} is {kind_of(given)}; it may be {known.encode("unicode_escape").decode()}')
        return None

    def curve(self, x, y):
        """The points of a curve, pairs of x and y, whose x rise."""
        key = x.key
        if not self.has(key):
            self.missing(key, f'[[{sample(x)}, {sample(y)}], ..]')
            return None
        pairs = self.table[key]
        if not isinstance(pairs, list) or not all(isinstance(pair, list) and len(pair) == 2 for pair in pairs):
            self.fault(f'{key} must be pairs of numbers, x in {x.unit} and y in {y.unit}, as in [[..], [..]]')
            return None
        if not LEAST_POINTS <= len(pairs) <= MOST_POINTS:
            self.fault(f'{key} has {len(pairs)} points; it may have {LEAST_POINTS} to {MOST_POINTS}')
            return None
        points = [tuple(self.coordinate(axis, point, given) for axis, given in zip((x, y), pair))
                  for point, pair in enumerate(pairs)]
        return points if self.rises(x, points) else None

    def coordinate(self, axis, point, given):
        words = f'the {axis.words} of {which("point", point)}'
        number = self.number_in(given, f'{axis.key}: {words}')
        return None if number is None else self.within(replace(axis, words=words), number)

    def rises(self, x, points):
        """Whether all points are there and the x of each is above that of the one before it."""
        if any(None in point for point in points):
            return False
        for point in range(1, len(points)):
            before, here = points[point - 1][0], points[point][0]
            if here <= before:
                self.fault(f'the x of {which("point", point)}, {x.given(here)} ({x.key}), must be above that of the '
                           f'point before it, {x.given(before)}')
                return False
        return True


def home_words(kind):
    return 'above the first [..] of the file' if kind == 'top' else f'to {heading(kind)}'


def heading(kind):
    return f'[[{kind}]]' if kind in ('unit', 'inverter') else f'[{kind}]'


def sample(quantity):
    """A number in the range, for an example."""
    return decimal_words(Fraction(min(quantity.high, 100 * quantity.factor), quantity.factor)).replace(',', '')


def number_of(given):
    """A number of a site file, whole or not, or None for anything else."""
    if isinstance(given, int) and not isinstance(given, bool):
        return Number(str(given) if abs(given) < 10 ** LONGEST else '9' * (LONGEST + 1))
    return given if isinstance(given, Number) else None


def shown(number):
    """A number as it was written; of one that nobody would read to its end, its length."""
    return plain(number.text) if len(number.text) <= LONGEST else f'of more than {LONGEST} digits'


def given_words(quantity, number):
    return f'{quantity.words} {with_unit(shown(number), quantity.unit)} ({quantity.key})'


def misfit(quantity, whole):
    """Why a number is none that the stick can hold."""
    if whole is None:
        return 'is beyond any range'
    if quantity.factor == 1:
        return 'is out of its range' if whole.denominator == 1 else 'is no whole number'
    if whole.denominator == 1:
        return f'is {decimal_words(whole)} {quantity.stored}'
    return f'is {decimal_words(whole)} {quantity.stored}, no whole number of them'


def kind_of(given):
    """What stands in a site file where something else should."""
    if isinstance(given, str):
        return quoted(given)
    if isinstance(given, bool):
        return 'true' if given else 'false'
    if isinstance(given, dict):
        return 'a table'
    if isinstance(given, list):
        return 'a list'
    number = number_of(given)
    return f'the time {plain(str(given))}' if number is None else shown(number)
