"""Numbers as they are written: each is the decimal number that its text says, and nothing is rounded on the way."""

import re
from fractions import Fraction

# A value of a site file is no longer than that; more digits than that would only cost time.
LONGEST = 60
LARGEST_EXPONENT = 400

WRITTEN = re.compile(r'([+-]?)([0-9]+)(?:\.([0-9]+))?(?:[eE]([+-]?[0-9]+))?')


def fraction_of(sign, whole, fraction, exponent):
    """The number of a text's parts: digits before and behind the mark, and a power of ten."""
    size = Fraction(int(whole + fraction)) * Fraction(10) ** (exponent - len(fraction))
    return -size if sign in ('-', '\u2212') else size


class Number:
    """A number of a site file: its text, and its value, which is None where it is none that a stick could hold."""

    def __init__(self, text):
        self.text = text
        self.value = None
        match = WRITTEN.fullmatch(text.replace('_', ''))
        if match and len(text) <= LONGEST:
            sign, whole, fraction, exponent = match.groups()
            if abs(int(exponent or 0)) <= LARGEST_EXPONENT:
                self.value = fraction_of(sign, whole, fraction or '', int(exponent or 0))

    def __repr__(self):
        return f'Number({self.text!r})'


def is_decimal(value):
    """Whether a fraction can be written with digits behind a point, to its end."""
    below = value.denominator
    for prime in (2, 5):
        while below % prime == 0:
            below //= prime
    return below == 1


def decimal_words(value):
    """A decimal fraction with all its digits, thousands parted by commas; of a long one its size."""
    value = Fraction(value)
    digits = 0
    while (value * 10 ** digits).denominator != 1:
        digits += 1
    whole, rest = divmod(abs(value.numerator) * 10 ** digits // value.denominator, 10 ** digits)
    if len(str(whole)) > 20 or digits > 20:
        return size_words(value)
    behind = f'.{rest:0{digits}d}' if digits else ''
    return f'{"-" if value < 0 else ""}{whole:,}{behind}'


def size_words(value):
    """About how large a number is that nobody would read to its end: 3.6e306."""
    sign, value, exponent = '-' if value < 0 else '', abs(value), 0
    while value >= 10:
        value, exponent = value / 10, exponent + 1
    while value < 1:
        value, exponent = value * 10, exponent - 1
    return f'about {sign}{float(value):.4g}e{exponent}'
