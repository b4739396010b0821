"""The words: numbers, counts, names and lines as people read them, and the two ways in which a call can fail."""

import difflib
import itertools
import textwrap
import unicodedata

COLUMNS = 100
INDENT = '    '
COMPARED = 1000
NO_BREAK = '\u00a0'


class Refused(Exception):
    """The log or the site file is not taken: status 1. Each sentence is a paragraph below the file's line."""

    def __init__(self, name, *sentences):
        super().__init__(name)
        self.name = name
        self.sentences = sentences


class Failed(Exception):
    """A wrong call, a file that cannot be read or written, or a fault of the program: status 2."""


def commas(number):
    return f'{number:,}'


def many(count, what):
    """So many of something: 1 row, 2 rows."""
    return f'{commas(count)} {what}' if count == 1 else f'{commas(count)} {what}s'


def ordinal(number):
    ends = {1: 'st', 2: 'nd', 3: 'rd'}
    return f'{commas(number)}{"th" if number // 10 % 10 == 1 else ends.get(number % 10, "th")}'


def which(what, number):
    """Which of something it is, as files and as people count."""
    return f'{what} {number}, the {ordinal(number + 1)} {what}'


def joined(parts, last='and'):
    """a; a and b; a, b and c."""
    parts = list(parts)
    return parts[0] if len(parts) == 1 else f'{", ".join(parts[:-1])} {last} {parts[-1]}'


def some(parts, most=5):
    """The first few of a list, and how many more there are."""
    parts = list(parts)
    if len(parts) <= most:
        return joined(parts)
    return f'{", ".join(parts[:most])} and {commas(len(parts) - most)} more'


def plain(text):
    """A text for a terminal: what would steer it, or turn the text round, is a question mark."""
    return ''.join('?' if unicodedata.category(letter) in ('Cc', 'Cf', 'Cs', 'Zl', 'Zp') else letter for letter in text)


def kept(text):
    """A text that stays on one line, such as a line of a site file; in_lines makes its blanks what they were."""
    return text.replace(' ', NO_BREAK)


def in_lines(text):
    return text.replace(NO_BREAK, ' ')


def quoted(text, most=60):
    """A cell or a name as it stands in a file, between quotes, cut where it is long."""
    text = plain(text)
    return kept(f'"{text}"') if len(text) <= most else kept(f'"{text[:most]}.."') + f' ({commas(len(text))} characters)'


def nearest(word, known):
    """The known word that is most like this one, or None. Of a great many only the first are compared."""
    folded = {name.casefold(): name for name in itertools.islice(known, COMPARED)}
    close = difflib.get_close_matches(word.casefold()[:COMPARED], folded, n=1, cutoff=0.6)
    return folded[close[0]] if close else None


def wrapped(text, indent=INDENT):
    """A paragraph below a file's line."""
    return in_lines(textwrap.fill(text, COLUMNS, initial_indent=indent, subsequent_indent=indent,
                                  break_long_words=False, break_on_hyphens=False))
