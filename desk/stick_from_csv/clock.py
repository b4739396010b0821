"""Times: how a cell says one, in which zone it is, and where the clocks of that zone jump.

An instant is a whole number of microseconds since 1970 began in UTC.
"""

import datetime
import re
import zoneinfo
from dataclasses import dataclass

from .words import kept, nearest, quoted

SECOND = 1_000_000
DAY = 86_400 * SECOND
EPOCH = datetime.datetime(1970, 1, 1)

# No meter's time is outside these years, and none within them leaves what a zone can be asked of.
FIRST_YEAR, LAST_YEAR = 1900, 2999

_CLOCK = (r'(?P<H>\d\d?):(?P<M>\d\d)(?::(?P<S>\d\d)(?:[.,](?P<f>\d{1,9}))?)?'
          r'(?: ?(?P<z>Z|[+-]\d\d(?::?\d\d)?))?')
FORMS = tuple((words, re.compile(day + _CLOCK, re.ASCII)) for words, day in (
    ('YYYY-MM-DD HH:MM', r'(?P<Y>\d{4})-(?P<m>\d\d)-(?P<d>\d\d)(?:T| +)'),
    ('DD.MM.YYYY HH:MM', r'(?P<d>\d\d?)\.(?P<m>\d\d?)\.(?P<Y>\d{4})(?:T|,? +)'),
    ('YYYY/MM/DD HH:MM', r'(?P<Y>\d{4})/(?P<m>\d\d?)/(?P<d>\d\d?)(?:T| +)'),
))
EITHER_WAY = re.compile(r'\d\d?/\d\d?/\d{2,4}\b.*', re.ASCII)
SERIAL = re.compile(r'\d{5}([.,]\d+)?', re.ASCII)
OFFSET = re.compile(r'(?:UTC)?([+-])(\d\d):?(\d\d)', re.ASCII)


def instant_of(naive, offset):
    """The instant of a time on a clock that is ahead of UTC by an offset."""
    since = naive - EPOCH - offset
    return (since.days * 86_400 + since.seconds) * SECOND + since.microseconds


class Times:
    """How the time column is written: by a format, or in one of the forms that are known, the first row's."""

    def __init__(self, form=None):
        self.words = f'format {quoted(form)} says' if form else None
        self.form = form
        self.pattern = None

    def read(self, text):
        """The time on the clock, and its offset where the text has one. ValueError says why there is none."""
        naive, offset = self.by_format(text) if self.form else self.by_pattern(text)
        if not FIRST_YEAR <= naive.year <= LAST_YEAR:
            raise ValueError(f'its year is outside {FIRST_YEAR} to {LAST_YEAR}')
        return naive, offset

    def by_format(self, text):
        try:
            read = datetime.datetime.strptime(text, self.form)
        except ValueError:
            raise ValueError(f'it is not as format in [log] says, {quoted(self.form)}') from None
        return read.replace(tzinfo=None), read.utcoffset()

    def by_pattern(self, text):
        if self.pattern is None:
            self.recognise(text)
        match = self.pattern.fullmatch(text)
        if match is None:
            raise ValueError(f'it is not like the times before it, {self.words}')
        return time_of(match)

    def recognise(self, text):
        for words, pattern in FORMS:
            if pattern.fullmatch(text):
                self.words, self.pattern = words, pattern
                return
        if EITHER_WAY.fullmatch(text):
            raise ValueError('day and month could be meant either way round; say it in [log], as in '
                             + kept('format = "%d/%m/%Y %H:%M"') + ' for the day first')
        if SERIAL.fullmatch(text):
            raise ValueError('a spreadsheet keeps times as such numbers; show the column as YYYY-MM-DD HH:MM there, '
                             'and export it again')
        raise ValueError('it is no time as YYYY-MM-DD HH:MM or DD.MM.YYYY HH:MM; another form can be said in [log], as '
                         'in ' + kept('format = "%d.%m.%y %H:%M"'))


def time_of(match):
    """The time and the offset of a match of a form; 24:00 is the end of its day."""
    year, month, day, hour, minute, second, behind, offset = match.group('Y', 'm', 'd', 'H', 'M', 'S', 'f', 'z')
    late = hour == '24' and not int(minute) and not int(second or 0) and not int(behind or 0)
    try:
        naive = datetime.datetime(int(year), int(month), int(day), 0 if late else int(hour), int(minute),
                                  int(second or 0), int(((behind or '') + '000000')[:6]))
        if late:
            naive += datetime.timedelta(days=1)
    except (ValueError, OverflowError):
        raise ValueError('there is no such day or time') from None
    return naive, None if offset is None else offset_of(offset)


def offset_of(text):
    if text == 'Z':
        return datetime.timedelta(0)
    size = datetime.timedelta(hours=int(text[1:3]), minutes=int(text[3:].replace(':', '') or 0))
    if size >= datetime.timedelta(days=1):
        raise ValueError('its offset is a day or more')
    return -size if text[0] == '-' else size


@dataclass(frozen=True)
class Jump:
    """Where the clocks of a zone are put on or back: the instant, and the offsets before and after."""
    instant: int
    before: datetime.timedelta
    after: datetime.timedelta

    def length(self):
        return abs(self.after - self.before) // datetime.timedelta(microseconds=1)

    def wall(self, offset):
        return EPOCH + datetime.timedelta(microseconds=self.instant) + offset


class Zone:
    """Where a meter's clock is: a zone by its name, or a fixed offset."""

    def __init__(self, words, info):
        self.words = words
        self.info = info
        self.jumps_at_all = isinstance(info, zoneinfo.ZoneInfo)

    def instants(self, naive):
        """The instants at which a clock there shows a time: one, or two where it is put back, or none."""
        first = naive.replace(tzinfo=self.info).utcoffset()
        second = naive.replace(tzinfo=self.info, fold=1).utcoffset()
        if first < second:
            return ()
        if first == second:
            return (instant_of(naive, first),)
        return (instant_of(naive, first), instant_of(naive, second))

    def at(self, instant):
        utc = (EPOCH + datetime.timedelta(microseconds=instant)).replace(tzinfo=datetime.timezone.utc)
        return utc.astimezone(self.info)

    def shown(self, instant):
        """A time as people read it, with the name of the clock's time, which tells an hour from its second coming."""
        local = self.at(instant)
        behind = ':%S' if local.second or local.microsecond else ''
        # A fixed offset is called UTC+01:00.
        name = local.tzname().removeprefix('UTC') or 'UTC'
        return f'{local.strftime("%Y-%m-%d %H:%M" + behind)} {name}'

    def jumps(self, first, last):
        """All jumps behind the first instant, up to the last."""
        while self.jumps_at_all and first < last:
            until = min(first + DAY, last)
            if self.at(first).utcoffset() != self.at(until).utcoffset():
                yield self.jump_between(first, until)
            first = until

    def jump_between(self, low, high):
        before, after = self.at(low).utcoffset(), self.at(high).utcoffset()
        while high - low > 1:
            middle = (low + high) // 2
            if self.at(middle).utcoffset() == before:
                low = middle
            else:
                high = middle
        return Jump(high, before, after)


def fixed_zone(offset):
    return Zone('a fixed offset', datetime.timezone(offset))


def zone_of(text):
    """The zone of a name, or of an offset as +01:00. ValueError says why there is none."""
    match = OFFSET.fullmatch(text)
    if match:
        return Zone(text, datetime.timezone(offset_of(match.group(1) + match.group(2) + match.group(3))))
    try:
        return Zone(text, zoneinfo.ZoneInfo(text))
    except (KeyError, ValueError, OSError):
        known = zoneinfo.available_timezones()
    if not known:
        raise ValueError('this machine knows no zones; install the package tzdata, or give an offset, as in "+01:00"')
    close = nearest(text, known)
    raise ValueError(f'there is no such zone{f"; is {close} meant?" if close else ""}')
