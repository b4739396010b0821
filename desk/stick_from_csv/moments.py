"""The rows of a log in the order of their times: each gets the instant at which it was read."""

from typing import NamedTuple

from .clock import Times, fixed_zone, instant_of
from .words import Refused, commas, kept, many, quoted

NO_ZONE = ('Its times have no offset, and so need a zone. Say in [log] ' + kept('zone = "Europe/Berlin"') + ', or the '
           'name of another one; for a clock that is never put on or back ' + kept('zone = "+01:00"') + '.')
PUT_ON = ('there was no such time, since the clock was put on. If the meter does not do that, say its offset, as in '
          + kept('zone = "+01:00"') + '.')
AS_READ = (' Where the clock is put back, the rows must stand as they were read: all of the first time, then all of '
           'the second.')


class Moment(NamedTuple):
    """A row and when it was read. Back is how far the clock went back if the row before it shows the same time."""
    row: int
    instant: int
    cells: list
    text: str
    naive: object
    back: int


class Moments:
    """Goes through a log row by row. Left out are blank rows and those before and after what the site file asks for."""

    def __init__(self, table, plan):
        self.table = table
        self.plan = plan
        self.times = Times(plan.format)
        self.zone = plan.zone
        self.has_offsets = None
        self.first = self.previous = None
        # The last row that repeats the time of the row before it, as it may where the clock goes back; and until when
        # that time lasts.
        self.repeated = None
        self.repeated_until = 0
        self.is_twice = False
        self.rows = self.blank = self.short = self.before = self.after = 0

    def refuse(self, *sentences):
        raise Refused(self.table.name, *sentences)

    def taken(self):
        """The rows that are taken."""
        slack = self.plan.tolerance
        first = None if self.plan.first is None else self.plan.first - slack
        last = None if self.plan.last is None else self.plan.last + slack
        for moment in self.all():
            if first is not None and moment.instant < first:
                self.before += 1
            elif last is not None and moment.instant > last:
                self.after += 1
            else:
                yield moment

    def all(self):
        """Every row that is not blank."""
        width = len(self.table.names)
        is_short = False
        for row, cells in self.table.rows():
            text = self.time_text(cells)
            if not text and not any(map(str.strip, cells)):
                self.blank += 1
                continue
            self.rows += 1
            is_short = len(cells) < width
            if len(cells) != width:
                self.uneven(row, cells, width)
            if not text:
                self.refuse(f'Row {commas(row)} has no time. If it is a second row of the header, delete it.')
            self.previous = self.moment(row, cells, text)
            self.first = self.first or self.previous
            yield self.previous
        if is_short and not self.table.data.rstrip(b'\0').endswith((b'\n', b'\r')):
            self.refuse(f'The last row, row {commas(self.previous.row)}, is cut short: it has fewer cells than the '
                        'header, and the file ends within it. Export or copy the log again.')

    def time_text(self, cells):
        places = self.table.places['time']
        return ' '.join(cells[place].strip() if place < len(cells) else '' for place in places).strip()

    def uneven(self, row, cells, width):
        """A row may lack cells at its end, which are then empty; cells beyond the header must be."""
        if len(cells) < width:
            self.short += 1
        elif any(map(str.strip, cells[width:])):
            hint = ''
            if self.table.delimiter == ',':
                hint = ' If its numbers have decimal commas: export the log with semicolons, or with decimal points.'
            self.refuse(f'Row {commas(row)} has {commas(len(cells))} cells, and the header has {commas(width)}.{hint}')

    def moment(self, row, cells, text):
        """The row with its instant, which must be behind that of the row before it."""
        try:
            naive, offset = self.times.read(text)
        except ValueError as why:
            self.refuse(f'Row {commas(row)}, time {quoted(text)}: {why}.')
        self.one_kind(row, text, offset)
        instant, back = self.local(row, text, naive) if offset is None else (instant_of(naive, offset), 0)
        if self.previous is not None and instant <= self.previous.instant:
            self.disorder(row, text, instant)
        return Moment(row, instant, cells, text, naive, back)

    def one_kind(self, row, text, offset):
        """All times have an offset, or none has."""
        has = offset is not None
        if self.has_offsets is None:
            self.has_offsets = has
            if self.zone is None:
                if not has:
                    self.refuse(NO_ZONE)
                self.zone = fixed_zone(offset)
        elif has != self.has_offsets:
            one, other = ('an', 'none') if has else ('no', 'one')
            self.refuse(f'Row {commas(row)}, time {quoted(text)}, has {one} offset, and the rows before it have '
                        f'{other}.')

    def local(self, row, text, naive):
        """The instant of a time on the zone's clock; of one that comes twice, the one that is behind the row before."""
        instants = self.zone.instants(naive)
        if not instants:
            self.refuse(f'Row {commas(row)}, time {quoted(text)}: in {self.zone.words} {PUT_ON}')
        before = self.previous
        self.is_twice = len(instants) == 2
        if not self.is_twice or before is None or instants[0] > before.instant:
            return instants[0], 0
        if naive != before.naive:
            return instants[1], 0
        back = instants[1] - instants[0]
        self.repeated, self.repeated_until = (row, before.row, text), instants[1] + back
        return instants[1], back

    def disorder(self, row, text, instant):
        """Refuses a row that is not behind the one before it; as a double one where an earlier row has its time."""
        before = self.previous
        if instant == before.instant:
            self.double(row, before.row, text)
        # Where the time comes twice, a double row is seen only when the order breaks behind it.
        if self.repeated and before.instant < self.repeated_until:
            self.double(*self.repeated)
        earlier = self.row_of(instant)
        if earlier:
            self.double(row, earlier, text)
        hint = ' If the newest row comes first in all of the log, sort it by time.' if self.rows == 2 else ''
        self.refuse(f'Row {commas(row)}, {quoted(text)}, is out of order: row {commas(before.row)} before it is of '
                    f'{quoted(before.text)}.{hint}')

    def row_of(self, instant):
        """The row of an instant that was passed already, or None; the log is gone through once more for it."""
        for moment in Moments(self.table, self.plan).all():
            if moment.instant >= instant:
                return moment.row if moment.instant == instant else None
        return None

    def double(self, row, other, text):
        self.refuse(f'Row {commas(row)} has the time of row {commas(other)}, {quoted(text)}: each time may stand there '
                    f'once. Delete one of the two rows, or export the log again.{AS_READ if self.is_twice else ""}')
