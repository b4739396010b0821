"""The log's readings, step by step: rows on a grid of equal steps, and a missing reading wherever no row is."""

import itertools
import math
from collections import Counter
from dataclasses import dataclass, field
from fractions import Fraction

from . import plan as plans
from .cells import Cells, decimal_mark
from .clock import SECOND
from .exact import decimal_words
from .moments import Moments
from .units import unit_of
from .words import Refused, commas, kept, many, quoted

MOST_STEPS = 65_535
MOST_SECONDS = 86_400
# So many rows are looked at to see how far they are apart.
LOOKED_AT = 50
SAY_STEP = kept('step_minutes = 15')
SAY_NIGHT = ('If the sensor shows a little below 0 at night, say how far in [log], as in '
             f'{kept("night_offset_W_m2 = 5")}: such readings are then taken as 0.')


@dataclass(frozen=True)
class Kind:
    """What a column's numbers are, and their range in thousandths (rules Q27, Q40, Q41, Q49)."""
    words: str
    unit: str
    low: int
    high: int = 10 ** 8


POWER = Kind('power', 'kW', -10 ** 8)
CURRENT = Kind('current', 'A', 0)
IRRADIANCE = Kind('irradiance', 'kW/m2', 0)
TEMPERATURE = Kind('temperature', '°C', -10 ** 8)
MOST_VOLTAGE = 20_000
# Up to this size no number needs a closer look.
SURE = 99_999.0
# By how many places a unit moves the decimal point.
SHIFTS = {**plans.POWER_UNITS, **plans.CURRENT_UNITS, **plans.IRRADIANCE_UNITS, '°C': 0}


@dataclass
class Step:
    """A step: the row that it is from, 0 where there is none, and what the row has."""
    row: int
    reading: tuple = None
    weather: tuple = None
    voltage: int = None


GAP = Step(0)


@dataclass
class Log:
    """The steps of a log, and what there is to say of it. Gaps have their first step and their length, lacking are the
    rows of which a phase is missing, dark are those whose irradiance is below 0 and taken as 0; instants and the length
    of a step are in microseconds.
    """
    moments: Moments
    cells: Cells
    units: dict
    step: int = 0
    origin: int = 0
    steps: list = field(default_factory=list)
    gaps: list = field(default_factory=list)
    lacking: list = field(default_factory=list)
    dark: list = field(default_factory=list)

    def instant(self, step):
        return self.origin + step * self.step

    def shown(self, step):
        return self.moments.zone.shown(self.instant(step))

    def without(self, what):
        """How many rows that were taken lack something."""
        return sum(1 for step in self.steps if step.row and getattr(step, what) is None)


class Reader:
    """Reads a table by a plan."""

    def __init__(self, table, plan):
        self.table = table
        self.plan = plan
        self.kind = CURRENT if plan.by_current else POWER
        self.log = Log(Moments(table, plan), cells_of(table, plan), units_of(table, plan))

    def refuse(self, *sentences):
        raise Refused(self.table.name, *sentences)

    def refuse_cell(self, row, place, why, *then):
        self.refuse(f'Row {commas(row)}, column {self.table.column(place)}: {why}.', *then)

    def read(self):
        rows = self.log.moments.taken()
        first = list(itertools.islice(rows, LOOKED_AT))
        if not first:
            self.none_taken()
        self.log.step = (self.plan.step or self.step_seen(first)) * SECOND
        self.log.origin = self.origin(first[0].instant)
        for moment in itertools.chain(first, rows):
            self.take(moment)
        return self.log

    def none_taken(self):
        moments = self.log.moments
        if not moments.rows:
            self.refuse('It has a header and no rows.')
        first, last = (moments.zone.shown(one.instant) for one in (moments.first, moments.previous))
        self.refuse(f'None of its {many(moments.rows, "row")} is between from and to of [log]: they are of {first} to '
                    f'{last}.')

    def step_seen(self, moments):
        """The seconds that most of the first rows are apart; of two lengths that as many have, the shorter one."""
        apart = Counter(later.instant - before.instant for before, later in itertools.pairwise(moments))
        if not apart:
            self.refuse(f'It has one row, which does not show how long a step is. Say it in [log], as in {SAY_STEP}.')
        step = min(apart, key=lambda length: (-apart[length], length))
        if step % SECOND or step > MOST_SECONDS * SECOND:
            self.refuse(f'Most of its first rows are {step / SECOND:,.6g} s apart, and a step has 1 to '
                        f'{commas(MOST_SECONDS)} whole seconds. Say its length in [log], as in {SAY_STEP}.')
        return step // SECOND

    def origin(self, instant):
        """Where the grid begins: at the first row; or, where that is a little off, at the clock's own grid."""
        ahead = self.log.moments.zone.at(instant).utcoffset()
        local = instant + (ahead.days * 86_400 + ahead.seconds) * SECOND
        away = (local + self.log.step // 2) % self.log.step - self.log.step // 2
        return instant - away if abs(away) <= self.plan.tolerance else instant

    def take(self, moment):
        """Puts a row on its step, with a gap before it where steps have no row."""
        log, row = self.log, moment.row
        if log.step < moment.back:
            log.moments.double(row, log.steps[-1].row, moment.text)
        step = self.step_of(moment)
        if step < len(log.steps):
            self.refuse(f'Rows {commas(log.steps[step].row)} and {commas(row)} are both of step {commas(step)}, '
                        f'{log.shown(step)}, with tolerance_seconds as it is. Delete one of them.')
        if step >= MOST_STEPS:
            self.too_many(moment, step)
        if step > len(log.steps):
            log.gaps.append((len(log.steps), step - len(log.steps)))
            log.steps.extend([GAP] * (step - len(log.steps)))
        log.steps.append(self.step(row, moment.cells))

    def step_of(self, moment):
        step, late = divmod(moment.instant - self.log.origin, self.log.step)
        early = self.log.step - late
        if min(late, early) > self.plan.tolerance:
            self.off_grid(moment, late)
        return step + 1 if early < late else step

    def off_grid(self, moment, late):
        seen = '' if self.plan.step else ', as the first rows are apart'
        every = many(self.log.step // SECOND, 'second')
        self.refuse(f'Row {commas(moment.row)}, {quoted(moment.text)}, is {late / SECOND:,.6g} s behind a step: there '
                    f'is one every {every}{seen}, from {self.log.shown(0)} on.',
                    'If the meter\'s clock is a little off, tolerance_seconds in [log] takes such rows; if steps have '
                    'another length, step_minutes says it.')

    def too_many(self, moment, step):
        log, last = self.log, len(self.log.steps) - 1
        self.refuse(f'Row {commas(moment.row)}, {quoted(moment.text)}, would be step {commas(step)}, and a stick holds '
                    f'at most {commas(MOST_STEPS)} steps, counted from 0. The row before it, row '
                    f'{commas(log.steps[last].row)}, is step {commas(last)}, {log.shown(last)}.',
                    'If that time is wrong, correct it. Else take a part of the log: from and to in [log] say which.')

    def step(self, row, cells):
        """What a row has. A reading of which a phase is missing is a missing one; so it is with the weather."""
        places, units = self.table.places, self.log.units
        reading = self.numbers(row, cells, places['phase'], [(self.kind, units['phase'])] * 3)
        if reading is None:
            self.log.lacking.append(row)
        weather = voltage = None
        if 'irradiance' in places:
            weather = self.numbers(row, cells, places['irradiance'] + places['temperature'],
                                   [(IRRADIANCE, units['irradiance']), (TEMPERATURE, units['temperature'])])
        if 'voltage' in places:
            voltage = self.voltage(row, cells, places['voltage'][0])
        return Step(row, reading, weather, voltage)

    def numbers(self, row, cells, places, kinds):
        """The numbers of some cells, or None if one of them is missing."""
        numbers = []
        for place, (kind, unit) in zip(places, kinds):
            text = text_at(cells, place)
            if text not in self.log.cells.missing:
                numbers.append(self.number(row, place, text, kind, unit))
        return tuple(numbers) if len(numbers) == len(places) else None

    def number(self, row, place, text, kind, unit):
        """A number in range, as the library converts it (rules M3, M9, W2)."""
        try:
            number = self.log.cells.double(text, SHIFTS[unit])
        except ValueError as why:
            self.refuse_cell(row, place, why)
        if 0 <= number <= SURE or -SURE <= number < 0 and kind.low < 0:
            return number
        if kind is IRRADIANCE and -1 < number < 0 and self.is_dark(text, unit):
            self.log.dark.append(row)
            return 0.0
        if not math.isfinite(number) or not kind.low <= round(Fraction(number) * 1000) <= kind.high:
            low, high = (commas(end // 1000) for end in (kind.low, kind.high))
            self.refuse_cell(row, place, f'{quoted(text)} is {number:,.10g} {kind.unit}; the {kind.words} may be {low} '
                                         f'to {high} {kind.unit}',
                             *([SAY_NIGHT] if kind is IRRADIANCE and number < 0 else ()))
        return number

    def is_dark(self, text, unit):
        """Whether an irradiance that is below 0 is so by no more than the night offset."""
        return -self.log.cells.exact(text) * 10 ** (6 + SHIFTS[unit]) <= self.plan.night

    def voltage(self, row, cells, place):
        """Ten-thousandths of per unit, the closest whole number, and midway the even one; None where it is missing."""
        text, unit = text_at(cells, place), self.log.units['voltage']
        if text in self.log.cells.missing:
            return None
        try:
            exact = self.log.cells.exact(text) * 10_000
        except ValueError as why:
            self.refuse_cell(row, place, why)
        whole = round(exact * 1000 / self.plan.nominal if unit == 'V' else exact)
        if not 0 <= whole <= MOST_VOLTAGE:
            self.refuse_cell(row, place, f'{quoted(text)} {unit} is {decimal_words(whole)} ten-thousandths of per '
                                         'unit; the voltage may be 0 to 2 per unit')
        return whole


def text_at(cells, place):
    return cells[place].strip() if place < len(cells) else ''


def cells_of(table, plan):
    """How the numbers are written."""
    if plan.decimal:
        return Cells(plan.decimal, plan.missing)
    places = [place for role, places in table.places.items() if role != 'time' for place in places]
    return decimal_mark(table, places, plan.missing)


def units_of(table, plan):
    """The unit of each column that has one."""
    allowed = tuple(plans.CURRENT_UNITS if plan.by_current else plans.POWER_UNITS)
    units = {'phase': unit_of(table, 'phase', 'unit', plan.unit, allowed)}
    if 'irradiance' in table.places:
        units['irradiance'] = unit_of(table, 'irradiance', 'irradiance_unit', plan.irradiance_unit,
                                      tuple(plans.IRRADIANCE_UNITS))
        units['temperature'] = unit_of(table, 'temperature', 'temperature', None, ('°C',))
    if 'voltage' in table.places:
        units['voltage'] = unit_of(table, 'voltage', 'voltage_unit', plan.voltage_unit, tuple(plans.VOLTAGE_UNITS))
        if units['voltage'] == 'V' and plan.nominal is None:
            column = table.column(table.places['voltage'][0])
            raise Refused(table.name, f'The column {column} is in V: say the voltage that is 1 per unit in [log], as '
                                      f'in {kept("nominal_V = 230")}.')
    return units


def read_log(table, plan):
    return Reader(table, plan).read()
