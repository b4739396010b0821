"""The part [log] of a site file: which columns the log has, in which units, how its times and numbers are written."""

import datetime
import unicodedata
from dataclasses import dataclass

from . import keys
from .block import kind_of
from .clock import FIRST_YEAR, LAST_YEAR, SECOND, instant_of, zone_of
from .words import kept, many, quoted

DELIMITERS = {',': ',', ';': ';', '\t': '\t', 'tab': '\t'}
POWER_UNITS = {'kW': 0, 'W': -3}
CURRENT_UNITS = {'A': 0, 'mA': -3}
IRRADIANCE_UNITS = {'kW/m2': 0, 'W/m2': -3}
VOLTAGE_UNITS = {'V': 0, 'per unit': 0}


@dataclass
class Plan:
    """What a site file says of the log. Instants and the tolerance are in microseconds, the nominal voltage in
    thousandths of a volt, the night offset in those of a W/m2; what is not said is None.
    """
    time: tuple
    format: str
    zone: object
    step: int
    tolerance: int
    first: int
    last: int
    by_current: bool
    phases: tuple
    unit: str
    delimiter: str
    decimal: str
    missing: frozenset
    header_row: int
    irradiance: str
    irradiance_unit: str
    night: int
    temperature: str
    voltage: str
    voltage_unit: str
    nominal: int

    def roles(self):
        """The columns that are asked for, each with what it is for."""
        wanted = [('time', name) for name in self.time] + [('phase', name) for name in self.phases]
        for role in ('irradiance', 'temperature', 'voltage'):
            if getattr(self, role) is not None:
                wanted.append((role, getattr(self, role)))
        return wanted


def folded(name):
    """A column's name as it is compared: letters composed, blanks trimmed."""
    return ' '.join(unicodedata.normalize('NFC', name).split())


def log_plan(block, mode):
    zone = zone_in(block)
    tolerance = block.value(keys.TOLERANCE, 0)
    by_current, phases = phases_in(block, mode)
    irradiance, temperature = weather_in(block)
    voltage = column(block, 'voltage')
    plan = Plan(
        time=time_in(block), format=format_in(block), zone=zone, step=step_in(block),
        tolerance=(tolerance or 0) * SECOND, first=bound(block, 'from', zone), last=bound(block, 'to', zone),
        by_current=by_current, phases=phases, unit=unit_in(block, 'unit', CURRENT_UNITS if by_current else POWER_UNITS),
        delimiter=DELIMITERS.get(block.option('delimiter', tuple(DELIMITERS))),
        decimal=block.option('decimal', ('.', ',')), missing=missing_in(block),
        header_row=block.value(keys.HEADER_ROW) if block.has('header_row') else None,
        irradiance=irradiance, irradiance_unit=unit_in(block, 'irradiance_unit', IRRADIANCE_UNITS),
        night=block.value(keys.NIGHT, 0) or 0,
        temperature=temperature, voltage=voltage, voltage_unit=unit_in(block, 'voltage_unit', VOLTAGE_UNITS),
        nominal=block.value(keys.NOMINAL) if block.has('nominal_V') else None)
    fits(block, plan)
    return plan


def fits(block, plan):
    """What one key of the log says of another."""
    if plan.tolerance and plan.step is None and not block.has('step_minutes') and not block.has('step_seconds'):
        block.fault('with tolerance_seconds the step must be said, as in ' + kept('step_minutes = 15'))
    if plan.step and 2 * plan.tolerance >= plan.step * SECOND:
        block.fault(f'tolerance_seconds must be below half the step, which is {many(plan.step, "second")}')
    if block.has('nominal_V') and (plan.voltage is None or plan.voltage_unit == 'per unit'):
        block.fault('nominal_V is for a voltage column in V alone, and there is none; leave it out')
    if plan.voltage_unit == 'V' and not block.has('nominal_V'):
        block.missing('nominal_V', '230')
    for key, column_key in (('irradiance_unit', 'irradiance'), (keys.NIGHT.key, 'irradiance'),
                            ('voltage_unit', 'voltage')):
        if block.has(key) and not block.has(column_key):
            block.fault(f'{key} is for the column {column_key}, and none is named')
    if None not in (plan.first, plan.last) and plan.first > plan.last:
        block.fault('from is later than to, so that no row would be left')
    names = [name for _, name in plan.roles()]
    for name in sorted({name for name in names if names.count(name) > 1}):
        block.fault(f'the column {quoted(name)} is named for {names.count(name)} things; each has one of its own')


def column(block, key):
    name = block.text(key)
    return None if name is None else folded(name)


def names_in(block, key, counts, wanted):
    """The names of so many columns."""
    given = block.table[key]
    names = [given] if isinstance(given, str) else given
    is_names = isinstance(names, list) and all(isinstance(name, str) and name.strip() for name in names)
    if is_names and len(names) in counts:
        return tuple(folded(name) for name in names)
    block.fault(f'{key} is {kind_of(given)}; it must be {wanted}')
    return ()


def time_in(block):
    if not block.has('time'):
        block.missing('time', '"Time", the name of its column')
        return ()
    return names_in(block, 'time', (1, 2), 'the name of a column, or those of two, as in ' + kept('["date", "time"]'))


def phases_in(block, mode):
    """Whether the log has currents, and the names of its three columns."""
    needed = 'currents' if mode in keys.BY_CURRENT else 'powers'
    both = block.has('powers') and block.has('currents')
    other = {'powers': 'currents', 'currents': 'powers'}[needed]
    if both:
        block.fault('there are both powers and currents; leave one out')
    elif block.has(other) and mode is not None:
        block.fault(f'{other} does not fit: mode {mode} goes by {needed}')
    elif not block.has(needed) and not block.has(other):
        block.missing(needed, '["L1", "L2", "L3"], the names of their columns')
    given = other if block.has(other) and not block.has(needed) else needed
    wanted = 'the names of 3 columns, as in ' + kept('["L1", "L2", "L3"]')
    return given == 'currents', names_in(block, given, (3,), wanted) if block.has(given) else ()


def weather_in(block):
    irradiance, temperature = column(block, 'irradiance'), column(block, 'temperature')
    if block.has('irradiance') != block.has('temperature'):
        block.fault('weather is both, the columns irradiance and temperature; name the other one too, or none')
    return irradiance, temperature


def unit_in(block, key, units):
    return block.option(key, tuple(units))


def zone_in(block):
    text = block.text('zone')
    if text is None:
        return None
    try:
        return zone_of(text.strip())
    except ValueError as why:
        block.fault(f'zone {quoted(text)}: {why}')
        return None


def format_in(block):
    """A format of the time column; it must say the day."""
    text = block.text('format')
    trial = datetime.datetime(2025, 10, 26, tzinfo=datetime.timezone.utc)
    try:
        if text is None or datetime.datetime.strptime(trial.strftime(text), text).date() == trial.date():
            return text
    except ValueError:
        pass
    block.fault(f'format {quoted(text)} is none by which a day can be read; an example is "%d.%m.%Y %H:%M"')
    return None


def step_in(block):
    if block.has('step_minutes') and block.has('step_seconds'):
        block.fault('there are both step_minutes and step_seconds; leave one out')
        return None
    for quantity in (keys.STEP_MINUTES, keys.STEP_SECONDS):
        if block.has(quantity.key):
            return block.value(quantity)
    return None


def missing_in(block):
    """The texts that stand for a missing reading; an empty cell always does."""
    given = block.table.get('missing', [])
    if isinstance(given, list) and all(isinstance(text, str) for text in given):
        return frozenset(text.strip() for text in given) | {''}
    block.fault(f'missing is {kind_of(given)}; it must be a list of texts, as in missing = ["-", "n/a"]')
    return frozenset({''})


def bound(block, key, zone):
    """The instant of from or to. A day is all of it: from its beginning, to its end."""
    if not block.has(key):
        return None
    given = block.table[key]
    if not isinstance(given, datetime.date) or not FIRST_YEAR <= given.year <= LAST_YEAR:
        block.fault(f'{key} is {kind_of(given)}; it must be a day or a time of the years {FIRST_YEAR} to {LAST_YEAR}, '
                    f'without quotes, as in {key} = 2025-10-20T00:00:00')
        return None
    if isinstance(given, datetime.datetime) and given.tzinfo is not None:
        return instant_of(given.replace(tzinfo=None), given.utcoffset())
    if zone is None:
        if not block.has('zone'):
            block.fault(f'{key} has no offset, and there is no zone; add one of them, as in 2025-10-20T00:00:00+02:00')
        return None
    if isinstance(given, datetime.datetime):
        return last_instant(zone, given) if key == 'to' else first_instant(zone, given)
    midnight = datetime.datetime(given.year, given.month, given.day)
    if key == 'from':
        return first_instant(zone, midnight)
    return first_instant(zone, midnight + datetime.timedelta(days=1)) - 1


def first_instant(zone, naive):
    return instant_of(naive, naive.replace(tzinfo=zone.info).utcoffset())


def last_instant(zone, naive):
    return instant_of(naive, naive.replace(tzinfo=zone.info, fold=1).utcoffset())
