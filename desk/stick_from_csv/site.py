"""The site file: fleet, settings, connections, inverters and function in the stick's units, and how the log is read."""

import tomllib
from dataclasses import dataclass, field

from . import keys
from .block import Block, heading, kind_of
from .exact import Number
from .plan import log_plan
from .words import Refused, commas, kept, many, plain, which

# Far more than 64 units and 64 inverters with their curves take.
MOST_BYTES = 1 << 20
MOST_TOLD = 20


@dataclass
class Unit:
    words: str
    rated: int
    reserve: int
    stored: int
    rating: int
    kva: int
    idle_loss: int
    var_request: int
    weight: int
    inverter: int
    charge: int
    discharge: int
    priority: int
    provide: int
    absorb: int
    phases: int
    volts: int


@dataclass
class Settings:
    mode: int
    target: int
    band: int
    factor: int
    phase: int


@dataclass
class Inverter:
    array: int
    kva: int
    cut_in: int
    cut_out: int
    limit: int
    var_request: int
    priority: int
    temperature: list
    efficiency: list


@dataclass
class Function:
    base: int
    curve: list


@dataclass
class Site:
    """What a site file says. Assumed are the lines that it lacks and that were taken all the same: for a kind of part
    and a line the numbers of the parts.
    """
    name: str
    edition: int
    units: list
    settings: Settings
    inverters: list
    function: Function
    log: object
    assumed: dict = field(default_factory=dict)

    def is_connected(self):
        return any(unit.phases is not None for unit in self.units)

    def by_current(self):
        return self.settings.mode in keys.BY_CURRENT


def text_of(name, data):
    """The text of a site file, which is UTF-8, with a mark before it or without."""
    try:
        return data.removeprefix(b'\xef\xbb\xbf').decode('utf-8')
    except UnicodeDecodeError as fault:
        line = data[:fault.start].count(b'\n') + 1
        raise Refused(name, f'Line {commas(line)} is not UTF-8, which a site file must be: save it anew as UTF-8. '
                            f'{SWAPPED}') from None


SWAPPED = 'If this is the log: the log comes first and the site file second.'
KINDS = {'log', 'settings', 'unit'}


def table_of(name, data):
    try:
        return tomllib.loads(text_of(name, data).replace('\r\n', '\n'), parse_float=Number)
    except RecursionError:
        raise Refused(name, 'Its lists lie too deep in one another to be read.') from None
    except ValueError as fault:
        raise Refused(name, f'It is no TOML: {plain(str(fault))}. Texts stand between quotes, numbers have a decimal '
                            f'point and no unit, and each key has a line of its own. {SWAPPED}') from None


def is_site(data):
    """Whether this is a site file, or was meant to be one."""
    try:
        return len(data) <= MOST_BYTES and not KINDS.isdisjoint(table_of('', data))
    except Refused:
        return False


def read_site(name, data):
    """The site of a site file; everything that is wrong in it is told at once."""
    faults = []
    assumed = {}
    table = table_of(name, data)
    top = Block('top', 'the file', table, faults)
    site_name = top.text('name')
    settings = settings_of(part(top, 'settings'))
    units = [unit_of(block, assumed) for block in blocks(top, 'unit', keys.MOST_UNITS)]
    if top.table.get('unit', []) == [] and 'unit' not in top.misspelt:
        top.fault(f'there is no unit; each begins with the line {heading("unit")}')
    edition = edition_of(top, units, faults)
    connected(top, settings, units, faults)
    inverters = [inverter_of(block, assumed) for block in blocks(top, 'inverter', keys.MOST_INVERTERS)]
    function = function_of(part(top, 'function')) if top.has('function') else None
    log = log_plan(part(top, 'log'), settings.mode)
    if log.voltage is not None and not top.has('function'):
        faults.append('log: a stick has voltages only with a function, which says the vars for each: add [function], '
                      'or leave voltage out.')
    if faults:
        more = [f'And {many(len(faults) - MOST_TOLD, "fault")} more.'] if len(faults) > MOST_TOLD else []
        raise Refused(name, f'{many(len(faults), "fault")} in it:', *faults[:MOST_TOLD], *more)
    return Site(site_name, edition, units, settings, inverters, function, log, assumed)


def part(top, kind):
    """A table that is there once; where it is missing or is something else, an empty one and a fault."""
    given = top.table.get(kind)
    if isinstance(given, dict):
        return Block(kind, kind, given, top.faults)
    if given is None and kind not in top.misspelt:
        top.fault(f'{heading(kind)} is missing')
    elif given is not None:
        top.fault(f'{kind} is {kind_of(given)}; it must begin with the line {heading(kind)}, which stands there once')
    # One fault says it; those of its keys would only say it again.
    return Block(kind, kind, {}, [])


def blocks(top, kind, most):
    """The tables of a kind, each by its number and its name."""
    given = top.table.get(kind, [])
    if not isinstance(given, list) or not all(isinstance(one, dict) for one in given):
        top.fault(f'{kind} is {kind_of(given)}; each {kind} must begin with the line {heading(kind)}')
        return []
    if len(given) > most:
        top.fault(f'there are {many(len(given), kind)}, and a stick holds at most {most}')
        return []
    return [named(kind, number, table, top.faults) for number, table in enumerate(given)]


def named(kind, number, table, faults):
    name = table.get('name')
    words = which(kind, number)
    if isinstance(name, str) and name.strip():
        words += f' ({plain(name)[:40]})'
    block = Block(kind, words, table, faults)
    block.place = number
    block.text('name')
    return block


def settings_of(block):
    mode = block.choice('mode', keys.MODES)
    by_current = mode in keys.BY_CURRENT
    target, band = (keys.TARGET_A, keys.BAND_A) if by_current else (keys.TARGET, keys.BAND)
    others = (keys.TARGET, keys.BAND) if by_current else (keys.TARGET_A, keys.BAND_A)
    for right, wrong in zip((target, band), others):
        if mode is not None and block.has(wrong.key):
            block.misspelt.add(right.key)
            block.fault(f'{wrong.key} does not fit: mode {mode} goes by {"current" if by_current else "power"}, and '
                        f'its {right.words} is {right.key}')
    if mode is None:
        block.misspelt |= {quantity.key for quantity in (*others, target, band)}
    return Settings(mode, block.value(target), block.value(band), factor_of(block), block.choice('phase', keys.PHASES))


def factor_of(block):
    if block.has('factor') and block.has('factor_percent'):
        block.fault('there are both factor and factor_percent; leave one out')
        return None
    return block.value(keys.FACTOR_PERCENT if block.has('factor_percent') else keys.FACTOR)


def unit_of(block, assumed):
    rated = block.value(keys.RATED)
    kva = block.value(keys.KVA)
    note(block, assumed, {'weight': '1', 'priority': '"watts"', 'var_request_kvar': '0'})
    return Unit(
        words=block.words, rated=rated, reserve=energy(block, keys.RESERVE, 'reserve_percent', rated),
        stored=energy(block, keys.STORED, 'stored_percent', rated),
        rating=block.value(keys.RATING), kva=kva, idle_loss=block.value(keys.IDLE_LOSS),
        var_request=block.value(keys.VAR_REQUEST, 0), weight=block.value(keys.WEIGHT, 1),
        inverter=block.value(keys.INVERTER), charge=block.value(keys.CHARGE), discharge=block.value(keys.DISCHARGE),
        priority=block.choice('priority', keys.PRIORITIES, 0),
        provide=var_limit(block, keys.PROVIDE, kva), absorb=var_limit(block, keys.ABSORB, kva),
        phases=block.option('phases', keys.CONNECTED), volts=block.value(keys.VOLTS) if block.has('volts') else None)


def note(block, assumed, defaults):
    """Keeps what a part does not say, and what is taken for it."""
    for key, value in defaults.items():
        if not block.has(key):
            assumed.setdefault((block.kind, kept(f'{key} = {value}')), []).append(block.place)


def energy(block, quantity, percent, rated):
    """A reserve or a store: in kWh, or in per cent of the rated energy."""
    if block.has(quantity.key) and block.has(percent):
        block.fault(f'there are both {quantity.key} and {percent}; leave one out')
        return None
    if block.has(percent):
        return block.percent_of(percent, quantity.words, rated, 'rated energy')
    if percent in block.misspelt:
        return None
    return block.at_most(quantity, block.value(quantity), keys.RATED, rated)


def var_limit(block, quantity, kva):
    if not block.has(quantity.key):
        return None
    return block.at_most(quantity, block.value(quantity), keys.KVA, kva)


def edition_of(top, units, faults):
    """The edition that is named; or 2 where a unit has a var limit, and else 1. Limits that are not given are S."""
    limited = any(limit is not None for unit in units for limit in (unit.provide, unit.absorb))
    edition = top.option('edition', keys.EDITIONS, 2 if limited else 1)
    if edition == 1 and limited:
        top.fault('edition 1 has no var limits; leave provide_kvar and absorb_kvar out, or take edition 2')
    for unit in units:
        unit.provide = unit.kva if unit.provide is None else unit.provide
        unit.absorb = unit.kva if unit.absorb is None else unit.absorb
        if edition in (1, 2):
            idle_draw(unit, faults)
    return edition


def idle_draw(unit, faults):
    """Rule Q29: what an idle unit draws is no more than its S."""
    if None in (unit.idle_loss, unit.inverter, unit.kva):
        return
    draw = -(-unit.idle_loss * 10_000 // unit.inverter)
    if draw > unit.kva:
        faults.append(f'{unit.words}: an idle loss of {commas(unit.idle_loss)} W (idle_loss_W) draws {commas(draw)} W '
                      'through its inverter; that may be at most its kVA rating S (rating_kVA), which is '
                      f'{commas(unit.kva)} VA.')


def connected(top, settings, units, faults):
    """Phases and volts: of all units or of none, and of all where the mode goes by current."""
    given = [unit.phases is not None or unit.volts is not None for unit in units]
    needed = any(given) or settings.mode in keys.BY_CURRENT
    for unit, table in zip(units, top.table.get('unit', []) if needed else []):
        lacking = [key for key in ('phases', 'volts') if key not in table]
        if lacking:
            why = 'another unit has them' if any(given) else f'mode {settings.mode} goes by current'
            faults.append(f'{unit.words}: its connection lacks {" and ".join(lacking)}, and {why}; an example is '
                          f'{kept("phases = 3")} and {kept("volts = 230")}.')


def inverter_of(block, assumed):
    cut_in = block.value(keys.CUT_IN)
    note(block, assumed, {'limit_percent': '100', 'var_request_kvar': '0', 'priority': '"watts"'})
    cut_out = block.at_most(keys.CUT_OUT, block.value(keys.CUT_OUT), keys.CUT_IN, cut_in)
    return Inverter(
        array=block.value(keys.ARRAY), kva=block.value(keys.INVERTER_KVA), cut_in=cut_in, cut_out=cut_out,
        limit=block.value(keys.LIMIT, 10_000), var_request=block.value(keys.VAR_REQUEST, 0),
        priority=block.choice('priority', keys.PRIORITIES, 0),
        temperature=block.curve(keys.DEGREES_X, keys.DEGREES_Y), efficiency=block.curve(keys.LOAD_X, keys.LOAD_Y))


def function_of(block):
    return Function(block.choice('base', keys.BASES), block.curve(keys.VOLTAGE_X, keys.VOLTAGE_Y))
