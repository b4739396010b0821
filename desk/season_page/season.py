"""The data of the page: the table of the import tool as columns over the steps, held against its figures."""
from array import array

from .faults import Failed
from .packed import pack

BY_CURRENT = (4, 5)
CHARGING = (3, 5)
SUPPORT = 2


class Battery:
    def __init__(self, said):
        self.said = said
        self.request, self.power, self.store, self.loss = array('q'), array('q'), array('q'), array('q')


class Inverter:
    def __init__(self):
        self.power, self.dc, self.on = array('q'), array('q'), array('q')


class Season:
    """A season as the summary and the table tell it. A measure that is missing is None, and so is a net measure."""

    def __init__(self, summary):
        self.summary = summary
        self.steps, self.seconds, self.mode = summary['steps'], summary['seconds'], summary['mode']
        self.by_current, self.charging = self.mode in BY_CURRENT, self.mode in CHARGING
        self.key = 'mA' if self.by_current else 'W'
        self.target, self.band = summary[f'target_{self.key}'], summary[f'band_{self.key}']
        self.batteries = [Battery(said) for said in summary['units']]
        self.inverters = [Inverter() for _ in summary['inverters']]
        self.measure, self.net, self.fleet = [], [], array('q')

    def line(self):
        """The target on the scale of the measure: where the need is 0 (P1)."""
        return -self.target if self.mode == SUPPORT else self.target

    def is_outside(self, measure):
        """Whether a measure, or a net one, counts as outside (G5)."""
        need = measure - self.line()
        return (need < 0 if self.charging else need > 0) and 2 * abs(need) > self.band

    def outside(self, column):
        return [step for step, measure in enumerate(column) if measure is not None and self.is_outside(measure)]

    def missing(self):
        return [step for step, measure in enumerate(self.measure) if measure is None]


def sums(parts, name):
    """The sums over all batteries, or inverters, of a column."""
    return [sum(values) for values in zip(*(getattr(part, name) for part in parts))]


def watts(cell):
    """Whole watts of kW with three decimals."""
    whole, _, part = cell.partition('.')
    if len(part) != 3:
        raise ValueError(cell)
    return int(whole + part)


class Rows:
    """The rows of a table, by the names of their columns."""

    def __init__(self, lines, key):
        self.lines = iter(lines)
        self.at = {name: at for at, name in enumerate(next(self.lines).rstrip('\n').split(','))}
        self.measure = self.at[f'measure_{key}']

    def next(self, step, name):
        cells = next(self.lines).rstrip('\n').split(',')
        if cells[self.at['step']] != str(step) or cells[self.at['unit']] != name:
            raise ValueError(','.join(cells))
        return cells

    def end(self):
        for line in self.lines:
            raise ValueError(line)


def take_battery(battery, cells, at):
    battery.request.append(int(cells[at['request_W']]))
    battery.power.append(watts(cells[at['delivered_kW']]))
    battery.store.append(int(cells[at['stored_J']]))
    battery.loss.append(int(cells[at['loss_J']]))


def take_inverter(inverter, cells, at):
    inverter.power.append(watts(cells[at['delivered_kW']]))
    inverter.dc.append(int(cells[at['DC_W']]))
    inverter.on.append(int(cells[at['on']]))


def take_step(season, rows, step):
    for number, battery in enumerate(season.batteries):
        cells = rows.next(step, str(number))
        take_battery(battery, cells, rows.at)
    # All lines of a step end alike.
    seen, net = cells[rows.measure], cells[rows.at['net_W']]
    season.measure.append(None if seen == 'missing' else int(seen))
    season.net.append(None if net == '' else int(net))
    season.fleet.append(int(cells[rows.at['fleet_W']]))
    for number, inverter in enumerate(season.inverters):
        take_inverter(inverter, rows.next(step, f'inverter {number}'), rows.at)


def take_table(season, lines):
    try:
        rows = Rows(lines, season.key)
        for step in range(season.steps):
            take_step(season, rows, step)
        rows.end()
    except (ValueError, KeyError, IndexError, StopIteration) as fault:
        raise Failed(f'the table of the import tool is not one of this season: {fault!r}') from fault


def ends(column):
    """The smallest and the largest of a column, each with the first step that has it."""
    some = [value for value in column if value is not None]
    if not some:
        return None, None, None, None
    return min(some), column.index(min(some)), max(some), column.index(max(some))


def drawn(season):
    """What the columns come to, by the names of the figures that say the same."""
    least, least_step, most, most_step = ends(season.measure)
    net_least, net_least_step, net_most, net_most_step = ends(season.net)
    store, store_step, _, _ = ends(sums(season.batteries, 'store'))
    return {
        'missing_steps': len(season.missing()),
        f'least_{season.key}': least, 'least_step': least_step, f'most_{season.key}': most, 'most_step': most_step,
        'outside_steps': len(season.outside(season.measure)),
        'net_least_W': net_least, 'net_least_step': net_least_step,
        'net_most_W': net_most, 'net_most_step': net_most_step,
        'net_outside_steps': None if net_most is None else len(season.outside(season.net)),
        'store_least_J': store, 'store_least_step': store_step,
        'loss_J': sum(sum(battery.loss) for battery in season.batteries),
    }


def hold(season):
    """What is drawn is what the figures say, or there is no page. A stick that is too long has no figures."""
    if season.summary['loss_J'] is None:
        return
    for name, value in drawn(season).items():
        if season.summary[name] != value:
            raise Failed(f'the table of the import tool gives {value} for {name}, its summary {season.summary[name]}; '
                         'keep the stick and tell the developers')


def read(tool):
    """The season of the tool's stick."""
    season = Season(tool.summary())
    with tool.table() as lines:
        take_table(season, lines)
    hold(season)
    return season


def filled(column):
    """A column whose gaps repeat what came before them; the page has their steps in a list of their own."""
    last, full = 0, []
    for value in column:
        last = last if value is None else value
        full.append(last)
    return full


def battery_data(battery):
    said = battery.said
    return {'rated': said['rated_J'], 'reserve': said['reserve_J'], 'start': said['stored_J'],
            'rating': said['rating_W'], 'request': pack(battery.request), 'power': pack(battery.power),
            'store': pack(battery.store), 'loss': pack(battery.loss)}


def inverter_data(inverter):
    return {'power': pack(inverter.power), 'dc': pack(inverter.dc), 'on': pack(inverter.on)}


def sweep_data(season, peak):
    """The sweep as the page draws it: of each target the end of the net measures that counts in the mode."""
    if peak is None:
        return None
    net = 'net_least_W' if season.charging else 'net_most_W'
    return {
        'own': peak[f'own_target_{season.key}'], 'held': peak.get(f'held_target_{season.key}'),
        'targets': [{'target': target[f'target_{season.key}'], 'net': target[net],
                     'outside': target['net_outside_steps'], 'seen': target['outside_steps'],
                     'store': target['store_least_J'], 'held': target['held']} for target in peak['targets']],
    }


def data(season, peak):
    """What the page's program is given."""
    has_net = any(net is not None for net in season.net)
    return {
        'steps': season.steps, 'seconds': season.seconds, 'mode': season.mode, 'current': season.by_current,
        'charging': season.charging, 'line': season.line(), 'band': season.band,
        'measure': pack(filled(season.measure)), 'missing': pack(season.missing()),
        'outside': pack(season.outside(season.measure)),
        'net': pack(filled(season.net)) if has_net else None,
        'netOutside': pack(season.outside(season.net)),
        'fleet': pack(season.fleet),
        'rated': sum(battery.said['rated_J'] for battery in season.batteries),
        'reserve': sum(battery.said['reserve_J'] for battery in season.batteries),
        'start': sum(battery.said['stored_J'] for battery in season.batteries),
        'store': pack(sums(season.batteries, 'store')), 'loss': pack(sums(season.batteries, 'loss')),
        'batteries': [battery_data(battery) for battery in season.batteries],
        'inverters': [inverter_data(inverter) for inverter in season.inverters],
        'roof': {name: pack(sums(season.inverters, name)) for name in ('power', 'dc')},
        'sweep': sweep_data(season, peak),
    }
