"""The tables of the page: the batteries, the inverters and the targets, as the import tool tells them."""
from .figures import beyond, measure_unit
from .markup import escaped, table, tag
from .words import grouped, hours, kwh, thousandths


def at(number):
    return '-' if number is None else grouped(number)


def energy(joules):
    return '-' if joules is None else kwh(joules)


def fleet_cells(line):
    """The columns that a battery and the fleet have."""
    return [thousandths(line['request_W']), thousandths(line['out_W']), thousandths(line['in_W']), kwh(line['out_J']),
            kwh(line['in_J']), kwh(line['loss_J']), energy(line['store_least_J']), at(line['store_least_step']),
            grouped(line['not_met_steps'])]


def batteries_table(season):
    heading = ['Battery', 'rated kWh', 'reserve kWh', 'R kW', 'request kW', 'out kW', 'in kW', 'out kWh', 'in kWh',
               'loss kWh', 'lowest kWh', 'after step', 'not met, steps']
    units = season.summary['units']
    rows = [[unit['unit'], kwh(unit['rated_J']), kwh(unit['reserve_J']), thousandths(unit['rating_W']),
             *fleet_cells(unit)] for unit in units]
    sums = [sum(unit[key] for unit in units) for key in ('rated_J', 'reserve_J', 'rating_W')]
    rows.append(['Fleet', kwh(sums[0]), kwh(sums[1]), thousandths(sums[2]), *fleet_cells(season.summary['fleet'])])
    return table(heading, rows, 'Batteries and steps are counted from 0, as in the files. request: the largest in '
                 'size; out, in: the most given and taken in a step, and the energy; lowest: the least stored after a '
                 'step.')


def inverters_table(season):
    heading = ['Inverter', 'out kW', 'at step', 'out kWh', 'on h', 'unused kWh']
    lines = [(line['inverter'], line) for line in season.summary['inverters']] + [('Roof', season.summary['roof'])]
    rows = [[name, thousandths(line['out_W']), at(line['out_step']), kwh(line['out_J']), hours(line['on_s']),
             kwh(line['unused_J'])] for name, line in lines]
    return table(heading, rows, 'out: the most given in a step, its first step, and the energy given; unused: the DC '
                 'energy of the array less the energy given.')


def target_row(season, target):
    end = 'net_least' if season.charging else 'net_most'
    net = target[f'{end}_W']
    return [thousandths(target[f'target_{season.key}']), '-' if net is None else thousandths(net),
            at(target[f'{end}_step']), at(target['net_outside_steps']), grouped(target['outside_steps']),
            energy(target['store_least_J']), at(target['store_least_step']), kwh(target['loss_J']),
            grouped(target['not_met_steps'])]


def mark(season, peak, target):
    """What the import tool writes before a target."""
    value = target[f'target_{season.key}']
    words = [word for word in ('held', 'own') if value == peak.get(f'{word}_target_{season.key}')]
    return ', '.join(words)


def targets_table(season, peak):
    side, out = ('smallest' if season.charging else 'largest'), ('outside' if season.mode == 2 else beyond(season))
    heading = ['', f'target {measure_unit(season)}', f'{side} net kW', 'at step', f'{out}, by net',
               f'{out}, by measure', 'lowest store kWh', 'after step', 'loss kWh', 'not met, steps']
    rows = [[mark(season, peak, target), *target_row(season, target)] for target in peak['targets']]
    marked = [row for row, cells in enumerate(rows) if cells[0]]
    return table(heading, rows, f'{out}: the steps that are {out} the target by more than half the band. held: the '
                 'best of these targets that held; own: the one that the stick has.', marked)


def folded(title, inner):
    return tag('details', tag('summary', escaped(title)) + tag('div', inner, class_='wide'))


def tables(season, peak):
    parts = [folded('Every battery in numbers', batteries_table(season))]
    if season.inverters:
        parts.append(folded('Every inverter in numbers', inverters_table(season)))
    if peak is not None:
        parts.append(folded('Every target that was tried', targets_table(season, peak)))
    return ''.join(parts)
