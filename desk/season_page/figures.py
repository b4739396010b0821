"""The figures of the season as the page has them at its top: the library's, as the import tool tells them."""
from .markup import escaped, tag
from .words import MODES, PHASES, batteries, grouped, kwh, lasting, many, step, thousandths

MOST_BYTES = 2097152

NET = ('The net measure is the measure less the fleet\'s power: what the meter would have shown with the fleet at '
       'work, if the log was taken without it. Of any other log it says nothing.')
NO_NET = ('The stick goes by current, so that there is no measure less the fleet\'s power: this is in watts, and what '
          'it takes off the meter\'s amperes no stick says.')


def measure_unit(season):
    return 'A' if season.by_current else 'kW'


def measured(season, number):
    return f'{thousandths(number)} {measure_unit(season)}'


def beyond(season):
    """What a step is that is outside."""
    return 'below' if season.charging else 'above'


def limit(season):
    """Where it begins to be outside: half a band beyond the target, which may be half a thousandth more."""
    twice = 2 * season.line() + (-season.band if season.charging else season.band)
    half = '5' if twice % 2 else ''
    text = f'{"-" if twice < 0 else ""}{thousandths(abs(twice) // 2)}{half}'
    return f'{beyond(season)} {text} {measure_unit(season)}'


def season_lines(season):
    """What season it is, in two lines."""
    name, does = MODES[season.mode]
    parts = [batteries(len(season.batteries))]
    if season.inverters:
        parts.append(many(len(season.inverters), 'inverter'))
    length = f'{grouped(season.seconds)} s' + (f' ({lasting(season.seconds)})' if season.seconds >= 60 else '')
    parts += [f'{many(season.steps, "step")} of {length}', lasting(season.seconds * season.steps)]
    about = [f'Mode {season.mode}, {name}: {does}', f'target {measured(season, season.target)}',
             f'band {measured(season, season.band)}', f'factor {thousandths(season.summary["factor_thousandths"])}',
             f'the measure is {PHASES[season.summary["phase"]]}']
    if season.summary['edition'] == 3:
        about.append('older storage model (edition 3): idle loss at the grid')
    return ', '.join(parts), '; '.join(about)


def at_step(number, before='at'):
    """A step that the charts can be taken to."""
    return escaped(before) + ' ' + tag('button', escaped(step(number)), type='button', data_step=number)


def card(name, value, *notes):
    return tag('div', tag('dt', escaped(name)) + tag('dd', tag('strong', escaped(value)) +
                                                    ''.join(tag('span', note) for note in notes)))


def end_card(season, name, key, step_key):
    """The end of the measures, or of the net ones, that counts in the mode."""
    value = season.summary[key]
    if value is None:
        return card(name, 'none', escaped('no step has one'))
    return card(name, measured(season, value), at_step(season.summary[step_key]))


def measure_cards(season):
    side, end = ('Smallest', 'least') if season.charging else ('Largest', 'most')
    yield end_card(season, f'{side} measure', f'{end}_{season.key}', f'{end}_step')
    if season.by_current:
        yield card(f'{side} net measure', 'none', escaped('by current nobody can say'))
    else:
        yield end_card(season, f'{side} net measure', f'net_{end}_W', f'net_{end}_step')


def outside_card(season):
    summary, name = season.summary, f'Steps {beyond(season)} the target'
    if season.mode == 2:
        name = 'Steps outside the target'
    by = escaped(f'of {grouped(season.steps)}; {limit(season)}')
    if summary['net_outside_steps'] is None:
        return card(name, grouped(summary['outside_steps']), by, escaped('by the measure'))
    return card(name, grouped(summary['net_outside_steps']), by,
                escaped(f'by the net measure; {grouped(summary["outside_steps"])} by the measure'))


def fleet_cards(season):
    summary = season.summary
    yield card('Missing readings', grouped(summary['missing_steps']), escaped(f'of {many(season.steps, "step")}'))
    if summary['store_least_J'] is None:
        yield card('Lowest store', 'none', escaped('there is no step'))
    else:
        after = at_step(summary['store_least_step'], 'after')
        yield card('Lowest store', f'{kwh(summary["store_least_J"])} kWh', after)
    yield card('Losses', f'{kwh(summary["loss_J"])} kWh', escaped(f'of all batteries, in {many(season.steps, "step")}'))
    unmet = 'some battery gave or took another power; that alone says nothing of the peak'
    yield card('Requests not met', many(summary['not_met_steps'], 'step'),
               escaped(unmet if summary['not_met_steps'] else 'every battery gave or took what it was asked for'))


def asks_more(season):
    """Of two targets the one that asks more of the fleet is the lower one, or the higher one."""
    return ('Highest', 'lower') if season.charging or season.mode == 2 else ('Lowest', 'higher')


def held_card(season, peak):
    side, other = asks_more(season)
    name = f'{side} target that held'
    tried = f'of {many(len(peak["targets"]), "target")} tried'
    if season.by_current:
        return card(name, 'none', escaped('by current nobody can say'))
    held = peak['held_target_W']
    if held is None:
        why = 'no step has a reading' if season.summary['net_most_W'] is None else f'{other} ones may hold'
        return card(name, 'none', escaped(f'{tried}; {why}'))
    easier = [target['held'] for target in peak['targets']
              if (target['target_W'] < held if other == 'lower' else target['target_W'] > held)]
    gap = '' if all(easier) else f'; not every {other} one held'
    return card(name, measured(season, held), escaped(tried + gap))


def cards(season, peak):
    """All figures. A stick that is too long has none."""
    if season.summary['loss_J'] is None:
        return tag('p', escaped('The library tells no figures of a stick of more than '
                                f'{grouped(MOST_BYTES)} bytes, and tries no other targets.'))
    all_cards = [*measure_cards(season), outside_card(season), held_card(season, peak), *fleet_cards(season)]
    return tag('dl', ''.join(all_cards), class_='cards') + \
        tag('p', escaped(NO_NET if season.by_current else NET), class_='note')
