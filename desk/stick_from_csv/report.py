"""What is said at the end: what was read, what is missing, what was left out, and what is on the stick."""

from . import keys
from .checked import LARGEST_WHOLE
from .clock import SECOND
from .table import DELIMITERS, ENCODINGS
from .words import commas, joined, many, ordinal, plain, quoted, some, wrapped

# So many gaps, rows and columns are named one by one.
GAPS_NAMED = 5
NAMED = 8
MARKS = {'.': 'points', ',': 'commas'}


def report(site, log, names, answer, data):
    """The lines of a stick that was written."""
    log_name, site_name, stick_name = map(plain, names)
    yield f'{site_name}: {many(len(site.units), "unit")}, {many(len(site.inverters), "inverter")}'
    yield from map(wrapped, site_words(site))
    yield f'{log_name}: {many(log.moments.rows, "row")}'
    for words in (read_words(log), column_words(log), clock_words(log), missing_words(log), other_words(site, log),
                  left_out_words(log)):
        yield from map(wrapped, words)
    # As import check has it.
    yield f'{stick_name}: complete, {len(log.steps)} steps'
    yield from map(wrapped, stick_words(log, answer, data))


def site_words(site):
    settings = site.settings
    mode = {number: name for name, number in keys.MODES.items()}[settings.mode]
    unit = 'A' if site.by_current() else 'kW'
    name = f'{quoted(site.name)}, edition' if site.name else 'Edition'
    yield (f'{name} {site.edition}. Mode {settings.mode} ({mode}), target {thousandths(settings.target)} {unit}, band '
           f'{thousandths(settings.band)} {unit}.')
    if site.assumed:
        count = {'unit': len(site.units), 'inverter': len(site.inverters)}
        taken = [f'{line} for {parts_words(kind, parts, count[kind])}' for (kind, line), parts in site.assumed.items()]
        yield f'Not in it, and so taken: {"; ".join(taken)}.'


def parts_words(kind, parts, count):
    if count == 1:
        return f'the {kind}'
    if len(parts) == count:
        return f'all {count} {kind}s'
    return some([f'{kind} {part}' for part in parts], NAMED)


def thousandths(number):
    """Thousandths with all of their three decimals."""
    whole, rest = divmod(abs(number), 1000)
    return f'{"-" if number < 0 else ""}{commas(whole)}.{rest:03d}'


def read_words(log):
    table, moments = log.moments.table, log.moments
    where = 'with their own offsets' if moments.has_offsets else f'in {moments.zone.words}'
    seconds = log.step // SECOND
    length = many(seconds, 'second') if seconds % 60 else many(seconds // 60, 'minute')
    seen = '' if moments.plan.step else ', as the first rows are apart'
    yield (f'Read as {ENCODINGS[table.encoding]}, {DELIMITERS[table.delimiter]} between the cells, decimal '
           f'{MARKS[log.cells.decimal]}, times as {moments.times.words} {where}. A step has {length}{seen}.')


def column_words(log):
    """Which columns were taken, for what and in which unit."""
    table = log.moments.table
    phases = 'currents' if log.moments.plan.by_current else 'powers'
    parts = []
    for role, places in table.places.items():
        unit = f' in {log.units[role]}' if role in log.units else ''
        columns = joined(table.column(place) for place in places)
        parts.append(f'{phases if role == "phase" else role}{unit} from {columns}')
    text = '; '.join(parts)
    yield f'{text[0].upper()}{text[1:]}.'


def clock_words(log):
    """Each jump of the clock between the first step and the last."""
    if log.moments.has_offsets:
        return
    for jump in log.moments.zone.jumps(log.origin, log.instant(len(log.steps) - 1)):
        before, after = (jump.wall(offset).strftime('%H:%M') for offset in (jump.before, jump.after))
        day = jump.wall(jump.before).strftime('%Y-%m-%d')
        if jump.after > jump.before:
            yield (f'Clock: on {day} it was put on from {before} to {after}. There is no time between them, and '
                   'nothing is missing for it.')
        else:
            first, second = (rows_between(log, jump.instant + shift, jump.length()) for shift in (-jump.length(), 0))
            yield (f'Clock: on {day} it was put back from {before} to {after}. The time between them comes twice: '
                   f'{first} the first time, {second} the second.')


def rows_between(log, start, length):
    """How many of the steps that begin in a stretch of time have a row."""
    low, high = (max(0, -((log.origin - end) // log.step)) for end in (start, start + length))
    return f'{sum(1 for step in log.steps[low:high] if step.row)} of {many(high - low, "row")}'


def missing_words(log):
    """The readings that are missing, by why they are."""
    in_gaps = sum(length for _, length in log.gaps)
    missing = in_gaps + len(log.lacking)
    if not missing:
        yield f'No reading is missing in {many(len(log.steps), "step")}.'
        return
    marks = sorted(mark for mark in log.cells.missing if mark)
    yield (f'Missing: {many(missing, "reading")} of {commas(len(log.steps))}: {commas(in_gaps)} in '
           f'{many(len(log.gaps), "gap")} of the times, {commas(len(log.lacking))} in rows with '
           f'{joined(["an empty cell", *map(quoted, marks)], "or")}.')
    if log.gaps:
        named = '; '.join(gap_words(log, *gap) for gap in log.gaps[:GAPS_NAMED])
        more = f' And {many(len(log.gaps) - GAPS_NAMED, "gap")} more.' if len(log.gaps) > GAPS_NAMED else ''
        yield f'{"Gap" if len(log.gaps) == 1 else "Gaps"}: {named}.{more}'
    if log.lacking:
        yield f'Such rows: {some(map(commas, log.lacking), NAMED)}.'


def gap_words(log, step, length):
    last = step + length - 1
    if length == 1:
        return f'step {commas(step)}, {log.shown(step)}'
    return f'steps {commas(step)} to {commas(last)}, {log.shown(step)} to {log.shown(last)}'


def other_words(site, log):
    """The weather and the voltages that are missing."""
    places = log.moments.table.places
    if 'irradiance' in places and log.without('weather'):
        yield (f'{many(log.without("weather"), "row")} without irradiance or temperature: these steps, like those in '
               'gaps, have no sun.')
    if log.dark:
        yield (f'{many(len(log.dark), "row")} with an irradiance below 0, by no more than night_offset_W_m2, taken as '
               f'0: {some(map(commas, log.dark), NAMED)}.')
    if site.inverters and 'irradiance' not in places:
        yield 'The site has inverters and the log no weather: no step has sun, and they give nothing.'
    if 'voltage' in places and log.without('voltage'):
        yield (f'{many(log.without("voltage"), "row")} without a voltage: in these steps, as in gaps, the vars last '
               'requested stay.')
    if site.function and 'voltage' not in places:
        yield 'The site has a function and the log no voltage: it leads nothing.'


def left_out_words(log):
    moments = log.moments
    names = [quoted(name) for name in moments.table.left_out()]
    if names:
        yield f'Left out: {"column" if len(names) == 1 else "columns"} {some(names, NAMED)}.'
    counts = ((moments.before, 'before from'), (moments.after, 'after to'), (moments.blank, 'that are blank'))
    rows = [f'{many(count, "row")} {why}' for count, why in counts if count]
    if rows:
        yield f'Left out: {joined(rows)}.'
    if moments.short:
        yield f'{many(moments.short, "row")} with fewer cells than the header; what they lack counts as empty.'


def stick_words(log, answer, data):
    last = len(log.steps) - 1
    yield f'From {log.shown(0)} to {log.shown(last)}, which is step {commas(last)}; {commas(len(data))} bytes.'
    if len(data) > LARGEST_WHOLE:
        yield (f'It has more than {commas(LARGEST_WHOLE)} bytes: import checks and runs it, but its smallest and '
               'largest measure are not told, and summary has no figures of the season. From and to in [log] take a '
               'part of the log.')
    for key, words in (('least', 'Smallest'), ('most', 'Largest')):
        if answer[f'{key}_step'] is not None:
            yield f'{words} measure {measure_words(log, answer, key)}.'


def measure_words(log, answer, key):
    unit, stored = ('A', 'mA') if f'{key}_mA' in answer else ('kW', 'W')
    step = answer[f'{key}_step']
    return (f'{thousandths(answer[f"{key}_{stored}"])} {unit} at step {commas(step)}, the {ordinal(step + 1)}: row '
            f'{commas(log.steps[step].row)} of the log, {log.shown(step)}')
