"""Numbers and steps as people read them, in the words of the import tool: thousands parted by commas, a unit behind
every number, steps as files and as people count them.
"""

MODES = {
    1: ('PeakShave', 'the batteries give while the measure is above the target'),
    2: ('Support', 'the batteries give while measure and target together are above 0'),
    3: ('PeakShaveLow', 'the batteries charge while the measure is below the target'),
    4: ('I-PeakShave', 'the batteries give while the current is above the target'),
    5: ('I-PeakShaveLow', 'the batteries charge while the current is below the target'),
}

PHASES = ('the sum of the three phases', 'phase 1', 'phase 2', 'phase 3', 'the largest of the three phases',
          'the smallest of the three phases')


def grouped(number):
    return f'{number:,}'


def thousandths(number):
    """A whole number of thousandths, with all three decimals: W as kW, mA as A."""
    whole, part = divmod(abs(number), 1000)
    return f'{"-" if number < 0 else ""}{whole:,}.{part:03}'


def kwh(joules):
    """Joules as kWh with three decimals, rounded as the import tool does."""
    return thousandths((joules + 1800) // 3600)


def hours(seconds):
    return thousandths((1000 * seconds + 1800) // 3600)


def ordinal(count):
    ends = {1: 'st', 2: 'nd', 3: 'rd'}
    end = 'th' if count // 10 % 10 == 1 else ends.get(count % 10, 'th')
    return f'{count:,}{end}'


def step(number):
    return f'step {number:,}, the {ordinal(number + 1)} row'


def which(what, number):
    """Which battery or inverter it is, as the file and as people count."""
    return f'{what} {number}, the {ordinal(number + 1)}'


def many(count, what):
    return f'{count:,} {what}{"" if count == 1 else "s"}'


def batteries(count):
    return f'{count:,} {"battery" if count == 1 else "batteries"}'


def lasting(seconds):
    """Seconds in the words that they fill: 1 day 30 min."""
    if seconds == 0:
        return '0 s'
    words = []
    for size, one, more in ((86400, 'day', 'days'), (3600, 'h', 'h'), (60, 'min', 'min'), (1, 's', 's')):
        count, seconds = divmod(seconds, size)
        if count:
            words.append(f'{count:,} {one if count == 1 else more}')
    return ' '.join(words)


def name_shown(name):
    """A file's name as one line of text: what is no UTF-8, or cannot be seen, is shown by its number."""
    text = name.decode('utf-8', 'backslashreplace')
    return ''.join(letter if letter.isprintable() else f'\\u{{{ord(letter):X}}}' for letter in text)
