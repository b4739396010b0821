#!/usr/bin/env python3
"""Writes the sample log, examples/log/barn.csv: sample_log.py FILE. The same bytes come out every time.

Two weeks of quarter-hours in a dairy barn, as its meter shows them: milking in the morning and in the evening, the
feed mixer, a dryer in the second week, and a roof whose sun is in the readings already. On 26 October the clocks go
back. The meter is started anew on a Thursday, and misses a row and some cells.
"""

import datetime
import sys
import zoneinfo

ZONE = zoneinfo.ZoneInfo('Europe/Berlin')
FIRST = datetime.datetime(2025, 10, 19, 22, 0, tzinfo=datetime.timezone.utc)
STEP = datetime.timedelta(minutes=15)
STEPS = (14 * 24 + 1) * 4
HEADER = 'Zeit;P L1 [kW];P L2 [kW];P L3 [kW];G [W/m²];T [°C];Zählerstand [kWh];Bemerkung'

# What runs when, in minutes of the day by the barn's clock, and what it takes, in hundredths of a kW.
MACHINES = (
    (285, 435, 2900), (435, 540, 1250), (570, 615, 1700), (675, 810, 350), (975, 1125, 3350), (1125, 1215, 1400))
DRYER = (600, 1020, 1150)
DRYING = (8, 9, 10)
BASE = 980

# The most sun of each day, in W/m2, and the mean temperature, in tenths of a degree.
SUN = (385, 120, 410, 300, 95, 350, 265, 400, 60, 180, 330, 285, 360, 150)
MEAN = (92, 84, 71, 88, 103, 97, 80, 62, 75, 90, 99, 86, 70, 64)

RESTART = range(3 * 96 + 37, 3 * 96 + 45)
ROW_MISSING = 9 * 96 + 66
CELLS_MISSING = {200: (1,), 201: (1,), 555: (0, 1, 2), 1100: (2,)}
WEATHER_MISSING = range(700, 706)


def noise(step, which, size):
    """A number from 0 to below size that looks like chance and is none."""
    return (step * step * 7919 + step * 104_729 + which * 15_485_863) // 64 % size


def arc(minute, first, last, most):
    """A parabola over a stretch of the day."""
    if not first < minute < last:
        return 0
    return most * 4 * (minute - first) * (last - minute) // (last - first) ** 2


def sun(step, day, minute):
    """W/m2, by UTC, since the sun has no summer time."""
    most = arc(minute, 355, 965, SUN[day])
    return most * (80 + noise(step, 1, 21)) // 100


def load(step, day, minute):
    """Hundredths of a kW, before the roof."""
    total = BASE + noise(step, 2, 240)
    for start, end, power in MACHINES:
        if start <= minute < end:
            total += power + noise(step, 3, power // 5)
    if day in DRYING and DRYER[0] <= minute < DRYER[1]:
        total += DRYER[2]
    return total


def decimal(number, digits):
    """A number of tenths or hundredths with a decimal comma."""
    whole, rest = divmod(abs(number), 10 ** digits)
    return f'{"-" if number < 0 else ""}{whole},{rest:0{digits}d}'


def cells(step, energy):
    """The cells of a row, and the energy drawn by then, in hundredths of a kW for a quarter-hour."""
    utc = FIRST + step * STEP
    local = utc.astimezone(ZONE)
    day, minute = (local.date() - datetime.date(2025, 10, 20)).days, local.hour * 60 + local.minute
    shine = sun(step, day, utc.hour * 60 + utc.minute)
    total = load(step, day, minute) - shine * 32 * 100 // 1000
    first, second = total * (350 + noise(step, 4, 20)) // 1000, total * (320 + noise(step, 5, 25)) // 1000
    powers = [decimal(power, 2) for power in (first, second, total - first - second)]
    for phase in CELLS_MISSING.get(step, ()):
        powers[phase] = ''
    warmth = MEAN[day] + arc(minute, 420, 1140, 55) - 25 + noise(step, 6, 5)
    weather = ['', ''] if step in WEATHER_MISSING else [str(shine), decimal(warmth, 1)]
    energy += max(0, total)
    note = 'Zähler neu gestartet' if step == RESTART.stop else ''
    return [local.strftime('%d.%m.%Y %H:%M'), *powers, *weather, decimal(1_823_450 + energy // 40, 1), note], energy


def text():
    lines, energy = [HEADER], 0
    for step in range(STEPS):
        row, energy = cells(step, energy)
        if step not in RESTART and step != ROW_MISSING:
            lines.append(';'.join(row))
    return '\n'.join(lines) + '\n'


if __name__ == '__main__':
    with open(sys.argv[1], 'w', encoding='utf-8', newline='') as out:
        out.write(text())
