"""Large logs: one of 1,000,000 rows is refused, or a part of it taken; how long that takes is told, not held to. And
the largest stick, and a log that is too large to be read.
"""

import datetime
import os
import time
import unittest

from sticks import COMMAND, FUNCTION, INVERTER, LOG, SETTINGS, SITE, UNIT, Desk, call, decoded

ROWS = 1_000_000


class Largest(Desk):
    def test_the_largest_stick(self):
        """65,535 steps with weather and voltage are more than a call of the library takes whole; import feeds them."""
        site = (LOG + 'irradiance = "G"\nirradiance_unit = "W/m2"\ntemperature = "T"\nvoltage = "U"\n'
                'voltage_unit = "per unit"\nstep_seconds = 1\n' + SETTINGS + UNIT + INVERTER + FUNCTION)
        rows = ''.join(f'2025-06-01 {row // 3600:02d}:{row // 60 % 60:02d}:{row % 60:02d};1;2;3;{row % 900};20;1,01\n'
                       for row in range(65_535))
        stick = self.made('time;L1;L2;L3;G;T;U\n' + rows, site)
        self.assertEqual(len(stick), 9 + 52 + 15 + 286 + 136 + 65_535 * 51 + 7)
        self.says('out.stick: complete, 65535 steps', 'It has more than 2,097,152 bytes: import checks and runs it, '
                  'but its smallest and largest measure are not told, and summary has no figures of the season.')
        self.assertEqual(decoded(stick)['steps'][899:901],
                         [((0.899, 20), 10_100, 4, (1, 2, 3)), ((0, 20), 10_100, 4, (1, 2, 3))])

    def test_a_log_that_is_too_large(self):
        with open(self.path('log.csv'), 'wb') as log:
            log.truncate((1 << 30) + 1)
        self.called = call(COMMAND, self.path('log.csv'), self.write('site.toml', SITE), self.path('out.stick'))
        self.assertEqual((self.called.status, self.called.output), (1, ''))
        self.says('log.csv: refused It has more than 1,073,741,824 bytes. Export a part of it.')

    def test_a_log_without_an_end(self):
        """An endless line is read no further than any other log."""
        self.refused('cannot be parted into cells', 'x' * 3_000_000)
        self.refused('cannot be parted into cells', 'time;L1;L2;L3\n2025-06-01 00:00;' + 'x' * 3_000_000)


class Large(Desk):
    def timed(self, site):
        started = time.monotonic()
        self.called = call(COMMAND, self.path('log.csv'), self.write('site.toml', site), self.path('out.stick'))
        print(f'a log of {ROWS:,} rows: {time.monotonic() - started:.1f} s', flush=True)

    def setUp(self):
        super().setUp()
        first = datetime.datetime(2023, 6, 1)
        days = [(first + datetime.timedelta(days=day)).strftime('%d.%m.%Y') for day in range(ROWS // 1440 + 1)]
        minutes = [f'{minute // 60:02d}:{minute % 60:02d}' for minute in range(1440)]
        with open(self.path('log.csv'), 'w', encoding='ascii') as out:
            out.write('time;L1;L2;L3\n')
            for row in range(ROWS):
                time_of = f'{days[row // 1440]} {minutes[row % 1440]}'
                out.write(f'{time_of};{row % 97},{row % 10};{row % 89};-{row % 7},25\n')

    def test_too_many_and_a_part(self):
        site = LOG.replace('Europe/Berlin', '+01:00') + '{}' + SETTINGS + UNIT
        self.timed(site.format(''))
        self.assertEqual((self.called.status, self.called.output), (1, ''))
        self.says('log.csv: refused Row 65,537, "16.07.2023 12:15", would be step 65,535, and a stick holds at most '
                  '65,535 steps, counted from 0.',
                  'Else take a part of the log: from and to in [log] say which.')
        self.assertEqual(sorted(os.listdir(self.folder)), ['log.csv', 'site.toml'])
        # The last two days and what is left of a third.
        self.timed(site.format('from = 2025-04-23\nto = 2025-04-24\n'))
        self.assertEqual((self.called.status, self.called.error), (0, ''))
        self.says('1,000,000 rows', 'No reading is missing in 2,880 steps.',
                  'Left out: 996,480 rows before from and 640 rows after to.',
                  'out.stick: complete, 2880 steps', 'From 2025-04-23 00:00 +01:00 to 2025-04-24 23:59 +01:00')
        with open(self.path('out.stick'), 'rb') as file:
            steps = decoded(file.read())['steps']
        row = 996_480
        self.assertEqual([step[3] for step in steps],
                         [(float(f'{at % 97}.{at % 10}'), at % 89, -(at % 7) - 0.25) for at in range(row, row + 2880)])


if __name__ == '__main__':
    unittest.main()
