"""The sample of examples/log: the log is what its program writes, and the stick has what the log says."""

import csv
import datetime
import json
import os
import struct
import sys
import unittest
from fractions import Fraction

import sample_log
from sticks import COMMAND, IMPORT, ROOT, Desk, call, decoded

LOG = os.path.join(ROOT, 'examples', 'log', 'barn.csv')
SITE = os.path.join(ROOT, 'examples', 'log', 'barn.toml')


def number(text):
    return Fraction(text.replace(',', '.'))


def closest(exact):
    """The double closest to a fraction, as an exact quotient of whole numbers gives it."""
    return exact.numerator / exact.denominator


class Sample(Desk):
    call = staticmethod(call)

    def setUp(self):
        super().setUp()
        self.called = call(COMMAND, LOG, SITE, self.path('barn.stick'))

    def test_the_log_is_what_its_program_writes(self):
        with open(LOG, 'rb') as log:
            self.assertEqual(log.read(), sample_log.text().encode('utf-8'),
                             'desk/sample_log.py examples/log/barn.csv rewrites it')
        program = os.path.join(ROOT, 'desk', 'sample_log.py')
        self.assertEqual(call(sys.executable, program, self.path('again.csv')).status, 0)
        self.assertEqual(self.bytes_of('again.csv'), sample_log.text().encode('utf-8'))
        self.assertEqual(sorted(os.listdir(os.path.dirname(LOG))), ['barn.csv', 'barn.toml'])

    def test_what_is_said(self):
        self.assertEqual((self.called.status, self.called.error), (0, ''))
        self.says(f'{SITE}: 2 units, 1 inverter', '"Nordhof", edition 1. Mode 1 (PeakShave), target 52.000 kW, band '
                                                  '2.000 kW.',
                  f'{LOG}: 1,339 rows', 'decimal commas, times as DD.MM.YYYY HH:MM in Europe/Berlin. A step has 15 '
                                        'minutes.',
                  'Clock: on 2025-10-26 it was put back from 03:00 to 02:00. The time between them comes twice: 4 of 4 '
                  'rows the first time, 4 of 4 rows the second.', 'Missing: 13 readings of 1,348: 9 in 2 gaps of the '
                                                                  'times, 4 in rows with an empty cell.',
                  'Gaps: steps 325 to 332, 2025-10-23 09:15 CEST to 2025-10-23 11:00 CEST; step 930, 2025-10-29 15:30 '
                  'CET.',
                  'Left out: columns "Zählerstand [kWh]" and "Bemerkung".', 'barn.stick: complete, 1348 steps',
                  'From 2025-10-20 00:00 CEST to 2025-11-02 23:45 CET, which is step 1,347;')

    def expected(self):
        """The steps of the log, by its rows alone: by how long after its first row each was read."""
        steps, before = {}, None
        with open(LOG, encoding='utf-8', newline='') as log:
            for row in list(csv.reader(log, delimiter=';'))[1:]:
                wall = datetime.datetime.strptime(row[0], '%d.%m.%Y %H:%M')
                # The clock is an hour less behind summer time from its second 02:00 on.
                if before is None:
                    summer = True
                elif wall < before or wall.date() > datetime.date(2025, 10, 26):
                    summer = False
                before = wall
                since = wall - datetime.datetime(2025, 10, 20) + datetime.timedelta(hours=0 if summer else 1)
                powers = tuple(closest(number(cell)) for cell in row[1:4]) if all(row[1:4]) else None
                weather = (closest(number(row[4]) / 1000), closest(number(row[5]))) if row[4] else None
                steps[since // datetime.timedelta(minutes=15)] = weather, powers
        return [steps.get(step, (None, None)) for step in range(max(steps) + 1)]

    def test_the_stick_has_what_the_log_says(self):
        said = decoded(self.bytes_of('barn.stick'))
        self.assertEqual([(weather, powers) for weather, _, _, powers in said['steps']], self.expected())
        self.assertEqual((said['end'], said['seconds'], said['edition']), (1348, 900, 1))
        self.assertEqual(said['settings'], (1, 52_000, 2000, 1000, 0))
        self.assertEqual(said['units'], [(432_000_000, 43_200_000, 410_400_000, 24_000, 26_400, 95, 0, 2, 9650, 9600,
                                          9550, 0),
                                         (144_000_000, 14_400_000, 138_600_000, 12_000, 12_000, 60, 0, 1, 9500, 9500,
                                          9450, 0)])
        self.assertEqual(said['inverters'], [(39_600, 36_000, 100, 50, 7000, 0, 0)])
        self.assertEqual(said['curves'], [[(-10_000, 11_400), (25_000, 10_000), (75_000, 8200)],
                                          [(20, 8500), (100, 9400), (300, 9720), (1000, 9680)]])

    def test_check_run_summary_and_peak(self):
        """The commands behind it take the stick, and the target of the site file is one that holds."""
        stick = self.path('barn.stick')
        answer = json.loads(call(IMPORT, 'check', '--json', stick).output)
        measures = [sum(round(Fraction(one) * 1000) for one in powers) for _, powers in self.expected() if powers]
        self.assertEqual((answer['steps'], answer['missing_steps'], answer['least_W'], answer['most_W']),
                         (1348, 13, min(measures), max(measures)))
        self.assertEqual(call(IMPORT, 'run', stick, self.path('result')).status, 0)
        self.assertEqual(len(self.bytes_of('result')), (40 * 2 + 29) * 1348 + 7)
        self.assertEqual(call(IMPORT, 'summary', stick, self.path('result')).status, 0)
        peak = call(IMPORT, 'peak', stick)
        self.assertEqual(peak.status, 0)
        self.assertRegex(peak.output, r'(?m)^held own 52\.000 ')

    def test_doubles_are_written_whole(self):
        """The bytes of the first reading, worked out by hand: 3.81, 3.51 and 3.41 kW."""
        self.assertIn(struct.pack('>BHddd', 4, 24, 3.81, 3.51, 3.41), self.bytes_of('barn.stick'))
        self.assertEqual(struct.pack('>d', 3.81).hex(), '400e7ae147ae147b')


if __name__ == '__main__':
    unittest.main()
