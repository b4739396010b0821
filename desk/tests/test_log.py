"""The log as meters and spreadsheets export it: letters, delimiters, decimal marks, quotes, units, missing cells."""

import struct
import unittest
from fractions import Fraction

from sticks import CURRENT_SITE, FUNCTION, IMPORT, INVERTER, LOG, ROWS, SETTINGS, SITE, UNIT, Desk, call

TWO = [(1.5, 2.25, -3.0), (4.0, 5.0, 6.5)]


def double(kilowatts):
    """The bits of the double closest to an exact number, found without the conversion that is tested."""
    return struct.pack('>d', kilowatts.numerator / kilowatts.denominator)


class Forms(Desk):
    def test_delimiters_and_marks(self):
        for delimiter, words in ((';', 'semicolons'), ('\t', 'tabs')):
            self.assertEqual(self.readings(ROWS.replace(';', delimiter)), TWO)
            self.says(f'{words} between the cells, decimal commas')
            self.assertEqual(self.readings(ROWS.replace(',', '.').replace(';', delimiter)), TWO)
            self.says(f'{words} between the cells, decimal points')
        self.assertEqual(self.readings(ROWS.replace(',', '.').replace(';', ',')), TWO)
        self.says('commas between the cells, decimal points')

    def test_decimal_commas_between_quotes(self):
        log = 'time,L1,L2,L3\n"2025-06-01 00:00","1,5","2,25",-3\n2025-06-01 00:15,"4","5","6,5"\n'
        self.assertEqual(self.readings(log), TWO)
        self.says('commas between the cells, decimal commas')

    def test_decimal_commas_with_comma_delimiter(self):
        self.refused('Row 2 has 6 cells, and the header has 4. If its numbers have decimal commas: export the log with '
                     'semicolons, or with decimal points.', ROWS.replace(';', ','))

    def test_letters(self):
        site = SITE.replace('"L1"', '"Wärme <L1>"')
        log = ROWS.replace('L1', 'Wärme <L1>')
        self.assertEqual(self.readings(log, site), TWO)
        self.says('Read as UTF-8, semicolons')
        for encoding, words in (('utf-8-sig', 'UTF-8 with a byte order mark'), ('latin-1', 'Latin-1'), ('utf-16', 'UTF-16')):
            with self.subTest(encoding=encoding):
                self.assertEqual(self.readings(log.encode(encoding), site), TWO)
                self.says(f'Read as {words}, semicolons', 'powers in kW from "Wärme <L1>"')
        # Letters that are composed otherwise are the same name.
        self.assertEqual(self.readings(log.replace('ä', 'a\u0308'), site), TWO)

    def test_line_ends_blanks_and_quotes(self):
        for log in (ROWS.replace('\n', '\r\n'), ROWS.replace('\n', '\r'), ROWS + '\n\n;;;\n', ROWS.rstrip('\n'),
                    ROWS.replace('\n', ';;\n'), ROWS.replace(';', ' ; '),
                    '"' + ROWS.replace(';', '";"').replace('\n', '"\n"')[:-1],
                    ROWS.replace('\n2025-06-01 00:15', '\n;;;\n\n2025-06-01 00:15')):
            with self.subTest(log=log):
                self.assertEqual(self.readings(log), TWO)
        self.says('Left out: 2 rows that are blank.')

    def test_names_with_anything(self):
        log = 'time;"He said ""<b>L1</b>""; loud";L2\\;"L3&amp;"\n' + ROWS.split('\n', 1)[1]
        site = SITE.replace('"L1", "L2", "L3"', "'He said \"<b>L1</b>\"; loud', 'L2\\', 'L3&amp;'")
        self.assertEqual(self.readings(log, site), TWO)
        self.says('from "He said "<b>L1</b>"; loud", "L2\\" and "L3&amp;".')
        # What would steer a terminal does not get there.
        self.refused('There is no column "L1".', ROWS.replace('L1', '\x1b[2J\u202eL'))
        self.assertNotIn('\x1b', self.called.error)
        self.assertNotIn('\u202e', self.called.error)

    def test_a_line_for_a_spreadsheet(self):
        self.assertEqual(self.readings('sep=;\n' + ROWS), TWO)
        self.assertEqual(self.readings('sep=,\n' + ROWS.replace(',', '.').replace(';', ',')), TWO)
        self.refused('Row 4, column "L1": "x" is no number', 'sep=;\n' + ROWS.replace(';4;', ';x;'))

    def test_header_further_down(self):
        log = 'Export of meter 4711\n\n' + ROWS
        self.refused('Row 3, read with semicolons, has them all: say header_row = 3 in [log].', log)
        self.assertEqual(self.readings(log, SITE.replace('zone', 'header_row = 3\nzone')), TWO)

    def test_the_wrong_delimiter(self):
        self.refused('The header is row 1, read with commas between its cells. It has the columns "time;L1;L2;L3". Row '
                     '1, read with semicolons, has them all: say delimiter = ";" in [log].',
                     site=SITE.replace('zone', 'delimiter = ","\nzone'))
        self.assertEqual(self.readings(ROWS.replace(';', '\t'), SITE.replace('zone', 'delimiter = "tab"\nzone')), TWO)

    def test_missing_columns(self):
        self.refused('There is no column "L2"; is "L20" meant? The header is row 1, read with semicolons between its '
                     'cells. It has the columns "time", "L1", "L20" and "L3".', ROWS.replace('L2', 'L20'))
        log = 'time;L1;L2;L3;L1\n2025-06-01 00:00;1;2;3;4\n'
        self.refused('The header has 2 columns of the name "L1", the 2nd and 5th: give each a name of its own.', log)
        self.refused('It has the columns "C0", "C1", "C2", "C3", "C4", "C5", "C6", "C7", "C8", "C9", "C10", "C11" and '
                     '99,988 more.',
                     ';'.join(f'C{number}' for number in range(100_000)) + '\n')

    def test_rows_of_other_widths(self):
        log = ('time;L1;L2;L3;note\n2025-06-01 00:00;1,5;2,25;-3\n2025-06-01 00:15;4;5\n2025-06-01 00:30\n'
               '2025-06-01 00:45;4;5;6,5;a\n')
        self.assertEqual(self.readings(log), [TWO[0], None, None, TWO[1]])
        self.says('Missing: 2 readings of 4: 0 in 0 gaps of the times, 2 in rows with an empty cell.',
                  'Such rows: 3 and 4.',
                  'Left out: column "note".',
                  '3 rows with fewer cells than the header; what they lack counts as empty.')
        self.refused('Row 3 has 5 cells, and the header has 4.', ROWS.replace('6,5', '6,5;7'))
        self.refused('The last row, row 3, is cut short: it has fewer cells than the header, and the file ends within '
                     'it.',
                     ROWS[:-5])

    def test_files_that_are_no_log(self):
        for data, said in ((b'', 'It is empty'), (b' \r\n\n', 'It is empty'),
                           (b'PK\x03\x04abc', 'It is a workbook of a spreadsheet, not a log'),
                           (b'\xd0\xcf\x11\xe0abc', 'It is a workbook'), (b'%PDF-1.7', 'It is a PDF'),
                           (ROWS.encode() + b'\0', f'It is no text: byte {len(ROWS)} is 0.'),
                           (b'time;L1;L2;L3\n', 'It has a header and no rows.'),
                           (b'time;L1;L2;L3\n\n;;;\n', 'It has a header and no rows.')):
            with self.subTest(data=data):
                self.refused(said, data)
        self.refused('It begins like a stick, not like a log: import check says what is on it.', self.made())

    def test_quotes_that_are_not_closed(self):
        self.refused('Row 3 cannot be parted into cells: a quote in it is not closed', ROWS.replace(';4;', ';"4;'))
        self.refused('Row 2 cannot be parted into cells', ROWS.replace(';1,5;', ';"1,5"x;'))
        self.refused('Row 1 cannot be parted into cells', '"' + ROWS)
        self.refused('Row 2 cannot be parted into cells', ROWS.replace(';1,5;', ';"' + 'x' * 200_000))


class Numbers(Desk):
    def exactly(self, texts, unit, shift, site=SITE):
        """Each text becomes the double closest to it, as a fraction says it."""
        rows = ''.join(f'2025-06-01 {row // 60:02d}:{row % 60:02d};{text};{text};{text}\n'
                       for row, text in enumerate(texts))
        site = site.replace('unit = "kW"', f'unit = "{unit}"\ndecimal = ","\nstep_minutes = 1')
        for text, three in zip(texts, self.readings('time;L1;L2;L3\n' + rows, site), strict=True):
            exact = Fraction(text.replace(',', '.').replace('\u2212', '-')) * Fraction(10) ** shift
            self.assertEqual([struct.pack('>d', one) for one in three], [double(exact)] * 3, text)

    def test_watts_are_divided_exactly(self):
        """A W log is rounded once: dividing its doubles by 1000 would round twice, and here and there give others."""
        texts = [f'{number * 7919 % 99_991_283 // 10},{number % 10}' for number in range(1, 900)]
        texts += ['0,1', '123456,789', '-0,3', '100000000', '33333333,3333333333333333333333', '1e-7', '1,5E3', '+7',
                  '\u221212,5', '5,']
        exact = [Fraction(text.replace(',', '.').replace('\u2212', '-')) for text in texts]
        self.assertGreater(sum(float(one) / 1000 != float(one / 1000) for one in exact), 0)
        self.exactly(texts, 'W', -3)

    def test_kilowatts(self):
        self.exactly(['0,1', '0,2', '0,3', '99999,999', '-99999,999', '1e2', '2,2250738585072014e-308', '1e-400',
                      '0,1000000000000000055511151231257827', '9007199254740993e-12', ',5', '100000,0005',
                      '-100000,0005'], 'kW', 0)

    def test_minus_zero(self):
        """It is written with its sign, as any other number; the library makes 0 W of it."""
        self.assertEqual([str(one) for one in self.readings(ROWS.replace('1,5;2,25;-3', '-0;-0,0;-1e-400'))[0]],
                         ['-0.0'] * 3)
        self.assertEqual(self.answer['least_W'], 0)

    def test_whole_watts_by_the_library(self):
        """What import finds is the measure that the log says, in whole watts, midway the even one."""
        self.made('time;L1;L2;L3\n2025-06-01 00:00;62,5;0;0\n2025-06-01 00:15;187,5;0;0\n', SITE.replace('"kW"', '"W"'))
        self.assertEqual((self.answer['least_W'], self.answer['most_W']), (62, 188))
        self.says('Smallest measure 0.062 kW at step 0, the 1st: row 2 of the log, 2025-06-01 00:00 CEST.',
                  'Largest measure 0.188 kW at step 1, the 2nd: row 3 of the log, 2025-06-01 00:15 CEST.')

    def test_currents(self):
        log = 'time;L1;L2;L3\n2025-06-01 00:00;1500;0;-0,4\n2025-06-01 00:15;63200;5;6\n'
        self.assertEqual(self.readings(log, CURRENT_SITE.replace('"A"', '"mA"')),
                         [(1.5, 0, -0.0004), (63.2, 0.005, 0.006)])
        self.says('Smallest measure 1.500 A', 'Largest measure 63.211 A')
        self.refused('Row 2, column "L3": "-0,6" is -0.0006 A; the current may be 0 to 100,000 A.',
                     log.replace('-0,4', '-0,6'), CURRENT_SITE.replace('"A"', '"mA"'))

    def test_beyond_the_range(self):
        """Q27: 100,000.0005 kW is still 100,000,000 W; a little more is not."""
        for text, said in (('100000,0006', '100,000.0006 kW; the power may be -100,000 to 100,000 kW.'),
                           ('-100000,0006', '-100,000.0006 kW'),
                           ('1e999', 'inf kW'), ('1234567', '1,234,567 kW')):
            with self.subTest(text=text):
                self.refused(f'Row 3, column "L2": "{text}" is {said}', ROWS.replace(';5;', f';{text};'))

    def test_thousands_separators(self):
        for text in ('1.234,5', "1'234,5", '1 234,5', '1\u00a0234,5', '1\u202f234', '1_234', '1,234,567'):
            with self.subTest(text=text):
                shown = text.replace('\u00a0', ' ').replace('\u202f', ' ')
                self.refused(f'Row 3, column "L2": "{shown}" has a thousands separator: export the log without them.',
                             ROWS.replace(';5;', f';{text};'))
        self.refused('Row 3, column "L2": "1.234" has a point, and the decimal mark of this log is the comma, by row '
                     '2, column "L1": if it is a thousands separator, export the log without them; if not, say decimal '
                     '= "." in [log].',
                     ROWS.replace(';5;', ';1.234;'))
        self.refused('"1,5" has a comma, and the decimal mark of this log is the point: if it is',
                     site=SITE.replace('zone', 'decimal = "."\nzone'))

    def test_numbers_that_could_be_thousands(self):
        log = 'time;L1;L2;L3\n2025-06-01 00:00;1.234;2.345;13.456\n2025-06-01 00:15;1;2;3\n'
        self.refused('Row 2, column "L1": "1.234" could be read with three decimals or as thousands, and no other '
                     'number shows which. Say decimal = "." or decimal = "," in [log].', log)
        self.assertEqual(self.readings(log, SITE.replace('zone', 'decimal = "."\nzone'))[0], (1.234, 2.345, 13.456))
        self.refused('"1.234" has a point', log, SITE.replace('zone', 'decimal = ","\nzone'))
        # One number that can only have decimals is enough, and so is a comma between the cells.
        for more in ('0.123', '1234.567', '1.5', '1.2345'):
            self.assertEqual(self.readings(log.replace(';1;', f';{more};'))[0], (1.234, 2.345, 13.456))
        self.assertEqual(self.readings(log.replace(';', ','))[0], (1.234, 2.345, 13.456))
        self.refused('could be read', log.replace('.', ','))

    def test_cells_that_are_no_numbers(self):
        for text, said in (('12,5 kW', '"12,5 kW" is no number; a cell has a number alone, without a unit.'),
                           ('n/a', '"n/a" is no number; if it stands for a missing reading, list it in [log], as in '
                                   'missing = ["-", "n/a"].'),
                           ('NaN', 'is no number'), ('0x10', 'is no number'), ('1e', 'is no number'),
                           ('--5', 'is no number'), (',', 'is no number'),
                           ('\u0661', 'is no number'), ('1' * 61, 'is no number'),
                           ('<script>', '"<script>" is no number')):
            with self.subTest(text=text):
                self.refused('Row 3, column "L2": ', ROWS.replace(';5;', f';{text};'))
                self.says(said)

    def test_missing_readings(self):
        log = ('time;L1;L2;L3\n2025-06-01 00:00;-;2;3\n2025-06-01 00:15;1;NaN;3\n2025-06-01 00:30;1;2;\n'
               '2025-06-01 00:45;1;2;3\n')
        site = SITE.replace('zone', 'missing = ["-", "NaN"]\nzone')
        self.assertEqual(self.readings(log, site), [None, None, None, (1, 2, 3)])
        self.says('Missing: 3 readings of 4: 0 in 0 gaps of the times, 3 in rows with an empty cell, "-" or "NaN".',
                  'Such rows: 2, 3 and 4.')
        self.assertEqual(self.answer['missing_steps'], 3)
        # What is wrong in a row is told, missing or not.
        self.refused('Row 3, column "L3": "x" is no number', log.replace('NaN;3', 'NaN;x'), site)
        self.assertEqual(self.readings(log.replace('1;2;3', ';;'), site), [None] * 4)
        self.says('out.stick: complete, 4 steps')
        self.assertNotIn('measure', self.called.output)


class Units(Desk):
    def of(self, names, site=SITE):
        log = ROWS
        for old, new in zip(('L1', 'L2', 'L3'), names):
            log, site = log.replace(old, new), site.replace(f'"{old}"', f'"{new}"')
        return log, site

    def test_units_in_brackets(self):
        names = ('L1 [W]', 'L2 (w)', 'L3 [ W ]')
        log, site = self.of(names, SITE.replace('unit = "kW"\n', ''))
        self.assertEqual(self.readings(log, site)[1], (0.004, 0.005, 0.0065))
        self.says('powers in W from "L1 [W]", "L2 (w)" and "L3 [ W ]".')
        log, site = self.of(names)
        self.refused('The column "L1 [W]" is in W by its name, and in kW by unit in [log]: correct the one that is '
                     'wrong.', log, site)
        log, site = self.of(('L1 [W]', 'L2 [kW]', 'L3'), SITE.replace('unit = "kW"\n', ''))
        self.refused('By their names the columns "L1 [W]" and "L2 [kW]" are in W and kW: they must have one unit.', log,
                     site)
        log, site = self.of(('L1 [kWh]', 'L2', 'L3'))
        self.refused('The column "L1 [kWh]" is in kWh by its name, and for a stick it must be in kW or W. Is another '
                     'column meant?', log, site)
        self.refused('Nothing says the unit of the column "L1": say in [log] unit = "kW" or unit = "W".',
                     site=SITE.replace('unit = "kW"\n', ''))
        log, site = self.of(('L1 [import]', 'L2 (a phase)', 'L3'))
        self.readings(log, site)

    def test_weather_and_voltage(self):
        weather = 'irradiance = "G"\ntemperature = "T"\nvoltage = "U"\n'
        log = ('time;L1;L2;L3;G;T;U\n2025-06-01 00:00;1;2;3;812;-4,25;1,00525\n2025-06-01 00:15;;2;3;0,4;21;\n'
               '2025-06-01 00:30;1;2;3;;20;1,00535\n')
        units = 'irradiance_unit = "W/m2"\nvoltage_unit = "per unit"\n'
        site = LOG + weather + units + SETTINGS + UNIT + INVERTER + FUNCTION
        # Ten-thousandths of per unit are rounded to the closest, midway to the even one.
        self.assertEqual([step[:2] for step in self.steps(log, site)],
                         [((0.812, -4.25), 10_052), ((0.0004, 21), None), (None, 10_054)])
        self.says('irradiance in W/m2 from "G"; temperature in °C from "T"; voltage in per unit from "U".',
                  '1 row without irradiance or temperature: these steps, like those in gaps, have no sun.',
                  '1 row without a voltage: in these steps, as in gaps, the vars last requested stay.')
        for old, new, said in ((';812;', ';-1;', 'Row 2, column "G": "-1" is -0.001 kW/m2; the irradiance may be 0 to '
                                                 '100,000 kW/m2.'),
                               ('-4,25', '1e9', 'Row 2, column "T": "1e9" is 1,000,000,000 °C; the temperature may be '
                                                '-100,000 to 100,000 °C.'),
                               ('1,00525', '2,0001', 'Row 2, column "U": "2,0001" per unit is 20,001 ten-thousandths '
                                                     'of per unit; the voltage '
                                'may be 0 to 2 per unit.'),
                               ('1,00525', '-0,1', 'is -1,000 ten-thousandths of per unit'),
                               ('1,00525', '1e999', 'is about 1e1003 ten-thousandths')):
            with self.subTest(new=new):
                self.refused(said, log.replace(old, new), site)
        # A little below 0 is 0 once it is rounded, as the library takes it.
        self.steps(log.replace(';812;', ';-0,4;'), site)

    def test_a_sensor_that_is_a_little_below_zero_at_night(self):
        head = LOG + 'irradiance = "G [W/m2]"\ntemperature = "T"\n'
        tail = SETTINGS + UNIT + INVERTER
        log = ('time;L1;L2;L3;G [W/m2];T\n2025-06-01 00:00;1;2;3;-2,5;10\n2025-06-01 00:15;1;2;3;-0,4;10\n'
               '2025-06-01 00:30;1;2;3;0;10\n2025-06-01 00:45;1;2;3;7;10\n')
        advice = 'say how far in [log], as in night_offset_W_m2 = 5: such readings are then taken as 0.'
        self.refused(advice, log, head + tail)
        self.refused(advice, log, head + 'night_offset_W_m2 = 2.499\n' + tail)
        for offset in ('2.5', '5', '50'):
            with self.subTest(offset=offset):
                steps = self.steps(log, f'{head}night_offset_W_m2 = {offset}\n{tail}')
                self.assertEqual([step[0] for step in steps], [(0.0, 10), (0.0, 10), (0.0, 10), (0.007, 10)])
                self.says('2 rows with an irradiance below 0, by no more than night_offset_W_m2, taken as 0: 2 and 3.')
        # It is for the night alone: a number that is large, or none that a column can have, is refused as ever.
        site = f'{head}night_offset_W_m2 = 50\n{tail}'
        for text in ('-50,001', '-812', '-1e400', '-1e999999999'):
            with self.subTest(text=text):
                self.refused('Row 2, column "G [W/m2]": "', log.replace('-2,5', text), site)
        self.refused('is no number', log.replace('-2,5', 'minus two'), site)
        # The same in the other unit, and only of the irradiance.
        other = site.replace('"G [W/m2]"', '"G [kW/m2]"')
        in_kw = log.replace('W/m2', 'kW/m2').replace('-2,5', '-0,05').replace('-0,4', '0')
        self.assertEqual(self.steps(in_kw, other)[0][0], (0.0, 10))
        self.assertEqual(self.steps(log.replace(';10\n', ';-3\n'), site)[0][0], (0.0, -3))

    def test_voltage_in_volts(self):
        site = LOG + 'voltage = "U [V]"\nnominal_V = 230\n' + SETTINGS + UNIT + FUNCTION
        log = 'time;L1;L2;L3;U [V]\n2025-06-01 00:00;1;2;3;231,4\n2025-06-01 00:15;1;2;3;460\n'
        # 231.4 / 230 is 1.006086..
        self.assertEqual([step[1] for step in self.steps(log, site)], [10_061, 20_000])
        self.refused('Row 3, column "U [V]": "460,1" V is 20,004 ten-thousandths of per unit',
                     log.replace('460', '460,1'), site)
        self.refused('The column "U [V]" is in V: say the voltage that is 1 per unit in [log], as in nominal_V = 230.',
                     log,
                     site.replace('nominal_V = 230\n', ''))

    def test_inverters_without_weather(self):
        self.made(site=SITE + INVERTER + FUNCTION)
        self.says('The site has inverters and the log no weather: no step has sun, and they give nothing.',
                  'The site has a function and the log no voltage: it leads nothing.')

    def test_weather_leads_the_roof(self):
        """The run gives what the roof gives under that sun: 40 kW of array at 0.5 kW/m2 and 25 degrees."""
        site = LOG + 'irradiance = "G"\nirradiance_unit = "kW/m2"\ntemperature = "T"\n' + SETTINGS + UNIT + INVERTER
        self.made('time;L1;L2;L3;G;T\n2025-06-01 00:00;1;2;3;0,5;25\n2025-06-01 00:15;1;2;3;0;25\n', site)
        self.assertEqual(call(IMPORT, 'run', self.path('out.stick'), self.path('result')).status, 0)
        table = call(IMPORT, 'table', '--csv', self.path('out.stick'), self.path('result')).output
        rows = [line.split(',') for line in table.splitlines()]
        roof = [dict(zip(rows[0], row)) for row in rows[1:] if 'inverter' in row[1]]
        # 20 kW DC are 55.5 % of S; the efficiency there is 97.5 - 1.5 x 55 / 500 % = 97.34 %, cut to parts in 10,000.
        self.assertEqual(float(next(value for key, value in roof[0].items() if key.startswith('delivered'))), 19.468)


if __name__ == '__main__':
    unittest.main()
