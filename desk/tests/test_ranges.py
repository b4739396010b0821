"""Every range of docs/RULES.md, Q, by its key in the site file: both ends are taken and import takes them too; what is
just beyond is refused in the words of the key, and import would refuse it as well.
"""

import json
import os
import re
import unittest

from sticks import IMPORT, ROOT, Desk, call
from stick_from_csv import keys, layout
from stick_from_csv.site import read_site
from stick_from_csv.words import Refused, in_lines

LOG = {'time': '"time"', 'zone': '"UTC"', 'powers': '["L1", "L2", "L3"]'}
SETTINGS = {'mode': '1', 'target_kW': '30', 'band_kW': '2', 'factor': '1', 'phase': '0'}
UNIT = {'name': '"barn"', 'rated_kWh': '100', 'reserve_percent': '0', 'stored_percent': '100', 'rating_kW': '30',
        'rating_kVA': '100000', 'idle_loss_W': '0', 'inverter_efficiency_percent': '100',
        'charge_efficiency_percent': '100', 'discharge_efficiency_percent': '100', 'phases': '3', 'volts': '230'}
INVERTER = {'array_kW': '40', 'rating_kVA': '36', 'cut_in_percent': '100', 'cut_out_percent': '0',
            'temperature_curve': '[[0, 100], [25, 100]]', 'efficiency_curve': '[[5, 90], [10, 97]]'}
FUNCTION = {'base': '0', 'curve': '[[0.9, 0], [1.1, 0]]'}
MODE_4 = {'mode': '4', 'target_A': '30', 'band_A': '2', 'target_kW': None, 'band_kW': None}
UNIT_1 = 'unit 1, the 2nd unit (barn): '
INVERTER_0 = 'inverter 0, the 1st inverter: '

# Part, key; where its value stands in the site; texts that are taken, with what the stick then has; texts that are
# refused, with what is said of each, and the value that the stick would have where import can be asked about it; and
# the range as it is said.
UNITS = lambda name: lambda site: (site.units[1], name)
SET = lambda name: lambda site: (site.settings, name)
ROOF = lambda name: lambda site: (site.inverters[0], name)
RANGES = (
    ('unit', 'rated_kWh', UNITS('rated'), {'0.0000025': 9, '2777777.7777775': 9_999_999_999_999},
     {'0': ('rated energy 0 kWh (rated_kWh) is 0 J', 0), '2777777.78': ('is 10,000,000,008,000 J', 10 ** 13 + 1),
      '0.0000001': ('is 0.36 J, no whole number of them', None), '-1': ('rated energy -1 kWh', None),
      '1e400': ('is about 3.6e406 J', None), '1e401': ('is beyond any range', None),
      'inf': ('is beyond any range', None),
      'nan': ('rated energy nan kWh (rated_kWh) is beyond any range', None),
      '9' * 61: ('of more than 60 digits', None)},
     '1 to 10,000,000,000,000 J, which is at most 2,777,777.777 kWh'),
    ('unit', 'rating_kW', UNITS('rating'), {'0.001': 1, '100_000': 10 ** 8},
     {'0': ('power rating R 0 kW (rating_kW) is 0 W', 0), '100000.001': ('is 100,000,001 W', 10 ** 8 + 1),
      '0.0005': ('is 0.5 W, no whole number of them', None)}, '0.001 to 100,000 kW'),
    ('unit', 'rating_kVA', UNITS('kva'), {'0.001': 1, '1e5': 10 ** 8},
     {'0.0': ('kVA rating S 0.0 kVA (rating_kVA) is 0 VA', 0), '100000.001': ('is 100,000,001 VA', 10 ** 8 + 1)},
     '0.001 to 100,000 kVA'),
    ('unit', 'idle_loss_W', UNITS('idle_loss'), {'0': 0, '10000000': 10 ** 7},
     {'-1': ('idle loss -1 W (idle_loss_W) is out of its range', None),
      '10000001': ('idle loss 10000001 W (idle_loss_W) is out of its range', 10 ** 7 + 1),
      '0.5': ('is no whole number', None)}, '0 to 10,000,000 W'),
    ('unit', 'var_request_kvar', UNITS('var_request'), {'-100000': -10 ** 8, '100000': 10 ** 8},
     {'-100000.001': ('var request -100000.001 kvar (var_request_kvar) is -100,000,001 var', -10 ** 8 - 1),
      '100000.001': ('is 100,000,001 var', 10 ** 8 + 1)}, '-100,000 to 100,000 kvar'),
    ('unit', 'weight', UNITS('weight'), {'1': 1, '10000': 10_000},
     {'0': ('weight 0 (weight) is out of its range', 0), '10001': ('weight 10001 (weight)', 10_001),
      '1.5': ('weight 1.5 (weight) is no whole number', None)}, '1 to 10,000'),
    ('unit', 'inverter_efficiency_percent', UNITS('inverter'), {'10': 1000, '100': 10_000, '96.55': 9655},
     {'9.99': ('inverter efficiency 9.99 % (inverter_efficiency_percent) is 999 parts in 10,000', 999),
      '100.01': ('is 10,001 parts in 10,000', 10_001), '96.555': ('is 9,655.5 parts in 10,000, no whole number', None)},
     '10 to 100 %'),
    ('unit', 'charge_efficiency_percent', UNITS('charge'), {'10': 1000, '100': 10_000},
     {'9.99': ('charge efficiency 9.99 % (charge_efficiency_percent) is 999 parts', 999), '100.01': ('10,001', 10_001)},
     '10 to 100 %'),
    ('unit', 'discharge_efficiency_percent', UNITS('discharge'), {'10': 1000, '100': 10_000},
     {'9.99': ('discharge efficiency 9.99 % (discharge_efficiency_percent) is 999', 999), '100.01': ('10,001', 10_001)},
     '10 to 100 %'),
    ('unit', 'provide_kvar', UNITS('provide'), {'0': 0, '100000': 10 ** 8},
     {'-0.001': ('provide limit -0.001 kvar (provide_kvar) is -1 var', None),
      '100000.001': ('is 100,000,001 var', 10 ** 8 + 1)}, '0 to 100,000 kvar'),
    ('unit', 'absorb_kvar', UNITS('absorb'), {'0': 0, '100000': 10 ** 8},
     {'-0.001': ('absorb limit -0.001 kvar (absorb_kvar) is -1 var', None),
      '100000.001': ('is 100,000,001 var', 10 ** 8 + 1)}, '0 to 100,000 kvar'),
    ('unit', 'volts', UNITS('volts'), {'1': 1, '40000': 40_000},
     {'0': ('volts of the connection 0 V (volts) is out of its range', 0), '40001': ('40001 V (volts)', 40_001),
      '230.5': ('is no whole number', None)}, '1 to 40,000 V'),
    ('settings', 'target_kW', SET('target'), {'-100000': -10 ** 8, '100000': 10 ** 8},
     {'-100000.001': ('target -100000.001 kW (target_kW) is -100,000,001 W', -10 ** 8 - 1),
      '100000.001': ('is 100,000,001 W', 10 ** 8 + 1)}, '-100,000 to 100,000 kW'),
    ('settings', 'band_kW', SET('band'), {'0': 0, '200000': 2 * 10 ** 8},
     {'-1': ('band -1 kW (band_kW) is -1,000 W', None), '200000.001': ('is 200,000,001 W', 2 * 10 ** 8 + 1)},
     '0 to 200,000 kW'),
    ('by current', 'target_A', SET('target'), {'-100000': -10 ** 8, '100000': 10 ** 8},
     {'-100000.001': ('target -100000.001 A (target_A) is -100,000,001 mA', -10 ** 8 - 1),
      '100000.001': ('is 100,000,001 mA', 10 ** 8 + 1)}, '-100,000 to 100,000 A'),
    ('by current', 'band_A', SET('band'), {'0': 0, '200000': 2 * 10 ** 8},
     {'-1': ('band -1 A (band_A) is -1,000 mA', None), '200000.001': ('is 200,000,001 mA', 2 * 10 ** 8 + 1)},
     '0 to 200,000 A'),
    ('settings', 'factor', SET('factor'), {'0.001': 1, '1': 1000, '0.85': 850},
     {'0': ('factor 0 (factor) is 0 thousandths', 0), '1.001': ('factor 1.001 (factor) is 1,001 thousandths', 1001),
      '50': ('is 50,000 thousandths', None)}, '0.001 to 1'),
    ('settings', 'factor_percent', SET('factor'), {'0.1': 1, '100': 1000},
     {'0': ('factor 0 % (factor_percent) is 0 thousandths', 0), '100.1': ('is 1,001 thousandths', 1001),
      '0.05': ('is 0.5 thousandths, no whole number of them', None)}, '0.1 to 100 %'),
    ('inverter', 'array_kW', ROOF('array'), {'0.001': 1, '100000': 10 ** 8},
     {'0': ('array power 0 kW (array_kW) is 0 W', 0), '100000.001': ('is 100,000,001 W', 10 ** 8 + 1)},
     '0.001 to 100,000 kW'),
    ('inverter', 'rating_kVA', ROOF('kva'), {'0.001': 1, '100000': 10 ** 8},
     {'0': ('kVA rating S 0 kVA (rating_kVA) is 0 VA', 0), '100000.001': ('is 100,000,001 VA', 10 ** 8 + 1)},
     '0.001 to 100,000 kVA'),
    ('inverter', 'cut_in_percent', ROOF('cut_in'), {'0': 0, '100': 10_000},
     {'-0.01': ('cut-in -0.01 % of S (cut_in_percent) is -1 parts in 10,000', None),
      '100.01': ('is 10,001 parts in 10,000', 10_001)}, '0 to 100 % of S'),
    ('inverter', 'cut_out_percent', ROOF('cut_out'), {'0': 0, '100': 10_000},
     {'-0.01': ('cut-out -0.01 % of S (cut_out_percent) is -1 parts', None), '100.01': ('is 10,001 parts', 10_001)},
     '0 to 100 % of S'),
    ('inverter', 'limit_percent', ROOF('limit'), {'0': 0, '100': 10_000},
     {'-0.01': ('limit -0.01 % of the array (limit_percent) is -1 parts in 10,000', None),
      '100.01': ('is 10,001 parts in 10,000', 10_001)}, '0 to 100 % of the array'),
    ('inverter', 'var_request_kvar', ROOF('var_request'), {'-100000': -10 ** 8, '100000': 10 ** 8},
     {'-100000.001': ('var request -100000.001 kvar', -10 ** 8 - 1), '100000.001': ('is 100,000,001 var', 10 ** 8 + 1)},
     '-100,000 to 100,000 kvar'),
)

# The curves: key, where the points stand, whether x or y, ends that are taken, ends that are refused, the range.
CURVES = (
    ('inverter', 'temperature_curve', ROOF('temperature'), 'x', {'-100000': -10 ** 8, '100000': 10 ** 8},
     {'-100000.001': ('is -100,000,001 thousandths of a degree C', -10 ** 8 - 1),
      '100000.001': ('is 100,000,001 thousandths of a degree C', 10 ** 8 + 1)}, '-100,000 to 100,000 °C'),
    ('inverter', 'temperature_curve', ROOF('temperature'), 'y', {'0': 0, '200': 20_000},
     {'-0.01': ('is -1 parts in 10,000', -1), '200.01': ('is 20,001 parts in 10,000', 20_001)}, '0 to 200 %'),
    ('inverter', 'efficiency_curve', ROOF('efficiency'), 'x', {'0': 0, '10000000': 10 ** 8},
     {'-0.1': ('is -1 thousandths of DC power per kVA', -1), '10000000.1': ('is 100,000,001', 10 ** 8 + 1)},
     '0 to 10,000,000 % of S'),
    ('inverter', 'efficiency_curve', ROOF('efficiency'), 'y', {'0': 0, '100': 10_000},
     {'-0.01': ('is -1 parts in 10,000', -1), '100.01': ('is 10,001 parts in 10,000', 10_001)}, '0 to 100 %'),
    ('function', 'curve', lambda site: (site.function, 'curve'), 'x', {'0': 0, '2': 20_000},
     {'-0.0001': ('is -1 ten-thousandths of per unit', -1), '2.0001': ('is 20,001 ten-thousandths', 20_001),
      '95': ('is 950,000 ten-thousandths of per unit', None)}, '0 to 2 per unit'),
    ('function', 'curve', lambda site: (site.function, 'curve'), 'y', {'-100': -10_000, '100': 10_000},
     {'-100.01': ('is -10,001 parts in 10,000', -10_001), '100.01': ('is 10,001 parts', 10_001)}, '-100 to 100 %'),
)


def lines(table):
    return ''.join(f'{key} = {text}\n' for key, text in table.items() if text is not None)


def site_text(part='', key='', text='', **more):
    """A site file in which one key has another text."""
    log, settings, unit = dict(LOG), dict(SETTINGS), dict(UNIT)
    inverter, function = dict(INVERTER), dict(FUNCTION)
    if part == 'by current':
        settings.update(MODE_4)
        log['currents'] = log.pop('powers')
    if key == 'factor_percent':
        del settings['factor']
    {'unit': unit, 'settings': settings, 'by current': settings, 'inverter': inverter, 'function': function, 'log': log,
     '': {}}[part][key] = text
    unit.update(more)
    return (f'edition = 2\n[log]\n{lines(log)}[settings]\n{lines(settings)}[[unit]]\n{lines(UNIT)}[[unit]]\n'
            f'{lines(unit)}[[inverter]]\n{lines(inverter)}[function]\n{lines(function)}')


def read(text):
    return read_site('site.toml', text.encode('utf-8'))


class Ranges(Desk):
    def importer(self, site):
        """What import says of a stick of this site without a step."""
        self.write('trial.stick', layout.stick(site, 900, []))
        return json.loads(call(IMPORT, 'check', '--json', self.path('trial.stick')).output)

    def faults(self, text):
        with self.assertRaises(Refused) as caught:
            read(text)
        return [in_lines(sentence) for sentence in caught.exception.sentences]

    def one_fault(self, text):
        count, *faults = self.faults(text)
        self.assertEqual((count, len(faults)), ('1 fault in it:', 1), faults)
        return faults[0]

    def holds(self, site, where, value):
        """The stick has this value there, and import takes it."""
        owner, name = where(site)
        self.assertEqual(getattr(owner, name), value)
        self.assertEqual(self.importer(site)['status'], 'complete')

    def import_refuses(self, site, where, value):
        owner, name = where(site)
        setattr(owner, name, value)
        self.assertEqual(self.importer(site).get('number'), 5)

    def test_ends_and_beyond(self):
        for part, key, where, taken, refused, words in RANGES:
            place = {'unit': UNIT_1, 'inverter': INVERTER_0}.get(part, 'settings: ')
            for text, value in taken.items():
                with self.subTest(key=key, text=text):
                    self.holds(read(site_text(part, key, text)), where, value)
            for text, (said, value) in refused.items():
                with self.subTest(key=key, text=text):
                    fault = self.one_fault(site_text(part, key, text))
                    self.assertTrue(fault.startswith(place), fault)
                    self.assertIn(said, fault)
                    self.assertTrue(fault.endswith(f'; it may be {words}.'), fault)
                    if value is not None:
                        self.import_refuses(read(site_text(part, key, next(iter(taken)))), where, value)

    def curve(self, key, axis, text):
        """The text of a curve that has this coordinate in its second point, or its first where it is the least."""
        low, high = {'temperature_curve': ('-99999', '99999'), 'efficiency_curve': ('1', '9999999'),
                     'curve': ('1', '1.5')}[key]
        if axis == 'y':
            return f'[[{low}, 0], [{high}, {text}]]'
        return f'[[{text}, 0], [{high}, 0]]' if float(text) < float(low) else f'[[{low}, 0], [{text}, 0]]'

    def test_curves(self):
        for part, key, where, axis, taken, refused, words in CURVES:
            for text, value in taken.items():
                with self.subTest(key=key, axis=axis, text=text):
                    site = read(site_text(part, key, self.curve(key, axis, text)))
                    owner, name = where(site)
                    self.assertIn(value, [point[axis == 'y'] for point in getattr(owner, name)])
                    self.assertEqual(self.importer(site)['status'], 'complete')
            for text, (said, value) in refused.items():
                with self.subTest(key=key, axis=axis, text=text):
                    points = self.curve(key, axis, text)
                    fault = self.one_fault(site_text(part, key, points))
                    number = 0 if points.startswith(f'[[{text},') else 1
                    self.assertIn(f'the {axis} of point {number}, the {("1st", "2nd")[number]} point {text} ', fault)
                    self.assertIn(f'({key}) {said}', fault)
                    self.assertTrue(fault.endswith(f'; it may be {words}.'), fault)
                    if value is not None:
                        self.import_refuses_point(part, key, where, axis, number, value)

    def import_refuses_point(self, part, key, where, axis, number, value):
        site = read(site_text(part, key, self.curve(key, axis, '1.2' if key == 'curve' else '50')))
        owner, name = where(site)
        points = getattr(owner, name)
        points[number] = (value, points[number][1]) if axis == 'x' else (points[number][0], value)
        self.assertEqual(self.importer(site).get('number'), 5)

    def test_seconds_of_a_step(self):
        for key, taken, refused in (('step_seconds', {'1': 1, '86400': 86_400},
                                     {'0': '0 s', '86401': '86401 s', '1.5': '1.5 s'}),
                                    ('step_minutes', {'1440': 86_400, '0.1': 6}, {'0': '0 min', '1441': '1441 min'})):
            for text, value in taken.items():
                self.assertEqual(read(site_text('log', key, text)).log.step, value)
            for text, said in refused.items():
                with self.subTest(key=key, text=text):
                    self.assertIn(f'log: step {said} ({key}) is ', self.one_fault(site_text('log', key, text)))
        self.assertIn('(step_minutes) is 0.6 s, no whole number of them',
                      self.one_fault(site_text('log', 'step_minutes', '0.01')))

    def test_limits_by_another_value(self):
        """Reserve, store, var limits and cut-out go up to another value of their part, and no further."""
        site = read(site_text('unit', 'reserve_kWh', '100', reserve_percent=None))
        self.assertEqual(site.units[1].reserve, 360_000_000)
        for words, part, key, text, more in (
                (UNIT_1 + 'reserve 100.0000025 kWh (reserve_kWh) is 360,000,009 J; it may be 0 to its rated energy, '
                          'which is '
                 '100 kWh.', 'unit', 'reserve_kWh', '100.0000025', {'reserve_percent': None}),
                (UNIT_1 + 'stored energy 101 kWh (stored_kWh) is 363,600,000 J; it may be 0 to its rated energy, which '
                          'is '
                 '100 kWh.', 'unit', 'stored_kWh', '101', {'stored_percent': None}),
                (UNIT_1 + 'stored energy -1 kWh (stored_kWh) is -3,600,000 J; it may be 0 to 10,000,000,000,000 J, '
                          'which is '
                 'at most 2,777,777.777 kWh.', 'unit', 'stored_kWh', '-1', {'stored_percent': None}),
                (UNIT_1 + 'reserve 100.5 % (reserve_percent) is 361,800,000 J; it may be 0 to 100 % of the rated '
                          'energy.',
                 'unit', 'reserve_percent', '100.5', {}),
                (UNIT_1 + 'stored energy 33.33333333 % (stored_percent) is 119,999,999.988 J, no whole number of them: '
                          'give '
                 'it in kWh; it may be 0 to 100 % of the rated energy.', 'unit', 'stored_percent', '33.33333333', {}),
                (UNIT_1 + 'provide limit 12.001 kvar (provide_kvar) is 12,001 var; it may be 0 to its kVA rating S, '
                          'which is '
                 '12 kVA.', 'unit', 'provide_kvar', '12.001', {'rating_kVA': '12'}),
                (UNIT_1 + 'absorb limit 13 kvar (absorb_kvar) is 13,000 var; it may be 0 to its kVA rating S, which is '
                 '12 kVA.', 'unit', 'absorb_kvar', '13', {'rating_kVA': '12'})):
            with self.subTest(words=words):
                self.assertEqual(self.one_fault(site_text(part, key, text, **more)), words)
        self.assertEqual(self.one_fault(site_text('inverter', 'cut_in_percent', '2').replace('cut_out_percent = 0',
                                                                                             'cut_out_percent = 2.5')),
                         INVERTER_0 + 'cut-out 2.5 % of S (cut_out_percent) is 250 parts in 10,000; it may be 0 to its '
                                      'cut-in, '
                         'which is 2 % of S.')

    def test_idle_draw(self):
        """Q29: the idle draw, rounded up, is at most S, but in edition 3."""
        efficiency = {'inverter_efficiency_percent': '90', 'rating_kVA': '0.5'}
        self.assertEqual(read(site_text('unit', 'idle_loss_W', '450', **efficiency)).units[1].idle_loss, 450)
        text = site_text('unit', 'idle_loss_W', '451', **efficiency)
        self.assertEqual(self.one_fault(text), UNIT_1 + 'an idle loss of 451 W (idle_loss_W) draws 502 W through its '
                                                        'inverter; '
                         'that may be at most its kVA rating S (rating_kVA), which is 500 VA.')
        site = read(text.replace('edition = 2', 'edition = 3'))
        self.assertEqual(self.importer(site)['status'], 'complete')
        site.edition = 2
        self.assertEqual(self.importer(site).get('number'), 5)

    def test_choices(self):
        """Q16, Q17, Q21, Q43, Q46 and Q50, by name and by number."""
        for number, name in enumerate(('PeakShave', 'Support', 'PeakShaveLow'), 1):
            for text in (str(number), f'"{name}"', f'"{name.lower()}"'):
                self.assertEqual(read(site_text('settings', 'mode', text)).settings.mode, number)
        for number, name in enumerate(('I-PeakShave', 'I-PeakShaveLow'), 4):
            for text in (str(number), f'"{name}"'):
                self.assertEqual(read(site_text('by current', 'mode', text)).settings.mode, number)
        for number, name in enumerate(('sum', 'L1', 'L2', 'L3', 'largest', 'smallest')):
            for text in (str(number), f'"{name}"'):
                self.assertEqual(read(site_text('settings', 'phase', text)).settings.phase, number)
        for part, name in (('unit', 'units'), ('inverter', 'inverters')):
            for number, text in enumerate(('"watts"', '"vars"')):
                self.assertEqual(getattr(read(site_text(part, 'priority', text)), name)[-1].priority, number)
        for number, text in enumerate(('"kVA"', '"left"')):
            self.assertEqual(read(site_text('function', 'base', text)).function.base, number)
        for phases in (1, 3):
            self.assertEqual(read(site_text('unit', 'phases', str(phases))).units[1].phases, phases)

    def test_choices_beyond(self):
        for part, key, text, said in (
                ('settings', 'mode', '0', 'mode is 0; it may be "PeakShave" (1), "Support" (2)'),
                ('settings', 'mode', '6', 'mode is 6; it may be'), ('settings', 'mode', 'true', 'mode is true'),
                ('settings', 'phase', '6', 'phase is 6; it may be "sum" (0), "L1" (1)'),
                ('settings', 'phase', '-1', 'phase is -1'), ('settings', 'phase', '1.0', 'phase is 1.0'),
                ('unit', 'priority', '2', UNIT_1 + 'priority is 2; it may be "watts" (0) or "vars" (1)'),
                ('unit', 'phases', '2', UNIT_1 + 'phases is 2; it may be 1 or 3'),
                ('inverter', 'priority', '"var"', INVERTER_0 + 'priority is "var"'),
                ('function', 'base', '2', 'function: base is 2; it may be "kVA" (0) or "left" (1)')):
            with self.subTest(key=key, text=text):
                self.assertIn(said, self.one_fault(site_text(part, key, text)))
        for edition in ('0', '4', '"1"', '2.0', 'true'):
            fault = self.one_fault(site_text().replace('edition = 2', f'edition = {edition}'))
            self.assertEqual(fault, f'the file: edition is {edition}; it may be 1, 2 or 3.')

    def test_counts(self):
        """Q5, Q30 and Q35: units, inverters, points."""
        def of(units, inverters):
            return (f'[log]\n{lines(LOG)}[settings]\n{lines(SETTINGS)}' + f'[[unit]]\n{lines(UNIT)}' * units
                    + f'[[inverter]]\n{lines(INVERTER)}' * inverters)
        self.assertEqual(self.importer(read(of(64, 64)))['status'], 'complete')
        self.assertEqual(self.one_fault(of(65, 0)), 'the file: there are 65 units, and a stick holds at most 64.')
        self.assertEqual(self.one_fault(of(1, 65)), 'the file: there are 65 inverters, and a stick holds at most 64.')
        self.assertEqual(self.one_fault(of(0, 0)), 'the file: there is no unit; each begins with the line [[unit]].')
        for count in (2, 16):
            points = ', '.join(f'[{x}, 50]' for x in range(count))
            self.assertEqual(self.importer(read(site_text('inverter', 'efficiency_curve', f'[{points}]')))['status'],
                             'complete')
        for count in (0, 1, 17):
            points = ', '.join(f'[{x}, 50]' for x in range(count))
            self.assertEqual(self.one_fault(site_text('inverter', 'efficiency_curve', f'[{points}]')),
                             f'{INVERTER_0}efficiency_curve has {count} points; it may have 2 to 16.')
        self.assertEqual(self.one_fault(site_text('function', 'curve', '[[0.9, 0], [1, 0], [1.0, 5]]')),
                         'function: the x of point 2, the 3rd point, 1 per unit (curve), must be above that of the '
                         'point before it, 1 per unit.')


class Documented(unittest.TestCase):
    def test_every_key_with_its_range(self):
        """docs/DESK.md has a row for each key of each part, with its unit and its range."""
        with open(os.path.join(ROOT, 'docs', 'DESK.md'), encoding='utf-8') as page:
            parts = re.split(r'^### ', page.read(), flags=re.M)
        rows = {}
        for part in parts[1:]:
            kind = re.match(r'`\[*([a-z]+)', part)
            for row in re.findall(r'^\| (.*) \|$', part, flags=re.M):
                cells = [cell.strip() for cell in row.split(' | ')]
                for key in re.findall(r'`([A-Za-z_0-9]+)`', cells[0]):
                    rows[kind.group(1) if kind else 'top', key] = cells
        tables = {'top': 'name edition'.split(),
                  **{kind: list(names) for kind, names in keys.KNOWN.items() if kind != 'top'}}
        for kind, names in tables.items():
            self.assertEqual(sorted(name for part, name in rows if part == kind), sorted(names))
        for quantity in vars(keys).values():
            if isinstance(quantity, keys.Quantity):
                self.documented(quantity, [cells for (_, key), cells in rows.items() if key == quantity.key])

    def documented(self, quantity, found):
        """A row of the key has its range; where that is in the stick's unit, what it is at most may be left out."""
        words = quantity.range_words().split(', which')[0]
        ranges = [cells[2] for cells in found]
        self.assertTrue(any(words in one for one in ranges), f'{quantity.key}: {words} is not among {ranges}')


if __name__ == '__main__':
    unittest.main()
