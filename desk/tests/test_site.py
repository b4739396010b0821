"""The site file: what it must have, what it may leave out, and what is said of one that is wrong."""

import unittest

from sticks import CURRENT_SITE, FUNCTION, INVERTER, LOG, ROWS, SETTINGS, SITE, UNIT, Desk, decoded

UNIT_0 = 'unit 0, the 1st unit (barn): '


class Site(Desk):
    def test_units_that_people_use(self):
        """Everything of a unit, exactly: 0.1 kWh is 360,000 J."""
        unit = UNIT.replace('rated_kWh = 100', 'rated_kWh = 0.3').replace('reserve_kWh = 10', 'reserve_kWh = 0.1')
        unit = unit.replace('stored_kWh = 90', 'stored_percent = 66.7').replace('idle_loss_W = 120', 'idle_loss_W = 7')
        unit += 'var_request_kvar = -1.234\nweight = 17\npriority = "vars"\nprovide_kvar = 2.5\nabsorb_kvar = 0.001\n'
        said = decoded(self.made(site=LOG + SETTINGS + unit))
        self.assertEqual(said['units'], [(1_080_000, 360_000, 720_360, 30_000, 33_000, 7, -1234, 17, 9650, 9500, 9400,
                                          1,
                                          2500, 1)])
        self.assertEqual((said['edition'], said['count'], said['seconds'], said['end']), (2, 1, 900, 2))

    def test_what_may_be_left_out(self):
        self.made(site=SITE + UNIT.replace('barn', 'mill') + 'weight = 3\n' + INVERTER)
        self.says('site.toml: 2 units, 1 inverter', 'Edition 1. Mode 1 (PeakShave), target 30.000 kW, band 2.000 kW.',
                  'Not in it, and so taken: weight = 1 for unit 0; priority = "watts" for all 2 units; '
                  'var_request_kvar = 0 for all 2 units; limit_percent = 100 for the inverter; var_request_kvar = 0 '
                  'for the inverter; priority = "watts" for the inverter.')
        full = SITE + 'weight = 1\npriority = "watts"\nvar_request_kvar = 0\n'
        self.made(site='name = "Nordhof"\n' + full)
        self.says('"Nordhof", edition 1.')
        self.assertNotIn('Not in it', self.called.output)

    def test_settings(self):
        said = decoded(self.made(site=LOG + '[settings]\nmode = "Support"\ntarget_kW = -12.345\nband_kW = 0\n'
                                 'factor_percent = 85.5\nphase = "largest"\n' + UNIT))
        self.assertEqual(said['settings'], (2, -12_345, 0, 855, 4))

    def test_connections_of_all_or_none(self):
        said = decoded(self.made(site=SITE + 'phases = 1\nvolts = 240\n' + UNIT + 'phases = 3\nvolts = 10000\n'))
        self.assertEqual(said['connections'], [(1, 240), (3, 10_000)])
        self.site_refused('unit 1, the 2nd unit (barn): its connection lacks phases and volts, and another unit has '
                          'them',
                          SITE + 'phases = 1\nvolts = 240\n' + UNIT)
        self.site_refused(UNIT_0 + 'its connection lacks volts, and another unit has them', SITE + 'phases = 1\n')
        self.site_refused(UNIT_0 + 'its connection lacks phases and volts, and mode 4 goes by current',
                          CURRENT_SITE.replace('phases = 3\nvolts = 230\n', ''))

    def test_all_faults_at_once(self):
        site = (SITE.replace('band_kW = 2', 'band_kW = 2.00001').replace('= 96.5', '= 9.99')
                .replace('rated_kWh', 'rated_kwh').replace('= 120', '= "120 W"'))
        self.site_refused('4 faults in it: settings: band 2.00001 kW (band_kW) is 2,000.01 W, no whole number of them; '
                          'it may be 0 to 200,000 kW.', site)
        self.says(UNIT_0 + 'the key "rated_kwh" is not known; is rated_kWh meant?',
                  UNIT_0 + 'idle_loss_W is "120 W"; it must be a number, without quotes and with a decimal point.',
                  UNIT_0 + 'inverter efficiency 9.99 % (inverter_efficiency_percent) is 999 parts in 10,000; it may be '
                           '10 to '
                  '100 %.', 'Nothing was written.')
        # A misspelt key is told once; that the right one is missing is not told besides.
        self.assertNotIn('missing', self.called.error)

    def test_unknown_keys(self):
        for site, said in (
                (SITE + 'colour = "red"\n', UNIT_0 + 'the key "colour" is not known; there are name, rated_kWh, '
                                                     'reserve_kWh'),
                (SITE + 'target_kW = 5\n', UNIT_0 + 'the key "target_kW" does not belong here, but to [settings].'),
                (SITE + 'edition = 2\n', UNIT_0 + 'the key "edition" does not belong here, but above the first [..] of '
                                                  'the file.'),
                (SITE.replace('[settings]', '[setings]'), 'the file: the key "setings" is not known; is settings '
                                                          'meant?'),
                (SITE.replace('[[unit]]', '[[units]]'), 'the file: the key "units" is not known; is unit meant?'),
                (SITE.replace('zone', 'Zone'), 'log: the key "Zone" is not known; is zone meant?'),
                (SITE + '"<b>\\u001b[31m" = 1\n', UNIT_0 + 'the key "<b>?[31m" is not known')):
            with self.subTest(said=said):
                self.site_refused('1 fault in it: ' + said, site)

    def test_missing_keys(self):
        for key, example in (('rated_kWh', '100'), ('reserve_kWh', '100'), ('stored_kWh', '100'), ('rating_kW', '100'),
                             ('rating_kVA', '100'), ('idle_loss_W', '100'), ('inverter_efficiency_percent', '100')):
            with self.subTest(key=key):
                site = '\n'.join(line for line in SITE.split('\n') if not line.startswith(key + ' '))
                self.site_refused(f'{UNIT_0}{key} is missing; an example is {key} = {example}.', site)
        for key in ('mode', 'target_kW', 'band_kW', 'factor', 'phase'):
            with self.subTest(key=key):
                site = '\n'.join(line for line in SITE.split('\n') if not line.startswith(key + ' '))
                self.site_refused(f'1 fault in it: settings: {key} is missing; an example is {key} = ', site)
        for key in ('time', 'powers'):
            with self.subTest(key=key):
                site = '\n'.join(line for line in SITE.split('\n') if not line.startswith(key + ' '))
                self.site_refused(f'1 fault in it: log: {key} is missing; an example is {key} = ', site)
        self.site_refused('1 fault in it: the file: there is no unit; each begins with the line [[unit]].',
                          'unit = []\n' + LOG + SETTINGS)
        self.site_refused('3 faults in it: the file: [settings] is missing. the file: there is no unit; each begins '
                          'with the line [[unit]]. the file: [log] is missing.', '')

    def test_two_for_one(self):
        for more, said in (('reserve_percent = 10\n', UNIT_0 + 'there are both reserve_kWh and reserve_percent; leave '
                                                               'one out.'),
                           ('stored_percent = 10\n', UNIT_0 + 'there are both stored_kWh and stored_percent; leave one '
                                                              'out.')):
            self.site_refused('1 fault in it: ' + said, SITE + more)
        self.site_refused('settings: there are both factor and factor_percent; leave one out.',
                          SITE.replace('factor = 1', 'factor = 1\nfactor_percent = 100'))
        self.site_refused('log: there are both step_minutes and step_seconds; leave one out.',
                          SITE.replace('zone', 'step_minutes = 15\nstep_seconds = 900\nzone'))
        self.site_refused('log: there are both powers and currents; leave one out.',
                          SITE.replace('zone', 'currents = ["a", "b", "c"]\nzone'))

    def test_the_mode_and_its_units(self):
        self.site_refused('4 faults in it: settings: target_kW does not fit: mode 4 goes by current, and its target is '
                          'target_A. settings: band_kW does not fit: mode 4 goes by current, and its band is band_A.',
                          SITE.replace('"PeakShave"', '4'))
        self.says('log: powers does not fit: mode 4 goes by currents.')
        self.site_refused('1 fault in it: settings: target_A does not fit: mode 1 goes by power, and its target is '
                          'target_kW.',
                          SITE.replace('target_kW', 'target_A'))
        self.site_refused('log: unit is "kW"; it may be "A" or "mA".',
                          CURRENT_SITE.replace('unit = "A"', 'unit = "kW"'))

    def test_editions(self):
        self.site_refused('the file: edition 1 has no var limits; leave provide_kvar and absorb_kvar out, or take '
                          'edition 2.',
                          'edition = 1\n' + SITE + 'absorb_kvar = 3\n')
        self.assertEqual(decoded(self.made(site='edition = 3\n' + SITE + 'absorb_kvar = 3\n'))['units'][0][12:],
                         (33_000, 3000))
        self.assertEqual(decoded(self.made(site='edition = 2\n' + SITE))['units'][0][12:], (33_000, 33_000))

    def test_wrong_types(self):
        for old, new, said in (
                ('rated_kWh = 100', 'rated_kWh = true', UNIT_0 + 'rated_kWh is true; it must be a number'),
                ('rated_kWh = 100', 'rated_kWh = [1]', UNIT_0 + 'rated_kWh is a list; it must be a number'),
                ('rated_kWh = 100', 'rated_kWh = 2025-01-01', UNIT_0 + 'rated_kWh is the time 2025-01-01; it must be a '
                                                                       'number'),
                ('name = "barn"', 'name = 5', 'unit 0, the 1st unit: name is 5; it must be a text between quotes'),
                ('\n[log]', 'name = 5\n[log]', 'the file: name is 5; it must be a text between quotes.'),
                ('\n[log]', 'name = ""\n[log]', 'the file: name is ""; it must be a text between quotes.'),
                ('[[unit]]', '[unit]', 'the file: unit is a table; each unit must begin with the line [[unit]].'),
                ('[settings]', '[[settings]]', 'the file: settings is a list; it must begin with the line [settings], '
                                               'which'),
                ('"L3"]', '3]', 'log: powers is a list; it must be the names of 3 columns, as in ["L1", "L2", "L3"].'),
                (', "L3"]', ']', 'log: powers is a list; it must be the names of 3 columns'),
                ('time = "time"', 'time = ["a", "b", "c"]', 'log: time is a list; it must be the name of a column, or '
                                                            'those of two'),
                ('zone = "Europe/Berlin"', 'zone = 1', 'log: zone is 1; it must be a text between quotes.'),
                ('unit = "kW"', 'unit = "MW"', 'log: unit is "MW"; it may be "kW" or "W".'),
                ('unit = "kW"', 'unit = "kW"\ndecimal = ";"', 'log: decimal is ";"; it may be "." or ",".'),
                ('unit = "kW"', 'unit = "kW"\ndelimiter = "|"', 'log: delimiter is "|"; it may be ",", ";", "\\t" or '
                                                                '"tab".'),
                ('unit = "kW"', 'unit = "kW"\nmissing = "-"', 'log: missing is "-"; it must be a list of texts'),
                ('unit = "kW"', 'unit = "kW"\nheader_row = 0', 'log: row of the header 0 (header_row) is out of its '
                                                               'range')):
            with self.subTest(new=new):
                self.site_refused(said, SITE.replace(old, new, 1))

    def test_curves(self):
        for curve, said in (('5', 'must be pairs of numbers, x in °C and y in %'),
                            ('[[1, 2, 3], [4, 5, 6]]', 'must be pairs'),
                            ('[[1, "2"], [3, 4]]', 'temperature_curve: the y of point 0, the 1st point is "2"; it must '
                                                   'be a number'),
                            ('[[25, 100], [-10, 110]]', 'the x of point 1, the 2nd point, -10 °C (temperature_curve), '
                                                        'must be '
                             'above that of the point before it, 25 °C.')):
            with self.subTest(curve=curve):
                self.site_refused(said, SITE + INVERTER.replace('[[-10, 110], [25, 100]]', curve))

    def test_voltage_and_weather_belong_together(self):
        voltage = 'voltage = "U"\nvoltage_unit = "per unit"\n'
        self.site_refused('log: a stick has voltages only with a function, which says the vars for each: add '
                          '[function], or leave voltage out.', LOG + voltage + SETTINGS + UNIT)
        self.site_refused('log: nominal_V is missing; an example is nominal_V = 230.',
                          LOG + voltage.replace('per unit', 'V') + SETTINGS + UNIT + FUNCTION)
        self.site_refused('log: irradiance_unit is for the column irradiance, and none is named.',
                          LOG + 'irradiance_unit = "W/m2"\n' + SETTINGS + UNIT)
        self.site_refused('log: night_offset_W_m2 is for the column irradiance, and none is named.',
                          LOG + 'night_offset_W_m2 = 5\n' + SETTINGS + UNIT)
        self.site_refused('log: nominal_V is for a voltage column in V alone',
                          LOG + 'nominal_V = 230\n' + SETTINGS + UNIT)
        self.site_refused('log: weather is both, the columns irradiance and temperature; name the other one too, or '
                          'none.',
                          LOG + 'irradiance = "G"\n' + SETTINGS + UNIT)
        self.site_refused('log: the column "L1" is named for 2 things; each has one of its own.',
                          LOG.replace('"time"', '"L1"') + SETTINGS + UNIT)

    def test_files_that_are_no_toml(self):
        self.site_refused("It is no TOML: Expected '=' after a key in a key/value pair (at line 1, column 5)", ROWS)
        self.says('If this is the log: the log comes first and the site file second.')
        self.site_refused('Line 3 is not UTF-8, which a site file must be: save it anew as UTF-8.',
                          b'# a\n# b\n# \xe4\n' + SITE.encode())
        self.site_refused('It is no TOML: ', SITE + 'weight = 1,5\n')
        self.site_refused('It is no TOML: ', SITE + 'rated_kWh = 5\n')
        self.site_refused('lie too deep in one another', 'a = ' + '[' * 100_000)
        self.site_refused('It has more than 1,048,576 bytes. No site file has.', '#' * (1 << 20) + '\n')
        self.says('If this is the log: the log comes first and the site file second.')
        self.site_refused('It is no TOML: ', 'a = ' + '9' * 5000)

    def test_files_as_notepad_saves_them(self):
        self.made(site=b'\xef\xbb\xbf' + SITE.replace('\n', '\r\n').encode())

    def test_many_faults(self):
        self.site_refused('1,000 faults in it:', SITE + ''.join(f'key{number} = 1\n' for number in range(1000)))
        self.assertEqual(self.called.error.count('is not known'), 20)
        self.says('And 980 faults more.')

    def test_numbers_in_any_form(self):
        said = decoded(self.made(site=SITE.replace('rated_kWh = 100', 'rated_kWh = 1_00.0e0').replace('= 120',
                                                                                                      '= 0x78')))
        self.assertEqual((said['units'][0][0], said['units'][0][5]), (360_000_000, 120))
        self.site_refused('idle loss of more than 60 digits W (idle_loss_W) is beyond any range',
                          SITE.replace('= 120', '= 0x' + 'F' * 20_000))


if __name__ == '__main__':
    unittest.main()
