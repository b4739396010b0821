"""The bytes of a stick, worked out by hand from docs/LAYOUTS.md."""

import unittest

from sticks import CURRENT_SITE, FUNCTION, IMPORT, INVERTER, LOG, SETTINGS, SITE, UNIT, Desk, call


def plain(hexadecimal):
    return bytes.fromhex(hexadecimal)


# 100 kWh is 360,000,000 J, hex 15752A00; 10 kWh is 2255100; 90 kWh is 134FD900. 30 kW, 33 kVA, 120 W; no vars; weight
# 1; 96.5, 95 and 94 %; watts first.
UNIT_VALUES = ('0000000015752A00 0000000002255100 00000000134FD900 00007530 000080E8 00000078 00000000 0001 25B2 251C '
               '24B8 00')
FLEET = '01 0006 01 01 00000384'
SETTINGS_FIELD = '03 000C 01 00007530 000007D0 03E8 00'
# 1.5, 2.25 and -3 kW; 4, 5 and 6.5 kW.
FIRST = '3FF8000000000000 4002000000000000 C008000000000000'
SECOND = '4010000000000000 4014000000000000 401A000000000000'
READINGS = f'04 0018 {FIRST} 04 0018 {SECOND}'
END = '7F 0004 00000002'


def points(count, *pairs):
    """A curve's field: its points, and nothing past them."""
    return f'07 0081 {count:02X} {" ".join(pairs)} ' + '00' * 8 * (16 - count)


class Layout(Desk):
    call = staticmethod(call)

    def test_edition_1(self):
        self.assertEqual(self.made(), plain(f'{FLEET} 02 0031 {UNIT_VALUES} {SETTINGS_FIELD} {READINGS} {END}'))

    def test_var_limits_make_edition_2(self):
        site = SITE + 'provide_kvar = 12\n'
        fleet = FLEET.replace('0006 01', '0006 02')
        # 12 kvar, and S where there is no limit.
        self.assertEqual(self.made(site=site),
                         plain(f'{fleet} 02 0039 {UNIT_VALUES} 00002EE0 000080E8 {SETTINGS_FIELD} {READINGS} {END}'))

    def test_edition_3(self):
        fleet = FLEET.replace('0006 01', '0006 03')
        self.assertEqual(self.made(site='edition = 3\n' + SITE),
                         plain(f'{fleet} 02 0039 {UNIT_VALUES} 000080E8 000080E8 {SETTINGS_FIELD} {READINGS} {END}'))

    def test_currents_and_connections(self):
        settings = SETTINGS_FIELD.replace('0C 01', '0C 04')
        log = 'time;L1;L2;L3\n2025-06-01 00:00;1,5;2,25;0\n2025-06-01 00:15;4;5;6,5\n'
        first = FIRST.replace('C008', '0000')
        self.assertEqual(self.made(log, CURRENT_SITE),
                         plain(f'{FLEET} 02 0031 {UNIT_VALUES} {settings} 0A 0003 03 00E6 09 0018 {first} 09 0018 '
                               f'{SECOND} {END}'))

    def test_inverter_weather_function_voltage(self):
        site = (LOG + 'irradiance = "G"\nirradiance_unit = "W/m2"\ntemperature = "T"\nvoltage = "U"\n'
                'voltage_unit = "V"\nnominal_V = 230\n' + SETTINGS + UNIT + INVERTER + FUNCTION)
        log = ('time;L1;L2;L3;G;T;U\n2025-06-01 00:00;1,5;2,25;-3;500;12,5;230\n'
               '2025-06-01 00:15;;5;6,5;;1;241,5\n2025-06-01 00:45;4;5;6,5;1000;-0,5;\n')
        # 40 kW, 36 kVA, 2 %, 1 %, 100 %; no vars, watts first.
        inverter = '06 0013 00009C40 00008CA0 00C8 0064 2710 00000000 00'
        # -10 and 25 degrees in thousandths, 110 and 100 %; 5, 50 and 100 % of S in thousandths, 90, 97.5 and 96 %.
        temperature = points(2, 'FFFFD8F0 00002AF8', '000061A8 00002710')
        efficiency = points(3, '00000032 00002328', '000001F4 00002616', '000003E8 00002580')
        volt_var = points(4, '000023F0 00002710', '00002648 00000000', '000027D8 00000000', '00002A30 FFFFD8F0')
        # 500 W/m2 is 0.5 kW/m2, 12.5 degrees, 230 V is 10,000; 241.5 V is 10,500; then a gap; 1 kW/m2, -0.5 degrees.
        steps = (f'08 0010 3FE0000000000000 4029000000000000 0C 0002 2710 04 0018 {FIRST} 0C 0002 2904 05 0000 05 0000 '
                 f'08 0010 3FF0000000000000 BFE0000000000000 04 0018 {SECOND} 7F 0004 00000004')
        self.assertEqual(self.made(log, site), plain(
            f'{FLEET} 02 0031 {UNIT_VALUES} {SETTINGS_FIELD} {inverter} {temperature} {efficiency} 0B 0001 00 '
            f'{volt_var} {steps}'))
        self.assertEqual(self.answer['missing_steps'], 2)

    def test_a_whole_case(self):
        """The whole case of docs/RULES.md, O8, from a log and a site file to the result's bytes."""
        unit = UNIT.replace('rated_kWh = 100', 'rated_kWh = 1').replace('reserve_kWh = 10', 'reserve_kWh = 0')
        unit = unit.replace('stored_kWh = 90', 'stored_percent = 100').replace('rating_kW = 30', 'rating_kW = 100000')
        unit = unit.replace('rating_kVA = 33', 'rating_kVA = 100_000.0').replace('= 120', '= 1000')
        for efficiency in ('96.5', '95', '94'):
            unit = unit.replace(f'percent = {efficiency}', 'percent = 100')
        site = LOG + 'step_seconds = 60\n' + SETTINGS.replace('= 30', '= 0').replace('= 2', '= 0.0') + unit
        stick = self.made('time;L1;L2;L3\n2025-06-01 00:00;1;;2\n', site)
        self.assertEqual(stick, plain(
            '01 0006 01 01 0000003C 02 0031 000000000036EE80 0000000000000000 000000000036EE80 05F5E100 05F5E100 '
            '000003E8 00000000 0001 2710 2710 2710 00 03 000C 01 00000000 00000000 03E8 00 05 0000 7F 0004 00000001'))
        self.assertEqual(call(IMPORT, 'run', self.path('out.stick'), self.path('result')).status, 0)
        self.assertEqual(self.bytes_of('result'), plain(
            '11 00 25 00000000 00 00000000 BFF0000000000000 00000000 000000000036EE80 000000000000EA60 1F 00 04 '
            '00000001'))


if __name__ == '__main__':
    unittest.main()
