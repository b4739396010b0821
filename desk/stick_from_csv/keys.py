"""The keys of a site file: what each is, in which unit people give it, in which the stick has it, and its range.

The ranges are those of docs/RULES.md, Q; docs/DESK.md has the same table for people.
"""

from dataclasses import dataclass
from fractions import Fraction

from .exact import decimal_words, is_decimal

POWER = 10 ** 8
PARTS = 'parts in 10,000'


@dataclass(frozen=True)
class Quantity:
    """A value with a range. So many (factor) of the stick's units are one of the unit that people use."""
    key: str
    words: str
    unit: str
    factor: int
    stored: str
    low: int
    high: int
    rule: str

    def given(self, whole):
        """A number of the stick's units in the unit that people use."""
        return with_unit(decimal_words(Fraction(whole, self.factor)), self.unit)

    def range_words(self):
        low, high = (Fraction(end, self.factor) for end in (self.low, self.high))
        if is_decimal(low) and is_decimal(high):
            return f'{decimal_words(low)} to {with_unit(decimal_words(high), self.unit)}'
        most = decimal_words(Fraction(high * 1000 // 1, 1000))
        return f'{self.low:,} to {self.high:,} {self.stored}, which is at most {with_unit(most, self.unit)}'


def with_unit(words, unit):
    return f'{words} {unit}' if unit else words


RATED = Quantity('rated_kWh', 'rated energy', 'kWh', 3_600_000, 'J', 1, 10 ** 13, 'Q7')
RESERVE = Quantity('reserve_kWh', 'reserve', 'kWh', 3_600_000, 'J', 0, 10 ** 13, 'Q8')
STORED = Quantity('stored_kWh', 'stored energy', 'kWh', 3_600_000, 'J', 0, 10 ** 13, 'Q9')
RATING = Quantity('rating_kW', 'power rating R', 'kW', 1000, 'W', 1, POWER, 'Q10')
KVA = Quantity('rating_kVA', 'kVA rating S', 'kVA', 1000, 'VA', 1, POWER, 'Q11')
IDLE_LOSS = Quantity('idle_loss_W', 'idle loss', 'W', 1, 'W', 0, 10 ** 7, 'Q12')
VAR_REQUEST = Quantity('var_request_kvar', 'var request', 'kvar', 1000, 'var', -POWER, POWER, 'Q13')
WEIGHT = Quantity('weight', 'weight', '', 1, '', 1, 10_000, 'Q14')
INVERTER = Quantity('inverter_efficiency_percent', 'inverter efficiency', '%', 100, PARTS, 1000, 10_000, 'Q15')
CHARGE = Quantity('charge_efficiency_percent', 'charge efficiency', '%', 100, PARTS, 1000, 10_000, 'Q15')
DISCHARGE = Quantity('discharge_efficiency_percent', 'discharge efficiency', '%', 100, PARTS, 1000, 10_000, 'Q15')
PROVIDE = Quantity('provide_kvar', 'provide limit', 'kvar', 1000, 'var', 0, POWER, 'Q44')
ABSORB = Quantity('absorb_kvar', 'absorb limit', 'kvar', 1000, 'var', 0, POWER, 'Q44')
VOLTS = Quantity('volts', 'volts of the connection', 'V', 1, 'V', 1, 40_000, 'Q47')

TARGET = Quantity('target_kW', 'target', 'kW', 1000, 'W', -POWER, POWER, 'Q18')
TARGET_A = Quantity('target_A', 'target', 'A', 1000, 'mA', -POWER, POWER, 'Q18')
BAND = Quantity('band_kW', 'band', 'kW', 1000, 'W', 0, 2 * POWER, 'Q19')
BAND_A = Quantity('band_A', 'band', 'A', 1000, 'mA', 0, 2 * POWER, 'Q19')
FACTOR = Quantity('factor', 'factor', '', 1000, 'thousandths', 1, 1000, 'Q20')
FACTOR_PERCENT = Quantity('factor_percent', 'factor', '%', 10, 'thousandths', 1, 1000, 'Q20')

ARRAY = Quantity('array_kW', 'array power', 'kW', 1000, 'W', 1, POWER, 'Q31')
INVERTER_KVA = Quantity('rating_kVA', 'kVA rating S', 'kVA', 1000, 'VA', 1, POWER, 'Q31')
CUT_IN = Quantity('cut_in_percent', 'cut-in', '% of S', 100, PARTS, 0, 10_000, 'Q32')
CUT_OUT = Quantity('cut_out_percent', 'cut-out', '% of S', 100, PARTS, 0, 10_000, 'Q33')
LIMIT = Quantity('limit_percent', 'limit', '% of the array', 100, PARTS, 0, 10_000, 'Q34')

DEGREES_X = Quantity('temperature_curve', 'x', '°C', 1000, 'thousandths of a degree C', -POWER, POWER, 'Q36')
DEGREES_Y = Quantity('temperature_curve', 'y', '%', 100, PARTS, 0, 20_000, 'Q37')
LOAD_X = Quantity('efficiency_curve', 'x', '% of S', 10, 'thousandths of DC power per kVA', 0, POWER, 'Q38')
LOAD_Y = Quantity('efficiency_curve', 'y', '%', 100, PARTS, 0, 10_000, 'Q39')
VOLTAGE_X = Quantity('curve', 'x', 'per unit', 10_000, 'ten-thousandths of per unit', 0, 20_000, 'Q52')
VOLTAGE_Y = Quantity('curve', 'y', '%', 100, PARTS, -10_000, 10_000, 'Q53')

STEP_MINUTES = Quantity('step_minutes', 'step', 'min', 60, 's', 1, 86_400, 'Q6')
STEP_SECONDS = Quantity('step_seconds', 'step', 's', 1, 's', 1, 86_400, 'Q6')
TOLERANCE = Quantity('tolerance_seconds', 'tolerance', 's', 1, 's', 0, 43_199, '')
HEADER_ROW = Quantity('header_row', 'row of the header', '', 1, '', 1, 1000, '')
NIGHT = Quantity('night_offset_W_m2', 'night offset', 'W/m2', 1000, 'mW/m2', 0, 50_000, '')
NOMINAL = Quantity('nominal_V', 'nominal voltage', 'V', 1000, 'mV', 1, 10 ** 9, '')

MODES = {'PeakShave': 1, 'Support': 2, 'PeakShaveLow': 3, 'I-PeakShave': 4, 'I-PeakShaveLow': 5}
BY_CURRENT = (4, 5)
PHASES = {'sum': 0, 'L1': 1, 'L2': 2, 'L3': 3, 'largest': 4, 'smallest': 5}
PRIORITIES = {'watts': 0, 'vars': 1}
BASES = {'kVA': 0, 'left': 1}
CONNECTED = (1, 3)
EDITIONS = (1, 2, 3)

MOST_UNITS = 64
MOST_INVERTERS = 64
LEAST_POINTS, MOST_POINTS = 2, 16

# Every key that a part of a site file may have.
KNOWN = {
    'top': ('name', 'edition', 'log', 'settings', 'unit', 'inverter', 'function'),
    'log': ('time', 'format', 'zone', 'step_minutes', 'step_seconds', 'tolerance_seconds', 'from', 'to', 'powers',
            'currents', 'unit', 'delimiter', 'decimal', 'missing', 'header_row', 'irradiance', 'irradiance_unit',
            'night_offset_W_m2', 'temperature', 'voltage', 'voltage_unit', 'nominal_V'),
    'settings': ('mode', 'target_kW', 'target_A', 'band_kW', 'band_A', 'factor', 'factor_percent', 'phase'),
    'unit': ('name', 'rated_kWh', 'reserve_kWh', 'reserve_percent', 'stored_kWh', 'stored_percent', 'rating_kW',
             'rating_kVA', 'idle_loss_W', 'var_request_kvar', 'weight', 'inverter_efficiency_percent',
             'charge_efficiency_percent', 'discharge_efficiency_percent', 'priority', 'provide_kvar', 'absorb_kvar',
             'phases', 'volts'),
    'inverter': ('name', 'array_kW', 'rating_kVA', 'cut_in_percent', 'cut_out_percent', 'limit_percent',
                 'var_request_kvar', 'priority', 'temperature_curve', 'efficiency_curve'),
    'function': ('base', 'curve'),
}
