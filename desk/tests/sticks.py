"""What the tests share: a reader of sticks of its own, calls of the commands, and logs and site files to begin with."""

import contextlib
import io
import json
import os
import shutil
import struct
import subprocess
import sys
import tempfile
import unittest
from unittest import mock

from stick_from_csv.__main__ import called

ROOT = os.path.dirname(os.path.dirname(os.path.dirname(os.path.abspath(__file__))))
COMMAND = os.path.join(ROOT, 'build', 'stick-from-csv')
IMPORT = os.path.join(ROOT, 'build', 'import')

SETTINGS = '''
[settings]
mode = "PeakShave"
target_kW = 30
band_kW = 2
factor = 1
phase = "sum"
'''
UNIT = '''
[[unit]]
name = "barn"
rated_kWh = 100
reserve_kWh = 10
stored_kWh = 90
rating_kW = 30
rating_kVA = 33
idle_loss_W = 120
inverter_efficiency_percent = 96.5
charge_efficiency_percent = 95
discharge_efficiency_percent = 94
'''
LOG = '''
[log]
time = "time"
zone = "Europe/Berlin"
powers = ["L1", "L2", "L3"]
unit = "kW"
'''
SITE = LOG + SETTINGS + UNIT
CURRENT_SITE = (SITE.replace('"PeakShave"', '"I-PeakShave"').replace('_kW = 30\nband_kW', '_A = 30\nband_A')
                .replace('powers', 'currents').replace('unit = "kW"', 'unit = "A"') + 'phases = 3\nvolts = 230\n')
INVERTER = '''
[[inverter]]
name = "roof"
array_kW = 40
rating_kVA = 36
cut_in_percent = 2
cut_out_percent = 1
temperature_curve = [[-10, 110], [25, 100]]
efficiency_curve = [[5, 90], [50, 97.5], [100, 96]]
'''
FUNCTION = '''
[function]
base = "kVA"
curve = [[0.92, 100], [0.98, 0], [1.02, 0], [1.08, -100]]
'''
ROWS = 'time;L1;L2;L3\n2025-06-01 00:00;1,5;2,25;-3\n2025-06-01 00:15;4;5;6,5\n'


def fields(stick):
    """Each field's tag, place and value; the last one ends where the stick does."""
    at = 0
    while at < len(stick):
        tag, length = stick[at], int.from_bytes(stick[at + 1:at + 3], 'big')
        assert at + 3 + length <= len(stick), 'the stick is cut short'
        yield tag, at, stick[at + 3:at + 3 + length]
        at += 3 + length


def decoded(stick):
    """What a stick says, by the tags of its fields; steps are (weather, voltage, kind, three doubles)."""
    said = {'units': [], 'inverters': [], 'curves': [], 'steps': [], 'connections': None, 'base': None, 'end': None}
    weather = voltage = None
    for tag, _, value in fields(stick):
        if tag == 0x01:
            said['edition'], said['count'], said['seconds'] = struct.unpack('>BBI', value)
        elif tag == 0x02:
            said['units'].append(struct.unpack('>QQQIIIiHHHHB' + ('' if len(value) == 49 else 'II'), value))
        elif tag == 0x03:
            said['settings'] = struct.unpack('>BiIHB', value)
        elif tag in (0x04, 0x05, 0x09):
            said['steps'].append((weather, voltage, tag, struct.unpack('>ddd', value) if value else None))
            weather = voltage = None
        elif tag == 0x06:
            said['inverters'].append(struct.unpack('>IIHHHiB', value))
        elif tag == 0x07:
            numbers = struct.unpack('>B32i', value)
            points = list(zip(numbers[1::2], numbers[2::2]))
            assert points[numbers[0]:] == [(0, 0)] * (16 - numbers[0]), 'something stands past the points of a curve'
            said['curves'].append(points[:numbers[0]])
        elif tag == 0x08:
            weather = struct.unpack('>dd', value)
        elif tag == 0x0A:
            said['connections'] = [struct.unpack('>BH', value[at:at + 3]) for at in range(0, len(value), 3)]
        elif tag == 0x0B:
            said['base'] = value[0]
        elif tag == 0x0C:
            voltage, = struct.unpack('>H', value)
        elif tag == 0x7F:
            said['end'], = struct.unpack('>I', value)
        else:
            raise AssertionError(f'the tag {tag:02X} is unknown')
    return said


class Call:
    """What a call of a command gave."""

    def __init__(self, status, output, error):
        self.status = status
        self.output = output.decode('utf-8')
        self.error = error.decode('utf-8')

    def words(self):
        """All that was said, without the ends of its lines."""
        return ' '.join((self.output + ' ' + self.error).split())


def call(*words, **options):
    done = subprocess.run(words, stdout=subprocess.PIPE, stderr=subprocess.PIPE, check=False, **options)
    return Call(done.returncode, done.stdout, done.stderr)


def call_here(*words):
    """Calls the command in this process, which is quicker; that the built one is made of the same parts is a test."""
    output, error = (io.TextIOWrapper(io.BytesIO(), encoding='utf-8', errors='backslashreplace') for _ in range(2))
    with contextlib.redirect_stdout(output), contextlib.redirect_stderr(error):
        with mock.patch.object(sys, 'argv', list(words)):
            status = called()
    for stream in (output, error):
        stream.flush()
    return Call(status, output.buffer.getvalue(), error.buffer.getvalue())


class Desk(unittest.TestCase):
    """A test with a folder of its own. Those of the command as it is built call it as people do."""
    call = staticmethod(call_here)

    def setUp(self):
        self.folder = tempfile.mkdtemp()
        self.addCleanup(shutil.rmtree, self.folder)

    def path(self, name):
        return os.path.join(self.folder, name)

    def write(self, name, data):
        with open(self.path(name), 'wb') as out:
            out.write(data if isinstance(data, bytes) else data.encode('utf-8'))
        return self.path(name)

    def bytes_of(self, name):
        with open(self.path(name), 'rb') as file:
            return file.read()

    def make(self, log=ROWS, site=SITE):
        """Calls the command over a log and a site file."""
        if os.path.exists(self.path('out.stick')):
            os.unlink(self.path('out.stick'))
        return self.call(COMMAND, self.write('log.csv', log), self.write('site.toml', site), self.path('out.stick'))

    def made(self, log=ROWS, site=SITE):
        """The bytes of the stick, which import finds complete; the call stays for what it said."""
        self.called = self.make(log, site)
        self.assertEqual((self.called.status, self.called.error), (0, ''), self.called.words())
        checked = call(IMPORT, 'check', '--json', self.path('out.stick'))
        self.assertEqual(checked.status, 0)
        self.answer = json.loads(checked.output)
        self.assertEqual(sorted(os.listdir(self.folder)), ['log.csv', 'out.stick', 'site.toml'])
        return self.bytes_of('out.stick')

    def steps(self, log=ROWS, site=SITE):
        return decoded(self.made(log, site))['steps']

    def readings(self, log=ROWS, site=SITE):
        """The readings of the stick, None where one is missing."""
        return [three for _, _, _, three in self.steps(log, site)]

    def refused(self, said, log=ROWS, site=SITE, of='log.csv'):
        """The call is refused, says this among its words, and leaves nothing."""
        self.called = self.make(log, site)
        self.assertEqual((self.called.status, self.called.output), (1, ''), self.called.words())
        self.assertTrue(self.called.error.startswith(f'stick-from-csv: {self.path(of)}: refused\n'), self.called.error)
        self.assertIn(said, self.called.words())
        self.assertTrue(all(len(line) <= 100 for line in self.called.error.split('\n')[1:]), self.called.error)
        self.assertEqual(sorted(os.listdir(self.folder)), ['log.csv', 'site.toml'])

    def site_refused(self, said, site, log=ROWS):
        self.refused(said, log, site, 'site.toml')

    def says(self, *parts):
        """What was said last has these parts, in this order."""
        words, at = self.called.words(), 0
        for part in parts:
            self.assertIn(part, words[at:])
            at = words.index(part, at) + len(part)
