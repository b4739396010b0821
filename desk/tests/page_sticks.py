"""What the tests of the season's page share: sticks of many kinds, calls of the commands, and a reader of pages."""
import base64
import csv
import hashlib
import io
import json
import math
import os
import random
import shutil
import struct
import subprocess
import sys
import tempfile
import unittest
from html.parser import HTMLParser

ROOT = os.path.dirname(os.path.dirname(os.path.dirname(os.path.abspath(__file__))))
COMMAND = os.path.join(ROOT, 'build', 'season-page')
IMPORT = os.path.join(ROOT, 'build', 'import')
EXAMPLES = os.path.join(ROOT, 'examples')

# The package itself, for tests of its parts.
if os.path.join(ROOT, 'desk') not in sys.path:
    sys.path.insert(0, os.path.join(ROOT, 'desk'))

COMPLETE = sorted(name for name in os.listdir(EXAMPLES) if name.endswith('.stick') and not name.startswith('refused'))
REFUSED = sorted(name for name in os.listdir(EXAMPLES) if name.startswith('refused') and name.endswith('.stick'))


def field(tag, value=b''):
    return bytes([tag]) + struct.pack('>H', len(value)) + value


def unit(rated=3600000, reserve=0, stored=None, rating=1000, kva=1000, idle=0, weight=1, parts=10000):
    stored = rated if stored is None else stored
    return field(2, struct.pack('>QQQIIIiHHHHB', rated, reserve, stored, rating, kva, idle, 0, weight, parts, parts,
                                parts, 0))


def settings(mode=1, target=1000, band=0, factor=1000, phase=0):
    return field(3, struct.pack('>BiIHB', mode, target, band, factor, phase))


def power(kw):
    """A reading of so many kW in the first phase, or a missing one."""
    return field(5) if kw is None else field(4, struct.pack('>ddd', kw, 0, 0))


def current(amperes):
    return field(5) if amperes is None else field(9, struct.pack('>ddd', amperes, 0, 0))


def connections(units):
    return field(10, struct.pack('>BH', 3, 230) * units)


def inverter():
    """An inverter of 1 kW with plain curves."""
    values = struct.pack('>IIHHHiB', 1000, 1000, 100, 50, 10000, 0, 0)
    flat = [struct.pack('>Biiii', 2, 0, 10000, 50000, 10000), struct.pack('>Biiii', 2, 0, 9500, 1000, 9500)]
    return field(6, values) + b''.join(field(7, curve + bytes(129 - len(curve))) for curve in flat)


def weather(sun):
    return field(8, struct.pack('>dd', sun, 20))


def stick(units, rest, steps, seconds=60):
    """A stick of edition 1: its units, all that comes behind them up to the end, and how many steps that has."""
    fleet = field(1, struct.pack('>BBI', 1, len(units), seconds))
    return fleet + b''.join(units) + rest + field(127, struct.pack('>I', steps))


def powers(*readings, units=1, seconds=60, **more):
    """A stick by watts of some readings."""
    return stick([unit()] * units, settings(**more) + b''.join(map(power, readings)), len(readings), seconds)


def odd_sticks():
    """Sticks that examples/ has none of, by their names."""
    sun = b''.join(weather(step / 4) + power(1.5) for step in range(4))
    return {
        'no step': powers(),
        'missing alone': powers(None, None, None),
        'one step': powers(2.5),
        'one step that is missing': powers(None),
        'a lone reading': powers(None, 1.5, None),
        'support': powers(-0.5, 0, -1.5, None, mode=2),
        'charging': stick([unit(stored=0)], settings(3, -1000) + power(-1.5) + power(None) + power(-2), 3),
        'current': stick([unit()], settings(4, 5000) + connections(1) + current(9) + current(None), 2),
        'charging by current': stick([unit(stored=0)], settings(5, 5000) + connections(1) + current(3), 1),
        'half a watt': powers(1.0, 1.001, 1.002, band=3),
        'sun': stick([unit()], settings() + inverter() + sun, 4),
        'a second': powers(1.5, 0.5, seconds=1),
        'an odd step': powers(*[1.5] * 40, seconds=1000),
        'a day': powers(*[1.5] * 40, seconds=86400),
        'a store below its reserve': stick([unit(reserve=3600000, stored=0)], settings() + power(2), 1),
        'the largest': stick([unit(10 ** 13, 0, 10 ** 13, 10 ** 8, 10 ** 8, 10 ** 7, 10000, 1000)] * 64,
                             settings(target=-10 ** 8, band=2 * 10 ** 8) + power(10 ** 5) + power(-10 ** 5), 2, 86400),
    }


def year(steps=8760, units=64, seed=1):
    """A year of hours of a fleet that is at work for most of it."""
    chance = random.Random(seed)
    fleet = []
    for _ in range(units):
        rated, rating = chance.randint(20, 200) * 3600000 * 100, chance.randint(5, 60) * 1000
        fleet.append(unit(rated, rated // 10, rated * 8 // 10, rating, rating + 2000, chance.randint(20, 200),
                          chance.randint(1, 10), 9600))
    readings = []
    for step in range(steps):
        day, season = math.sin(step / 24 * 2 * math.pi), math.sin(step / 8760 * 2 * math.pi)
        kw = round(900 + 400 * day + 200 * season + chance.gauss(0, 80), 2)
        readings.append(power(None if chance.random() < 0.01 else kw))
    return stick(fleet, settings(target=1200000, band=40000, factor=400) + b''.join(readings), steps, 3600)


def long_stick():
    """A stick of more bytes than the library takes at once."""
    step = weather(0.5) + power(1.5)
    count = 2097152 // len(step) + 10
    return stick([unit()], settings() + step * count, count)


def call(*words, environ=None, cwd=None):
    """Call the command; gives its status, output and errors."""
    done = subprocess.run([COMMAND, *words], stdin=subprocess.DEVNULL, capture_output=True, check=False, cwd=cwd,
                          env={**os.environ, **(environ or {})})
    return done.returncode, done.stdout.decode('utf-8'), done.stderr.decode('utf-8')


def told(command, name):
    done = subprocess.run([IMPORT, command, '--json', name], capture_output=True, check=False)
    return json.loads(done.stdout)


def words_of(command, name):
    """What the import tool says to people."""
    return subprocess.run([IMPORT, command, name], capture_output=True, check=False, encoding='utf-8').stdout


def table(name, folder):
    """The table of a stick, as rows by the names of their columns."""
    result = os.path.join(folder, 'result')
    subprocess.run([IMPORT, 'run', name, result], capture_output=True, check=True)
    done = subprocess.run([IMPORT, 'table', '--csv', name, result], capture_output=True, check=True, encoding='ascii')
    return list(csv.DictReader(io.StringIO(done.stdout)))


class Reader(HTMLParser):
    """What a browser makes of a page: its elements, and the text in each kind of them."""

    def __init__(self, page):
        super().__init__(convert_charrefs=True)
        self.elements, self.texts, self.open = [], {}, []
        self.feed(page)
        self.close()

    def handle_starttag(self, tag, attrs):
        self.elements.append((tag, dict(attrs)))
        self.texts.setdefault(tag, []).append('')
        self.open.append(tag)

    def handle_endtag(self, tag):
        while self.open and self.open.pop() != tag:
            pass

    def handle_data(self, data):
        for tag in set(self.open):
            self.texts[tag][-1] += data

    def all(self, name):
        return [attributes for tag, attributes in self.elements if tag == name]

    def season(self):
        """The data of the page's program."""
        at = [attributes.get('id') for attributes in self.all('script')].index('season')
        return json.loads(self.texts['script'][at])


def number(text):
    return "'sha256-" + base64.b64encode(hashlib.sha256(text.encode('utf-8')).digest()).decode() + "'"


class Case(unittest.TestCase):
    """A test with a folder of its own, and a chart library that stands in for the real one."""

    def setUp(self):
        self.folder = tempfile.mkdtemp(prefix='season-page-test-')
        self.addCleanup(shutil.rmtree, self.folder)
        library = self.path('library')
        os.mkdir(library)
        for name, text in (('dygraph.min.js', 'var Dygraph = {};\n//# sourceMappingURL=dygraph.min.js.map\n'),
                           ('dygraph.min.css', '.dygraph-axis-label{color:black}\n/*# sourceMappingURL=x.map */\n'),
                           ('LICENSE.txt', 'Copyright (c) <somebody> & others\n')):
            self.write(os.path.join('library', name), text.encode())
        self.environ = {'YB_DYGRAPHS': library}

    def path(self, name):
        return os.path.join(self.folder, name)

    def write(self, name, data):
        with open(self.path(name), 'wb') as file:
            file.write(data)
        return self.path(name)

    def make(self, name, out='page.html'):
        """The page of a stick, which is made."""
        status, _, errors = call(name, self.path(out), environ=self.environ)
        self.assertEqual((status, errors), (0, ''), name)
        with open(self.path(out), encoding='utf-8', newline='') as file:
            return file.read()
