"""The page as one file: the template, filled with text, data, style and programs, and a policy that lets nothing else
run or be fetched.
"""
import base64
import hashlib
import json
import re
from importlib.resources import files

from . import figures, season as seasons, tables
from .faults import Failed
from .markup import escaped, tag
from .words import kwh, thousandths, which

# The page's program, one part behind the other.
PARTS = ('decode.js', 'words.js', 'theme.js', 'graph.js', 'view.js', 'over_time.js', 'rows.js', 'meter.js', 'charts.js',
         'sweep.js', 'main.js')

# What would end a script or a style before its end, or hide it.
UNSAFE = re.compile(r'</(script|style)|<!--|<script', re.IGNORECASE)


def part(name):
    return files(__package__).joinpath('parts', name).read_text('utf-8')


def code(name, text):
    """A program or a style as it stands within its element. Browsers take a line end of two characters as one, and the
    policy's numbers are over what they take.
    """
    text = text.replace('\r\n', '\n').replace('\r', '\n')
    if UNSAFE.search(text) or '\0' in text:
        raise Failed(f'{name} cannot stand in a page')
    return text


def number(text):
    """What the policy knows a program or a style by."""
    digest = hashlib.sha256(text.encode('utf-8')).digest()
    return f"'sha256-{base64.b64encode(digest).decode('ascii')}'"


def policy(programs, style):
    return (f"default-src 'none'; script-src {' '.join(number(program) for program in programs)}; "
            f"style-src {number(style)}; base-uri 'none'; form-action 'none'")


def as_data(value):
    """JSON that can stand in a script element whatever is in it."""
    text = json.dumps(value, separators=(',', ':'))
    return text.replace('&', '\\u0026').replace('<', '\\u003c').replace('>', '\\u003e')


def program():
    return "(function () {\n'use strict';\n" + '\n'.join(part(name) for name in PARTS) + '})();\n'


def fill(template, values):
    """The template with each {{name}} replaced; what is filled in is not looked at again."""
    return re.sub(r'\{\{(\w+)\}\}', lambda found: values[found.group(1)], template)


def batteries(season):
    """The list that a battery is chosen from."""
    names = [f'{which("Battery", number)}: {thousandths(said["rating_W"])} kW, {kwh(said["rated_J"])} kWh'
             for number, said in enumerate(season.summary['units'])]
    return ''.join(tag('option', escaped(name), value=number) for number, name in enumerate(names))


def inverters(season):
    names = ['All inverters together'] + [which('Inverter', number) for number in range(len(season.inverters))]
    return ''.join(tag('option', escaped(name), value=number - 1) for number, name in enumerate(names))


def page(name, season, peak, library, version):
    """The whole page, in bytes."""
    charts, own = code('the chart library', library.program), code('the program', program())
    style = code('the style', library.style + part('page.css'))
    length, about = figures.season_lines(season)
    return fill(part('page.html'), {
        'policy': escaped(policy([charts, own], style)),
        'style': style, 'name': escaped(name), 'length': escaped(length), 'about': escaped(about),
        'figures': figures.cards(season, peak), 'tables': tables.tables(season, peak),
        'version': escaped(version), 'licence': escaped(library.licence.strip()),
        'data': as_data(seasons.data(season, peak)), 'library': charts, 'program': own,
        'batteries': batteries(season), 'inverters': inverters(season),
    }).encode('utf-8')
