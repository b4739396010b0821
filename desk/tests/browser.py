#!/usr/bin/env python3
"""The season's page in a real browser: it is opened, zoomed and pointed at, and the numbers that it shows are held
against those of the import tool. What the browser says against a page is a failure. The last line counts the tests.
"""
import os
import re
import statistics
import sys
import tempfile
import time
import unittest

sys.dont_write_bytecode = True
sys.path.insert(0, os.path.dirname(os.path.abspath(__file__)))

# pylint: disable=wrong-import-position
import chromium
from page_sticks import COMPLETE, EXAMPLES, call, odd_sticks, table, told, year
from season_page import words

SHIFT, CONTROL = 8, 2

# A page that says why it draws nothing.
TROUBLED = "document.readyState === 'complete' && !document.getElementById('trouble').hidden"

# The canvases of the first chart: how wide each is, in how many dots, and whether it is shown.
CANVASES = '''[...document.querySelectorAll('#meter .surface canvas')].map(canvas =>
  [canvas.style.width, canvas.width, getComputedStyle(canvas).display])'''


# What a canvas has in a part of it, read from a copy: the page's own is left as it is.
READ = '''(canvas, x, y, width, height) => {
  const copy = document.createElement('canvas'), context = copy.getContext('2d', {willReadFrequently: true});
  copy.width = width;
  copy.height = height;
  context.drawImage(canvas, x, y, width, height, 0, 0, width, height);
  return context.getImageData(0, 0, width, height).data; }'''


def legend(figure, key):
    return f'document.querySelector(\'#{figure} [data-series="{key}"] .value\').textContent'


class Pages(unittest.TestCase):
    """Tests in one browser, each with pages of its own."""

    @classmethod
    def setUpClass(cls):
        cls.browser = chromium.Browser()
        cls.folder = tempfile.mkdtemp(prefix='season-page-pages-')

    @classmethod
    def tearDownClass(cls):
        cls.browser.__exit__()
        for name in os.listdir(cls.folder):
            os.unlink(os.path.join(cls.folder, name))
        os.rmdir(cls.folder)

    def made(self, stick, name='page.html'):
        out = os.path.join(self.folder, name)
        status, _, errors = call(stick, out)
        self.assertEqual((status, errors), (0, ''))
        return out

    def page(self, stick, until=None, **options):
        """The page of a stick, open; at its end the browser must have said nothing against it."""
        page = chromium.Page(self.browser, **options)
        self.addCleanup(page.close)
        path = self.made(stick)
        page.open(path, *([until] if until else []))
        page.frames()
        self.addCleanup(lambda: self.assertEqual(page.troubles(), []))
        return page

    def example(self, name, **options):
        self.stick = os.path.join(EXAMPLES, f'{name}.stick')
        self.rows = table(self.stick, self.folder)
        self.summary = told('summary', self.stick)
        return self.page(self.stick, **options)

    def row(self, step, unit=0):
        return next(row for row in self.rows if row['step'] == str(step) and row['unit'] == str(unit))

    def go_to(self, page, step):
        """Go to a step as people do: its number is typed."""
        page.evaluate("document.getElementById('step').value = ''; document.getElementById('step').focus()")
        page.call('Input.insertText', text=str(step))
        page.key('Enter', text='\r')

    def shown(self, page):
        """The first and the last step that are shown, as the page says."""
        text = page.evaluate("document.getElementById('shown').textContent")
        found = re.match(r'steps ([\d,]+) to ([\d,]+) of ', text)
        return tuple(int(text.replace(',', '')) for text in found.groups())

    def box(self, page, figure):
        """Where the part of a chart is on the screen that values are drawn in."""
        page.evaluate(f"document.querySelector('#{figure} .plot').scrollIntoView({{block: 'center'}})")
        page.frames()
        left, top, width, height = page.evaluate(
            f"(() => {{ const box = document.querySelector('#{figure} .surface').getBoundingClientRect(); "
            'return [box.left, box.top, box.width, box.height]; })()')
        # The axes are beside it: the library is asked for so many pixels.
        return left + 68, top, width - 68 - 14, height - 36

    def point_at(self, page, figure, step, part=0.5):
        """Point at a part of a step, in a chart whose steps are shown whole."""
        first, last = self.shown(page)
        left, top, width, height = self.box(page, figure)
        page.mouse('mouseMoved', left + width * (step + part - first) / (last + 1 - first), top + height / 2)
        page.frames()

    def tip(self, page, figure):
        lines = f"document.querySelectorAll('#{figure} .tip:not([hidden]) div')"
        return page.evaluate(f'[...{lines}].map(one => one.textContent)')


class Values(Pages):
    """Numbers are read out of the page and held against import table."""

    def texts(self, step, battery):
        """What the page must show of a step, by the table."""
        row, first = self.row(step, battery), self.row(step)
        unit = 'A' if 'measure_mA' in row else 'kW'
        seen = row.get('measure_W', row.get('measure_mA'))
        stored = [int(one['stored_J']) for one in self.rows if one['step'] == str(step) and one['stored_J']]
        lost = [int(one['loss_J']) for one in self.rows if one['step'] == str(step) and one['loss_J']]
        texts = {
            ('meter', 'measure'): 'missing' if seen == 'missing' else f'{words.thousandths(int(seen))} {unit}',
            ('meter', 'fleet'): f'{words.thousandths(int(first["fleet_W"]))} kW',
            ('store', 'store'): f'{words.kwh(sum(stored))} kWh',
            ('unit', 'request'): f'{words.thousandths(int(row["request_W"]))} kW',
            ('unit', 'power'): f'{float(row["delivered_kW"]):,.3f} kW',
            ('held', 'store'): f'{words.kwh(int(row["stored_J"]))} kWh',
            ('losses', 'loss'): f'{words.kwh(sum(lost))} kWh',
            ('losses', 'own'): f'{words.kwh(int(row["loss_J"]))} kWh',
        }
        if unit == 'kW':
            texts['meter', 'net'] = f'{words.thousandths(int(row["net_W"]))} kW' if row['net_W'] else 'none'
        return texts

    def holds(self, page, step, battery):
        for (figure, key), text in self.texts(step, battery).items():
            # A chart that is out of sight says its values when it is seen.
            page.evaluate(f"document.getElementById('{figure}').scrollIntoView({{block: 'center'}})")
            page.wait(f'{legend(figure, key)} !== ""')
            self.assertEqual(page.evaluate(legend(figure, key)), text, (step, battery, figure, key))

    def test_steps_and_batteries(self):
        for name, steps in (('harvest', (0, 89, 117, 335)), ('dairy', (0, 16, 71)), ('mill', (0, 10, 95)),
                            ('roof', (0, 53, 76)), ('voltage', (13, 41))):
            page = self.example(name, height=1400)
            for battery in range(len(self.summary['units'])):
                page.evaluate("document.getElementById('battery').focus()")
                if battery:
                    page.key('ArrowDown')
                self.assertEqual(page.evaluate("document.getElementById('battery').value"), str(battery))
                for step in steps:
                    with self.subTest(example=name, battery=battery, step=step):
                        self.go_to(page, step)
                        self.holds(page, step, battery)

    def test_inverters(self):
        page = self.example('roof')
        for inverter in (-1, 0, 1, 2):
            page.evaluate("document.getElementById('inverter').focus()")
            if inverter >= 0:
                page.key('ArrowDown')
            for step in (0, 42, 52, 95):
                self.go_to(page, step)
                rows = [row for row in self.rows if row['step'] == str(step) and row['unit'].startswith('inverter') and
                        inverter in (-1, int(row['unit'][9:]))]
                page.evaluate("document.getElementById('roof').scrollIntoView()")
                page.wait(f'{legend("roof", "dc")} !== ""')
                direct, given = sum(int(row['DC_W']) for row in rows), sum(float(row['delivered_kW']) for row in rows)
                self.assertEqual(page.evaluate(legend('roof', 'dc')), f'{words.thousandths(direct)} kW')
                self.assertEqual(page.evaluate(legend('roof', 'roof')), f'{given:,.3f} kW')
                if inverter >= 0:
                    self.point_at(page, 'roof', step)
                    state = 'on' if rows[0]['on'] == '1' else 'off'
                    self.assertEqual(self.tip(page, 'roof')[-1], f'the inverter is {state}')

    def test_a_missing_reading_is_seen(self):
        page = self.example('harvest')
        # Before it comes a step that is not covered by a dot.
        nets = [row['net_W'] for row in self.rows if row['unit'] == '0']
        missing = next(step for step in range(1, len(nets))
                       if not nets[step] and nets[step - 1] and int(nets[step - 1]) < 90000)
        self.go_to(page, missing)
        self.assertEqual(page.evaluate(legend('meter', 'measure')), 'missing')
        self.point_at(page, 'meter', missing)
        tip = self.tip(page, 'meter')
        self.assertEqual(tip[0], words.step(missing))
        self.assertIn('the reading is missing', tip)
        # There is a gap: between two steps the line is drawn, and at this one nothing of its colour is.
        inks = [self.ink(page, step, '--net') for step in (missing - 1, missing)]
        self.assertGreater(inks[0], 0)
        self.assertEqual(inks[1], 0)
        # And there are marks: a bar across the chart, and one in the lane.
        self.assertEqual([self.bar(page, step) > 0 for step in (missing - 1, missing)], [False, True])
        self.assertEqual([self.lane(page, 0, step) > 0 for step in (missing - 1, missing)], [False, True])

    def bar(self, page, step):
        """How much is drawn in the middle of a step at the top of the chart, above all lines."""
        first, last = self.shown(page)
        return page.evaluate(f'''(() => {{
          const canvas = document.querySelector('#meter .surface canvas'), ratio = canvas.width / canvas.clientWidth;
          const at = 68 + (canvas.clientWidth - 68 - 14) * ({step} + 0.5 - {first}) / {last + 1 - first};
          return ({READ})(canvas, Math.round(at * ratio), 2, 1, 1)[3]; }})()''')

    def ink(self, page, step, colour):
        """How many dots of a colour are drawn in the middle of a step."""
        first, last = self.shown(page)
        return page.evaluate(f'''(() => {{
          const canvas = document.querySelector('#meter .surface canvas'), ratio = canvas.width / canvas.clientWidth;
          const at = 68 + (canvas.clientWidth - 68 - 14) * ({step} + 0.5 - {first}) / {last + 1 - first};
          const hex = getComputedStyle(document.documentElement).getPropertyValue('{colour}').trim();
          const wanted = [1, 3, 5].map(from => parseInt(hex.slice(from, from + 2), 16));
          const data = ({READ})(canvas, Math.round(at * ratio), 0, 1, canvas.height);
          let count = 0;
          for (let dot = 0; dot < data.length; dot += 4)
            if (data[dot + 3] > 100 && wanted.every((value, at) => Math.abs(data[dot + at] - value) < 30)) count++;
          return count; }})()''')

    def lane(self, page, lane, step):
        first, last = self.shown(page)
        return page.evaluate(f'''(() => {{
          const canvas = document.querySelectorAll('#meter .lane canvas')[{lane}];
          const at = Math.floor(canvas.width * ({step} + 0.5 - {first}) / {last + 1 - first});
          return ({READ})(canvas, at, Math.floor(canvas.height / 2), 1, 1)[3]; }})()''')

    def test_steps_above_the_target_are_marked(self):
        for name, way, is_outside in (('harvest', 'above', lambda net: 2 * (net - 90000) > 4000),
                                      ('roof', 'below', lambda net: 2 * (-15000 - net) > 3000)):
            page = self.example(name)
            first = [row for row in self.rows if row['unit'] == '0']
            nets = {int(row['step']): int(row['net_W']) for row in first if row['net_W']}
            outside = [step for step, net in nets.items() if is_outside(net)]
            self.assertEqual(len(outside), self.summary['net_outside_steps'])
            within = [step for step in nets if step not in outside]
            for step in [*outside[:3], outside[-1], *within[:3], within[-1]]:
                with self.subTest(example=name, step=step):
                    self.go_to(page, step)
                    self.point_at(page, 'meter', step)
                    self.assertEqual(f'{way} by the net measure' in self.tip(page, 'meter'), step in outside)
                    self.assertEqual(self.lane(page, 2, step) > 0, step in outside)
                    self.assertEqual(self.ink(page, step, '--outside') > 0, step in outside)

    def test_the_sweep(self):
        for name in ('harvest', 'roof', 'dairy'):
            page = self.example(name)
            peak = told('peak', self.stick)
            unit = 'mA' if 'own_target_mA' in peak else 'W'
            page.evaluate("document.querySelector('#counts .plot').focus()")
            for target in peak['targets']:
                page.key('ArrowRight')
                tip = self.tip(page, 'counts')
                number = words.thousandths(target[f'target_{unit}'])
                self.assertEqual(tip[0], f'target {number} {"A" if unit == "mA" else "kW"}')
                self.assertIn(f'lowest store {words.kwh(target["store_least_J"])} kWh', tip)
                if target['held'] is not None:
                    self.assertEqual(tip[-1], 'held' if target['held'] else 'did not hold')
            note = page.evaluate("document.getElementById('sweep-note').textContent")
            if peak[f'held_target_{unit}'] is not None:
                self.assertIn(f'that held, {words.thousandths(peak[f"held_target_{unit}"])} kW', note)
            self.assertEqual(page.evaluate("document.getElementById('nets') === null"), unit == 'mA')


class Moves(Pages):
    """What people do with a pointer and with keys."""

    def test_dragging(self):
        page = self.example('harvest')
        self.assertEqual(self.shown(page), (0, 335))
        left, top, width, height = self.box(page, 'meter')
        page.drag(left + width * 0.25, left + width * 0.5, top + height / 2)
        self.assertEqual(self.shown(page), (84, 167))
        page.drag(left + width * 0.25, left + width * 0.75, top + height / 2, modifiers=SHIFT)
        self.assertEqual(self.shown(page), (42, 125))
        # All charts show the same part, and the value at a place of one is that of the table.
        for figure, part in (('meter', 0.1), ('store', 0.9), ('unit', 0.2), ('losses', 0.8)):
            self.point_at(page, figure, 77, part)
            self.assertEqual(self.tip(page, figure)[0], 'step 77, the 78th row')
        self.assertEqual(self.tip(page, 'losses')[1], 'from 3\u00a0d 5\u00a0h to 3\u00a0d 6\u00a0h')
        left, top, width, height = self.box(page, 'store')
        for _ in range(2):
            page.mouse('mousePressed', left + 100, top + 40, button='left', clickCount=_ + 1)
            page.mouse('mouseReleased', left + 100, top + 40, button='left', clickCount=_ + 1)
        page.frames()
        self.assertEqual(self.shown(page), (0, 335))

    def test_the_wheel(self):
        page = self.example('harvest')
        left, top, width, height = self.box(page, 'meter')
        at = page.evaluate('scrollY')
        page.mouse('mouseWheel', left + width / 2, top + height / 2, deltaX=0, deltaY=-100, modifiers=CONTROL)
        page.frames()
        first, last = self.shown(page)
        self.assertEqual((last - first + 1, page.evaluate('scrollY')), (270, at))
        page.mouse('mouseWheel', left + width / 2, top + height / 2, deltaX=100, deltaY=0)
        page.frames()
        self.assertGreater(self.shown(page)[0], first)
        # A wheel alone is the page's.
        page.mouse('mouseWheel', left + width / 2, top + height / 2, deltaX=0, deltaY=100)
        page.wait(f'scrollY > {at}')

    def test_keys(self):
        page = self.example('harvest')
        page.evaluate("document.querySelector('#store .plot').focus()")
        seen = []
        for key in ('+', '+', 'ArrowLeft', 'ArrowRight', 'ArrowRight', 'Home', 'End', '-', '0'):
            page.key(key, text=key if len(key) == 1 else None)
            seen.append(self.shown(page))
        self.assertEqual(seen, [(84, 251), (126, 209), (109, 193), (126, 209), (142, 226), (0, 83), (252, 335),
                                (168, 335), (0, 335)])
        page.key('ArrowRight', modifiers=SHIFT)
        page.key('ArrowRight', modifiers=SHIFT)
        page.key('ArrowLeft', modifiers=SHIFT)
        self.assertEqual(self.tip(page, 'store')[0], 'step 169, the 170th row')
        # Those who hear the page hear the same.
        self.assertIn('step 169, the 170th row', page.evaluate("document.getElementById('said').textContent"))
        stored = sum(int(row['stored_J']) for row in self.rows if row['step'] == '169')
        self.assertIn(f'{words.kwh(stored)} kWh', page.evaluate("document.getElementById('said').textContent"))
        page.key('Escape')
        self.assertEqual((self.tip(page, 'store'), page.evaluate(legend('store', 'store'))), ([], ''))

    def test_everything_is_reached_by_tab(self):
        page = self.example('roof')
        reached = []
        for _ in range(40):
            page.key('Tab')
            reached.append(page.evaluate("(document.activeElement.closest('figure') || document.activeElement).id"))
        for name in ('battery', 'inverter', 'meter', 'store', 'unit', 'held', 'losses', 'roof', 'nets', 'counts',
                     'stores', 'step', 'earlier', 'later', 'closer', 'wider'):
            # A list is within its figure.
            wanted = {'battery': 'unit', 'inverter': 'roof'}.get(name, name)
            self.assertIn(wanted, reached)

    def test_buttons(self):
        page = self.example('harvest')
        press = "[...document.querySelectorAll('button')].find(one => one.textContent === '{}').click()"
        page.evaluate(press.format('7 days'))
        page.frames()
        self.assertEqual(self.shown(page), (84, 251))
        page.evaluate("document.getElementById('later').click()")
        page.frames()
        self.assertEqual(self.shown(page), (151, 319))
        page.evaluate(press.format('Whole season'))
        page.frames()
        self.assertEqual(self.shown(page), (0, 335))
        # A figure's step is shown in the charts.
        page.evaluate("document.querySelector('.cards button').click()")
        page.frames()
        self.assertEqual(page.evaluate(legend('meter', 'measure')), f'{words.thousandths(self.summary["most_W"])} kW')
        first, last = self.shown(page)
        self.assertTrue(first <= self.summary['most_step'] <= last)

    def test_steps_that_are_not_there(self):
        page = self.example('mill')
        self.go_to(page, 95)
        last = page.evaluate(legend('meter', 'measure'))
        self.assertEqual(last, f'{words.thousandths(int(self.row(95)["measure_W"]))} kW')
        for typed in ('96', '-5', '1e9', '0.5'):
            self.go_to(page, typed)
            self.assertEqual(page.evaluate(legend('meter', 'measure')), last, typed)


class Looks(Pages):
    def test_every_stick_is_drawn(self):
        """Examples and odd sticks: nothing is said against their pages, and something is drawn in each chart."""
        sticks = {name: os.path.join(EXAMPLES, name) for name in COMPLETE}
        for name, data in odd_sticks().items():
            sticks[name] = os.path.join(self.folder, name + '.stick')
            with open(sticks[name], 'wb') as file:
                file.write(data)
        for name, path in sticks.items():
            with self.subTest(stick=name):
                steps = told('summary', path)['steps']
                page = self.page(path, None if steps else TROUBLED, height=3000)
                page.frames()
                if not steps:
                    self.assertIn('no step', page.evaluate("document.getElementById('trouble').textContent"))
                    continue
                drawn = page.evaluate(f'''[...document.querySelectorAll('figure')].map(figure => {{
                  const canvas = figure.querySelector('.surface canvas');
                  const data = ({READ})(canvas, 0, 0, canvas.width, canvas.height);
                  return [figure.id, data.some(value => value !== 0)]; }})''')
                self.assertEqual([one for one in drawn if not one[1]], [])
                self.assertGreaterEqual(len(drawn), 7)

    def test_narrow_and_wide(self):
        for width in (360, 768, 1100, 1440, 2560):
            with self.subTest(width=width):
                page = self.example('roof', width=width)
                self.assertLessEqual(page.evaluate('document.documentElement.scrollWidth'), width)

    def test_pointing_moves_nothing(self):
        for width in (420, 1000, 1440):
            page = self.example('harvest', width=width, height=900)
            before = page.evaluate("document.documentElement.scrollHeight")
            self.point_at(page, 'meter', 89)
            self.assertEqual(page.evaluate("document.documentElement.scrollHeight"), before, width)

    def test_light_and_dark(self):
        papers = []
        for dark in (False, True):
            page = self.example('mill', dark=dark)
            papers.append(page.evaluate("getComputedStyle(document.body).backgroundColor"))
        self.assertEqual(papers, ['rgb(255, 255, 255)', 'rgb(20, 23, 27)'])
        # The charts follow when it gets dark.
        page = self.example('mill')
        ink = f'''(() => {{ const canvas = document.querySelector('#meter .surface canvas');
          return ({READ})(canvas, 0, 0, canvas.width, canvas.height).reduce((sum, value) => sum + value); }})()'''
        before = page.evaluate(ink)
        page.call('Emulation.setEmulatedMedia', features=[{'name': 'prefers-color-scheme', 'value': 'dark'}])
        page.wait(f'{ink} !== {before}')

    def test_paper(self):
        for dark in (False, True):
            page = self.example('roof', dark=dark)
            width = page.evaluate("document.querySelector('#meter canvas').style.width")
            paper = page.paper()
            self.assertTrue(paper.startswith(b'%PDF-'))
            self.assertIn(len(re.findall(rb'/Type\s*/Page\b', paper)), range(3, 7))
            page.frames()
            # Behind it the page is as it was.
            self.assertEqual(page.evaluate("document.querySelector('#meter canvas').style.width"), width)
            self.assertEqual(page.evaluate("document.querySelectorAll('main details[open]').length"), 0)
            # On paper it is light, and all tables are open.
            page.evaluate("dispatchEvent(new Event('beforeprint'))")
            self.assertEqual(page.evaluate("getComputedStyle(document.body).backgroundColor"), 'rgb(255, 255, 255)')
            self.assertEqual(page.evaluate("document.querySelectorAll('main details:not([open])').length"), 0)
            # Charts are as wide as the paper and finely drawn, and what the pointer draws on is not there.
            self.assertEqual(page.evaluate(CANVASES), [['700px', 2100, 'block'], ['700px', 2100, 'none']])
            page.evaluate("dispatchEvent(new Event('afterprint'))")
            self.assertEqual(page.evaluate(CANVASES), [[width, int(width[:-2]), 'block']] * 2)

    def test_without_programs_the_figures_are_there(self):
        page = chromium.Page(self.browser)
        self.addCleanup(page.close)
        page.call('Emulation.setScriptExecutionDisabled', value=True)
        page.open(self.made(os.path.join(EXAMPLES, 'harvest.stick')), "document.readyState === 'complete'")
        text = page.evaluate('document.body.innerText')
        self.assertIn('146.390 kW', text)
        self.assertIn('The charts need JavaScript', text)


class Hostile(Pages):
    def test_names(self):
        with open(os.path.join(EXAMPLES, 'mill.stick'), 'rb') as file:
            data = file.read()
        for name in ('"><img src=x onerror="window.hacked=1">', '<script>window.hacked=1<\u2044script>', '{{program}}',
                     'a\nb', os.fsdecode(b'\xff\xfe.stick')):
            with self.subTest(name=name):
                path = os.path.join(self.folder, name)
                with open(path, 'wb') as file:
                    file.write(data)
                page = self.page(path)
                self.assertIsNone(page.evaluate('window.hacked === undefined ? null : window.hacked'))
                self.assertEqual(page.evaluate('document.querySelectorAll("h1 *").length'), 1)
                self.assertEqual(page.evaluate('document.images.length'), 0)
                shown = words.name_shown(os.fsencode(name))
                self.assertEqual(page.evaluate('document.title'), f'The season of {shown}')
                os.unlink(path)

    def test_nothing_else_runs_and_nothing_is_fetched(self):
        page = chromium.Page(self.browser)
        self.addCleanup(page.close)
        page.open(self.made(os.path.join(EXAMPLES, 'mill.stick')))
        self.assertEqual(page.troubles(), [])
        page.evaluate('''(() => { const script = document.createElement('script');
          script.textContent = 'window.hacked = 1';
          document.body.append(script);
          document.body.insertAdjacentHTML('beforeend', '<img src="http://127.0.0.1:9/x">'); })()''')
        fetched = page.evaluate("fetch('http://127.0.0.1:9/').then(() => 'fetched', () => 'not fetched')")
        self.assertEqual(fetched, 'not fetched')
        self.assertIsNone(page.evaluate('window.hacked === undefined ? null : window.hacked'))
        page.frames()
        said = ' '.join(page.troubles())
        for kind in ('script-src', 'img-src', 'connect-src'):
            self.assertRegex(said, f'{kind}|default-src')
        self.assertGreaterEqual(said.count('Content Security Policy'), 3)


class Quick(Pages):
    """A year of hours of 64 batteries is shown without waiting."""

    # What each deed takes, in milliseconds and in calls of the canvases that draw.
    COSTS = '''(async () => {
      const plot = document.querySelector('#meter .plot'), costs = [];
      let calls = 0;
      for (const name of ['lineTo', 'moveTo', 'fillRect', 'arc']) {
        const draw = CanvasRenderingContext2D.prototype[name];
        CanvasRenderingContext2D.prototype[name] = function (...words) { calls++; return draw.apply(this, words); };
      }
      const shown = () => new Promise(done => requestAnimationFrame(() => setTimeout(done)));
      const deed = async act => {
        const began = performance.now();
        calls = 0;
        act();
        await shown();
        costs.push([performance.now() - began, calls]); };
      const key = name => deed(() => plot.dispatchEvent(new KeyboardEvent('keydown', {key: name, cancelable: true})));
      plot.focus();
      await shown();
      for (let round = 0; round < 5; round++)
        for (const name of ['+', 'ArrowRight', '+', 'ArrowLeft', '+', 'ArrowRight', '-', '-', 'ArrowLeft', '0'])
          await key(name);
      const list = document.getElementById('battery');
      for (const battery of [41, 63, 7])
        await deed(() => { list.value = battery; list.dispatchEvent(new Event('change')); });
      return costs; })()'''

    # The columns of pixels of all charts over time, once for each line in them.
    COLUMNS = '''[...document.querySelectorAll('figure')].reduce((sum, figure) => sum
      + (figure.querySelector('.surface') || {clientWidth: 0}).clientWidth
      * figure.querySelectorAll('[data-series]').length, 0)'''

    def test_a_year(self):
        path = os.path.join(self.folder, 'year.stick')
        with open(path, 'wb') as file:
            file.write(year())
        began = time.monotonic()
        out = self.made(path, 'year.html')
        making = time.monotonic() - began
        page = chromium.Page(self.browser, height=2400)
        self.addCleanup(page.close)
        opening = page.open(out)
        page.frames()
        costs = page.evaluate(self.COSTS)
        times, calls = [took / 1000 for took, _ in costs], [drawn for _, drawn in costs]
        columns = page.evaluate(self.COLUMNS)
        self.assertEqual(page.troubles(), [])
        print(f'a year of hours of 64 batteries: made in {making:.1f} s, {os.path.getsize(out):,} bytes, open in '
              f'{opening:.2f} s; all charts redrawn in {statistics.median(times):.3f} s, at most {max(times):.3f} s, '
              f'with {max(calls):,} calls of the canvases at most, for {columns:,} columns of pixels')
        # A redraw takes what the screen has and not what the year has.
        self.assertGreater(min(calls), 0)
        self.assertLess(max(calls), 2 * columns)
        # And it is the right year.
        page.evaluate("document.getElementById('step').focus()")
        page.call('Input.insertText', text='2212')
        page.key('Enter', text='\r')
        row = next(row for row in table(path, self.folder) if row['step'] == '2212' and row['unit'] == '7')
        self.assertEqual(page.evaluate(legend('unit', 'request')), f'{words.thousandths(int(row["request_W"]))} kW')
        self.assertEqual(page.evaluate(legend('held', 'store')), f'{words.kwh(int(row["stored_J"]))} kWh')


def main():
    if chromium.command() is None:
        print('NOT RUN: the page in a browser: no Chromium; install the package chromium')
        return 1
    tests = unittest.defaultTestLoader.loadTestsFromModule(sys.modules['__main__'])
    result = unittest.TextTestRunner(stream=sys.stdout).run(tests)
    failed = {getattr(test, 'test_case', test).id() for test, _ in result.failures + result.errors}
    print(f'{result.testsRun - len(failed)} passed, {len(failed)} failed')
    return 1 if failed else 0


if __name__ == '__main__':
    sys.exit(main())
