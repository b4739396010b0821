"""What the page draws and says is what the import tool says."""
import os
import re
import unittest

from page_sticks import COMPLETE, EXAMPLES, Case, Reader, odd_sticks, table, told, words_of, year
from season_page import season, words
from season_page.faults import Failed
from season_page.packed import unpack


def by_unit(rows):
    """The rows of each battery and inverter."""
    units = {}
    for row in rows:
        units.setdefault(row['unit'], []).append(row)
    return units


def column(rows, of):
    return [row[of] for row in rows]


def watts(cells):
    return [round(float(cell) * 1000) for cell in cells]


def whole(cells):
    return [int(cell) for cell in cells]


class Data(Case):
    def held(self, path):
        """The page of a stick is held against its table, its summary and its sweep."""
        page = Reader(self.make(path))
        data, rows, summary = page.season(), table(path, self.folder), told('summary', path)
        self.assertEqual((data['steps'], data['seconds'], data['mode']),
                         (summary['steps'], summary['seconds'], summary['mode']))
        units = by_unit(rows)
        self.batteries(data, units, summary)
        self.inverters(data, units)
        self.steps(data, units, summary)
        self.sweep(data, told('peak', path), summary)
        return page, data, summary

    def batteries(self, data, units, summary):
        self.assertEqual(len(data['batteries']), len(summary['units']))
        for number, battery in enumerate(data['batteries']):
            rows = units.get(str(number), [])
            self.assertEqual(unpack(battery['request']), whole(column(rows, 'request_W')))
            self.assertEqual(unpack(battery['power']), watts(column(rows, 'delivered_kW')))
            self.assertEqual(unpack(battery['store']), whole(column(rows, 'stored_J')))
            self.assertEqual(unpack(battery['loss']), whole(column(rows, 'loss_J')))
            said = summary['units'][number]
            self.assertEqual([battery[key] for key in ('rated', 'reserve', 'start', 'rating')],
                             [said[key] for key in ('rated_J', 'reserve_J', 'stored_J', 'rating_W')])
        for key, of in (('rated', 'rated_J'), ('reserve', 'reserve_J'), ('start', 'stored_J')):
            self.assertEqual(data[key], sum(said[of] for said in summary['units']))

    def inverters(self, data, units):
        names = [f'inverter {number}' for number in range(len(data['inverters']))]
        if units:
            self.assertEqual(names, [name for name in units if name.startswith('inverter')])
        for inverter, name in zip(data['inverters'], names):
            rows = units.get(name, [])
            self.assertEqual(unpack(inverter['power']), watts(column(rows, 'delivered_kW')))
            self.assertEqual(unpack(inverter['dc']), whole(column(rows, 'DC_W')))
            self.assertEqual(unpack(inverter['on']), whole(column(rows, 'on')))

    def steps(self, data, units, summary):
        first = units.get('0', [])
        seen = [row.get('measure_W', row.get('measure_mA')) for row in first]
        missing = [step for step, cell in enumerate(seen) if cell == 'missing']
        self.assertEqual(unpack(data['missing']), missing)
        measure = unpack(data['measure'])
        self.assertEqual(len(measure), summary['steps'])
        self.assertEqual([measure[step] for step in range(len(seen)) if seen[step] != 'missing'],
                         [int(cell) for cell in seen if cell != 'missing'])
        self.assertEqual(unpack(data['fleet']), whole(row['fleet_W'] for row in first))
        if any(row['net_W'] for row in first):
            net = unpack(data['net'])
            self.assertEqual([net[step] for step in range(len(first)) if first[step]['net_W']],
                             [int(row['net_W']) for row in first if row['net_W']])
        else:
            self.assertIsNone(data['net'])
        # As many steps are marked as the figures count.
        self.assertEqual(len(unpack(data['outside'])), summary['outside_steps'])
        self.assertEqual(len(unpack(data['netOutside'])), summary['net_outside_steps'] or 0)
        self.assertEqual(len(missing), summary['missing_steps'])
        batteries = [rows for name, rows in units.items() if not name.startswith('inverter')]
        for key, of in (('store', 'stored_J'), ('loss', 'loss_J')):
            self.assertEqual(unpack(data[key]), [sum(int(row[of]) for row in step) for step in zip(*batteries)])
        if first:
            self.assertEqual(min(unpack(data['store'])), summary['store_least_J'])
        self.assertEqual(sum(unpack(data['loss'])), summary['loss_J'])

    def sweep(self, data, peak, summary):
        key = 'mA' if summary['mode'] in (4, 5) else 'W'
        end = 'least' if summary['mode'] in (3, 5) else 'most'
        self.assertEqual([data['sweep'][name] for name in ('own', 'held')],
                         [peak[f'{name}_target_{key}'] for name in ('own', 'held')])
        self.assertEqual([[one[name] for name in ('target', 'net', 'outside', 'seen', 'store', 'held')]
                          for one in data['sweep']['targets']],
                         [[one[f'target_{key}'], one[f'net_{end}_W'], one['net_outside_steps'], one['outside_steps'],
                           one['store_least_J'], one['held']] for one in peak['targets']])

    def figures(self, page, summary):
        """The figures of the page, as it says them."""
        text = re.sub(r'\s+', ' ', page.texts['dl'][0])
        end, unit = ('least' if summary['mode'] in (3, 5) else 'most'), ('mA' if summary['mode'] in (4, 5) else 'W')
        measure = summary[f'{end}_{unit}']
        if measure is not None:
            self.assertIn(f'measure{words.thousandths(measure)} {"A" if unit == "mA" else "kW"}at '
                          f'{words.step(summary[f"{end}_step"])}', text)
        if summary[f'net_{end}_W'] is not None:
            self.assertIn(f'net measure{words.thousandths(summary[f"net_{end}_W"])} kWat '
                          f'{words.step(summary[f"net_{end}_step"])}', text)
        outside = summary['outside_steps'] if summary['net_outside_steps'] is None else summary['net_outside_steps']
        self.assertIn(f'the target{outside:,}of {summary["steps"]:,}', text)
        self.assertIn(f'Missing readings{summary["missing_steps"]:,}of {summary["steps"]:,} step', text)
        self.assertIn(f'Losses{words.kwh(summary["loss_J"])} kWh', text)
        unmet = 's?some battery gave' if summary['not_met_steps'] else 'severy battery gave'
        self.assertRegex(text, f'Requests not met{summary["not_met_steps"]:,} step{unmet}')
        if summary['store_least_J'] is not None:
            self.assertIn(f'Lowest store{words.kwh(summary["store_least_J"])} kWhafter '
                          f'{words.step(summary["store_least_step"])}', text)

    def test_examples(self):
        for example in COMPLETE:
            with self.subTest(example=example):
                page, _, summary = self.held(os.path.join(EXAMPLES, example))
                self.figures(page, summary)

    def test_odd_sticks(self):
        for name, data in odd_sticks().items():
            with self.subTest(stick=name):
                page, _, summary = self.held(self.write('odd.stick', data))
                self.figures(page, summary)

    def test_a_year_of_a_large_fleet(self):
        page, data, summary = self.held(self.write('year.stick', year()))
        self.figures(page, summary)
        self.assertEqual((data['steps'], len(data['batteries'])), (8760, 64))
        self.assertLess(os.path.getsize(self.path('page.html')), 4 * 1024 * 1024)

    def test_what_held(self):
        """The figure of the best target, and what is said where there is none."""
        for name, says in (('harvest', 'Lowest target that held150.000 kWof 23 targets tried'),
                           ('roof', 'Highest target that held-35.000 kWof 20 targets tried'),
                           ('dairy', 'Lowest target that heldnoneby current nobody can say')):
            text = Reader(self.make(os.path.join(EXAMPLES, f'{name}.stick'))).texts['dl'][0]
            self.assertIn(says, re.sub(r'\s+', ' ', text))

    def test_tables_have_every_line(self):
        """The tables say what the lines of summary and peak say."""
        path = os.path.join(EXAMPLES, 'roof.stick')
        rows = [row.split() for row in cells(self.make(path))]
        said = words_of('summary', path) + words_of('peak', path)

        def line(name):
            return re.search(rf'^ *{name} +(-?\d.*)$', said, re.MULTILINE).group(1).split()

        for name in ('0', 'fleet'):
            self.assertIn([name.capitalize(), *line(name)], [row[:1] + row[4:] for row in rows])
        self.assertIn(['Roof', *line('roof')], rows)
        for mark in ('held', 'own'):
            # The page also has the steps that are outside by the measure.
            self.assertIn([mark, *line(mark)], [row[:5] + row[6:] for row in rows])


def cells(page):
    """Every row of a page's tables, its cells parted by blanks."""
    return [re.sub(r'<[^>]*>', ' ', row) for row in re.findall(r'<tr.*?</tr>', page)]


class Held(unittest.TestCase):
    """A table that is not the summary's makes no page."""

    def setUp(self):
        path = os.path.join(EXAMPLES, 'mill.stick')
        self.summary = told('summary', path)
        case = Case()
        case.setUp()
        self.addCleanup(case.doCleanups)
        rows = table(path, case.folder)
        self.lines = [','.join(rows[0])] + [','.join(row.values()) for row in rows]

    def read(self, lines):
        told_season = season.Season(self.summary)
        season.take_table(told_season, (line + '\n' for line in lines))
        season.hold(told_season)
        return told_season

    def test_the_right_one_is_taken(self):
        self.assertEqual(self.read(self.lines).steps, 96)

    def test_another_is_not(self):
        wrong = {
            'cut': self.lines[:-1],
            'longer': self.lines + [self.lines[-1]],
            'turned': [self.lines[0], self.lines[2], self.lines[1], *self.lines[3:]],
            'without a column': [line.rsplit(',', 1)[0] for line in self.lines],
            'empty': [],
            'words': [self.lines[0], self.lines[1].replace('0', 'zero'), *self.lines[2:]],
            'more decimals': [self.lines[0], self.lines[1].replace('-0.900', '-0.9000'), *self.lines[2:]],
            'another measure': [line.replace(',63890,', ',63891,') for line in self.lines],
            'another loss': [*self.lines[:-1], re.sub(r'^((?:[^,]*,){6})(\d+)', r'\g<1>1', self.lines[-1])],
            'a missing reading': [line.replace(',29390,', ',missing,') for line in self.lines],
        }
        for name, lines in wrong.items():
            with self.subTest(table=name), self.assertRaises(Failed):
                self.assertNotEqual(lines, self.lines)
                self.read(lines)

    def test_further_columns_do_not_matter(self):
        self.assertEqual(self.read([line + ',1' for line in self.lines]).steps, 96)


if __name__ == '__main__':
    unittest.main()
