"""Numbers and names as people read them."""
import re
import unittest

from page_sticks import COMPLETE, EXAMPLES, told, words_of
from season_page import words


class Words(unittest.TestCase):
    def test_numbers(self):
        self.assertEqual(words.thousandths(0), '0.000')
        self.assertEqual(words.thousandths(-413), '-0.413')
        self.assertEqual(words.thousandths(-1234567), '-1,234.567')
        self.assertEqual(words.kwh(1799), '0.000')
        self.assertEqual(words.kwh(1800), '0.001')
        self.assertEqual(words.kwh(2 ** 70), '327,942,116,865,947.584')
        self.assertEqual(words.hours(68400), '19.000')

    def test_steps_as_files_and_as_people_count(self):
        rows = {0: '1st', 1: '2nd', 2: '3rd', 3: '4th', 10: '11th', 11: '12th', 12: '13th', 20: '21st', 110: '111th',
                611: '612th', 1001: '1,002nd', 65534: '65,535th'}
        for step, row in rows.items():
            self.assertEqual(words.step(step), f'step {step:,}, the {row} row')

    def test_how_long_it_lasts(self):
        self.assertEqual(words.lasting(0), '0 s')
        self.assertEqual(words.lasting(86400), '1 day')
        self.assertEqual(words.lasting(2 * 86400 + 1800), '2 days 30 min')
        self.assertEqual(words.lasting(3661), '1 h 1 min 1 s')

    def test_names_are_one_line_that_can_be_seen(self):
        for name, seen in ((b'a.stick', 'a.stick'), (b'a\nb', 'a\\u{A}b'), (b'\xff\xfe', '\\xff\\xfe'),
                           ('h\u00f6f'.encode(), 'h\u00f6f'), ('a\u202egpj'.encode(), 'a\\u{202E}gpj'),
                           (b'</script>', '</script>'), (b'\x1b[2J', '\\u{1B}[2J')):
            self.assertEqual(words.name_shown(name), seen)

    def test_they_are_the_words_of_the_import_tool(self):
        """Every number that the tool says to people of its figures is written in the same way here."""
        for example in COMPLETE:
            with self.subTest(example=example):
                path = f'{EXAMPLES}/{example}'
                said, summary = re.sub(r'\s+', ' ', words_of('summary', path)), told('summary', path)
                self.assertIn(f'lowest store {words.kwh(summary["store_least_J"])} kWh after '
                              f'{words.step(summary["store_least_step"])}', said)
                self.assertIn(f'losses {words.kwh(summary["loss_J"])} kWh', said)
                most = summary.get('most_W', summary.get('most_mA'))
                self.assertIn(f'largest {words.thousandths(most)} ', said)
                self.assertIn(f'at {words.step(summary["most_step"])}', said)
                self.assertIn(words.lasting(summary['seconds'] * summary['steps']), said)
                self.assertIn(words.MODES[summary['mode']][0], said)


if __name__ == '__main__':
    unittest.main()
