"""Columns as the page holds them."""
import base64
import random
import unittest

from page_sticks import ROOT  # noqa: F401: it makes the package known
from season_page.packed import MOST, pack, unpack


class Packed(unittest.TestCase):
    def test_what_is_packed_comes_back(self):
        for column in ([], [0], [0, 0, 0], [5], [-5], [5, 5, 5, -5], [1, 2, 3], [0, 1, 0, 0, 2],
                       [64, -64, 63, 127, 128, -8192], [MOST // 4, -(MOST // 4 - 1), 0]):
            with self.subTest(column=column):
                self.assertEqual(unpack(pack(column)), column)

    def test_any_numbers_come_back(self):
        chance = random.Random(7)
        for _ in range(300):
            size = 10 ** chance.randint(0, 15)
            column = [chance.choice([0, size, chance.randint(-size, size)]) for _ in range(chance.randint(0, 60))]
            self.assertEqual(unpack(pack(column)), column)

    def test_a_column_that_stays_the_same_is_short(self):
        self.assertLess(len(pack([10 ** 13] * 65535)), 30)

    def test_the_bytes_are_those_that_the_words_say(self):
        self.assertEqual(base64.b64decode(pack([1, 0, 0, 0, -1, 63])), bytes([2, 1, 0, 1, 1, 0x80, 1]))

    def test_what_a_page_cannot_hold_is_refused(self):
        for column in ([MOST], [-MOST], [MOST - 1, 0, -MOST + 1], [MOST // 2 - 1, -(MOST // 2)]):
            with self.subTest(column=column), self.assertRaises(ValueError):
                pack(column)


if __name__ == '__main__':
    unittest.main()
