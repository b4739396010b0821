"""The page's colours: seen against the paper, and told apart by those who see fewer of them."""
import itertools
import os
import re
import unittest

from page_sticks import ROOT

# What is beside each other in one chart.
CHARTS = (('measure', 'net', 'target', 'outside'), ('net', 'outside', 'measure'), ('asked', 'net'), ('loss', 'measure'),
          ('sun', 'measure'), ('net', 'target', 'measure'))

# How the three kinds of colour blindness mix linear red, green and blue (Machado, Oliveira and Fernandes, 2009).
BLINDNESS = {
    'none': ((1, 0, 0), (0, 1, 0), (0, 0, 1)),
    'protanopia': ((0.152286, 1.052583, -0.204868), (0.114503, 0.786281, 0.099216), (-0.003882, -0.048116, 1.051998)),
    'deuteranopia': ((0.367322, 0.860646, -0.227968), (0.280085, 0.672501, 0.047413), (-0.011820, 0.042940, 0.968881)),
    'tritanopia': ((1.255528, -0.076749, -0.178779), (-0.078411, 0.930809, 0.147602), (0.004733, 0.691367, 0.303900)),
}


def themes():
    """The variables of the light and of the dark style."""
    with open(os.path.join(ROOT, 'desk/season_page/parts/page.css'), encoding='utf-8') as file:
        style = file.read()
    blocks = re.findall(r':root[^{]*\{([^}]*)\}', style)
    light, dark = (dict(re.findall(r'--([a-z]+): (#[0-9a-f]{6});', block)) for block in blocks[:2])
    return {'light': light, 'dark': {**light, **dark}}


def linear(text):
    values = [int(text[at:at + 2], 16) / 255 for at in (1, 3, 5)]
    return [value / 12.92 if value <= 0.04045 else ((value + 0.055) / 1.055) ** 2.4 for value in values]


def luminance(rgb):
    return 0.2126 * rgb[0] + 0.7152 * rgb[1] + 0.0722 * rgb[2]


def contrast(one, other):
    low, high = sorted((luminance(linear(one)), luminance(linear(other))))
    return (high + 0.05) / (low + 0.05)


def seen(text, matrix):
    return [min(1, max(0, sum(part * value for part, value in zip(row, linear(text))))) for row in matrix]


def lab(rgb):
    """Where a colour is in the space in which a distance of 1 is just seen."""
    to_xyz = ((0.4124, 0.3576, 0.1805), (0.2126, 0.7152, 0.0722), (0.0193, 0.1192, 0.9505))
    xyz = [sum(part * value for part, value in zip(row, rgb)) / white
           for row, white in zip(to_xyz, (0.9505, 1, 1.089))]
    x, y, z = (value ** (1 / 3) if value > 0.008856 else 7.787 * value + 16 / 116 for value in xyz)
    return 116 * y - 16, 500 * (x - y), 200 * (y - z)


class Colours(unittest.TestCase):
    def test_text_is_read(self):
        for name, theme in themes().items():
            for text, behind in itertools.product(('text', 'quiet', 'link'), ('paper', 'panel')):
                self.assertGreaterEqual(contrast(theme[text], theme[behind]), 4.5, (name, text, behind))

    def test_lines_are_seen(self):
        for name, theme in themes().items():
            for line in ('measure', 'net', 'target', 'missing', 'outside', 'loss', 'sun', 'axis'):
                self.assertGreaterEqual(contrast(theme[line], theme['paper']), 3, (name, line))
            # A broad line may be fainter.
            self.assertGreaterEqual(contrast(theme['asked'], theme['paper']), 2.5, name)

    def test_colour_blind_people_tell_them_apart(self):
        for name, theme in themes().items():
            for kind, matrix in BLINDNESS.items():
                for chart in CHARTS:
                    for one, other in itertools.combinations(chart, 2):
                        first, second = (lab(seen(theme[key], matrix)) for key in (one, other))
                        distance = sum((a - b) ** 2 for a, b in zip(first, second)) ** 0.5
                        self.assertGreaterEqual(distance, 15, (name, kind, one, other))


if __name__ == '__main__':
    unittest.main()
