"""The pictures: round ends of axes, few dates, everything inside the frame."""
import datetime
import re
import unittest

import places
import compared
import picture
import svg
from reading import Evening


def evenings(values, first="2021-01-04", apart=1):
    found = []
    for at, value in enumerate(values):
        one = Evening(datetime.date.fromisoformat(first) + datetime.timedelta(days=at * apart))
        one.value = value
        found.append(one)
    return found


def drawn(values, **more):
    return picture.drawn("A title", "euros", evenings(values, **more), [1000.0] * len(values))


class Pictures(unittest.TestCase):
    def test_ends(self):
        for amounts, low, high, step in (([0.0], 0, 1, 1), ([10561.0], 0, 12000, 2000), ([60000.0], 0, 70000, 10000),
                                         ([-38000.0, 9000.0], -40000, 10000, 5000), ([25.0], 0, 30, 5), ([10.0], 0, 11, 1)):
            ends = svg.Ends(amounts)
            self.assertEqual((ends.low, ends.high, ends.step), (low, high, step))
            self.assertLessEqual(len(ends.places()), 13)

    def test_at_most_eight_dates(self):
        for days in range(0, 20000, 7):
            first = datetime.date(2021, 1, 4)
            found = picture.ticks(first, first + datetime.timedelta(days=days))
            self.assertTrue(1 <= len(found) <= 8, days)

    def test_inside_the_frame(self):
        for text in (drawn([1000.0]), drawn([0.0, 0.0]), drawn([1000.0, 0.0, -500.0]), drawn([1e12, 2e12, 3e12], apart=400),
                     drawn([1000.0, 2000.0])):
            points = re.findall(r"([-\d.]+),([-\d.]+)", " ".join(re.findall(r'points="([^"]*)"', text)))
            self.assertGreaterEqual(len(points), 2)
            self.assertTrue(all(svg.across(0) <= float(x) <= svg.across(1) and svg.up(1) <= float(y) <= svg.up(0) for x, y in points))

    def test_labels_are_apart(self):
        ends = re.findall(r'x="848.0" y="([\d.]+)"', drawn([1000.0, 1001.0]))
        self.assertGreaterEqual(abs(float(ends[0]) - float(ends[1])), 15)

    def test_words_are_escaped(self):
        self.assertIn("A &lt;b&gt; &amp; c", picture.drawn("A <b> & c", "euros", evenings([1.0]), [1.0]))

    def test_mixes(self):
        text = compared.drawn([compared.Point("one", 0.05, 0.02), compared.Point("a & b", 0.10, -0.01)], "return a year")
        self.assertIn("<title>a &amp; b: return -1.00%, volatility 10.00%</title>", text)
        self.assertIn(">one</text>", text)
        self.assertIn("0 mixes", compared.drawn([], "return in all"))


if __name__ == "__main__":
    unittest.main()
