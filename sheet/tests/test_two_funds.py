"""The plan of examples/two-funds, worked out by hand from document 01, to the cent.

25 Jan: 10,000 is paid in. 35 % is 3,500, less the flat 1: 3,499 at 50.05 buys 69 of the bond fund; 60 % is 6,000, less 1: 5,999 at
    100.10 buys 59 of the equity fund. 26 Jan books the orders.
27 Jan: they trade at the asks. 69 x 50.00 = 3,450.00 and 59 x 102.10 = 6,023.90; cash is 10,000 - 9,473.90 = 526.10.
1 Feb: 500 is paid in; cash is 1,026.10. The positions are worth 69 x 50.30 = 3,470.70 and 59 x 97.40 = 5,746.60, each 1 less where
    it is sold: the liquidation value is 1,026.10 + 3,469.70 + 5,745.60 = 10,241.40. 35 % of it is 3,584.49; 113.79 are missing,
    less 1: 112.79 at 50.40 buys 2. 60 % is 6,144.84; 398.24 are missing, less 1: 397.24 at 97.60 buys 4.
3 Feb: they trade. 2 x 50.25 = 100.50 and 4 x 100.10 = 400.40; cash is 1,026.10 - 500.90 = 525.20.
"""
import csv
import io
import math
import os
import statistics
import tempfile
import unittest
from fractions import Fraction

import places
import sheet

# The evenings' values: cash, then bond fund and equity fund at their bids.
VALUES = [
    "10000.00",  # 25 Jan, all cash
    "10000.00",  # 26 Jan, all cash
    "9981.30",  # 526.10 + 69 x 49.90 (3,443.10) + 59 x 101.90 (6,012.10)
    "9932.65",  # 526.10 + 69 x 50.05 (3,453.45) + 59 x 100.90 (5,953.10)
    "9825.00",  # 526.10 + 69 x 50.20 (3,463.80) + 59 x 98.90 (5,835.10)
    "10243.40",  # 1,026.10 + 69 x 50.30 (3,470.70) + 59 x 97.40 (5,746.60)
    "10298.95",  # 1,026.10 + 69 x 50.25 (3,467.25) + 59 x 98.40 (5,805.60)
    "10379.55",  # 525.20 + 71 x 50.15 (3,560.65) + 63 x 99.90 (6,293.70)
    "10470.50",  # 525.20 + 71 x 50.10 (3,557.10) + 63 x 101.40 (6,388.20)
    "10561.45",  # 525.20 + 71 x 50.05 (3,553.55) + 63 x 102.90 (6,482.70)
]
CASH = ["10000.00"] * 2 + ["526.10"] * 3 + ["1026.10"] * 2 + ["525.20"] * 3
TRADES = [0, 0, 2, 2, 2, 2, 2, 4, 4, 4]
# 1 Feb without the 500 that were paid in: 9,743.40.
LATER = ["10000.00", "9981.30", "9932.65", "9825.00", "9743.40", "10298.95", "10379.55", "10470.50", "10561.45"]
RETURNS = [Fraction(after) / Fraction(before) - 1 for before, after in zip(VALUES, LATER)]


RECORDED = "# A plan over ten days in two funds"


def words(folder):
    return ["--quotes", os.path.join(places.TWO_FUNDS, "quotes.csv"), "--weights", os.path.join(places.TWO_FUNDS, "weights.csv"),
            "--plan", os.path.join(places.TWO_FUNDS, "plan.txt"), "--to", folder]


def rows(text):
    return list(csv.DictReader(io.StringIO(text)))


def recorded_lines(name):
    """The lines of a file of the recording; a carriage return is part of its line."""
    return places.text_of(places.ROOT, "crates", "rehearse", name).split("\n")


def recorded_block():
    """The plan's lines of crates/rehearse/stdin, and the number of the first one."""
    given = recorded_lines("stdin")
    first = next(at for at, line in enumerate(given) if line.startswith(RECORDED)) + 1
    return given[first:given.index("state", first) + 1], first + 1


def without_numbers(answers):
    """Answers and states but for the numbers of the answered lines."""
    return [line if line.startswith(" ") else line.partition(" ")[2] for line in answers]


class TwoFunds(unittest.TestCase):
    @classmethod
    def setUpClass(cls):
        holder = tempfile.TemporaryDirectory()
        cls.addClassCleanup(holder.cleanup)
        cls.folder = holder.name
        cls.files = sheet.rehearse(sheet.arguments(words(cls.folder)), places.PROGRAM)
        cls.text, cls.days = cls.files["sheet.txt"], rows(cls.files["days.csv"])
        cls.figures = rows(cls.files["figures.csv"])[0]

    def test_every_evening(self):
        self.assertEqual([f"{float(day['value']):.2f}" for day in self.days], VALUES)
        self.assertEqual([f"{float(day['cash']):.2f}" for day in self.days], CASH)
        self.assertEqual([int(day["trades"]) for day in self.days], TRADES)

    def test_return_in_all(self):
        exact = math.prod(1 + rate for rate in RETURNS)
        self.assertAlmostEqual(float(self.days[-1]["index"]), float(exact), places=12)
        self.assertEqual(self.figures["return in all"], f"{float(exact - 1):.6f}")
        self.assertIn("time-weighted return in all   0.46%", self.text)

    def test_no_year(self):
        self.assertEqual(self.figures["return a year"], "")
        self.assertIn("time-weighted return a year   none", self.text)

    def test_volatility(self):
        exact = statistics.stdev(map(float, RETURNS)) * math.sqrt(252)
        self.assertEqual(self.figures["volatility a year"], f"{exact:.6f}")
        self.assertIn(f"volatility a year             {exact:.2%}", self.text)

    def test_largest_fall(self):
        # From the 1 of 25 January to 0.97434 on 1 February: 9,743.40 of 10,000.
        self.assertEqual([self.figures[name] for name in ("largest fall", "fall from", "fall to")],
                         ["0.025660", "2021-01-25", "2021-02-01"])
        self.assertIn("2.57%, from 2021-01-25 to 2021-02-01", self.text)

    def test_the_sheet(self):
        # Turnover: nothing was sold. Cost basis of the bond fund: 3,550.50 / 71; of the equity fund: 6,424.30 / 63.
        for said in ("10,561.45 euros on 2021-02-05", "10,500.00 euros", "0.00 euros, the lesser of bought and sold", "50.01", "101.97", "not taken from cash"):
            self.assertIn(said, self.text)
        self.assertEqual([self.figures[name] for name in ("final value", "paid in", "paid out", "turnover", "trades", "refused")],
                         ["10561.45", "10500.00", "0.00", "0.00", "4", "0"])

    def test_written(self):
        self.assertEqual(sorted(os.listdir(self.folder)), sorted(self.files))
        for name, text in self.files.items():
            self.assertEqual(places.text_of(self.folder, name), text)
        self.assertIn("Two funds, ten days", self.files["curve.svg"])

    def test_the_scenario_is_the_recorded_one(self):
        made = [line for line in self.files["scenario.txt"].splitlines() if not line.startswith("#")]
        self.assertEqual(made, recorded_block()[0])

    def test_the_answers_are_the_recorded_ones(self):
        (block, first), recorded = recorded_block(), recorded_lines("stdout")
        start = next(at for at, line in enumerate(recorded) if line.startswith(f"{first} "))
        answers = self.files["answers.txt"].splitlines()
        self.assertEqual(without_numbers(answers), without_numbers(recorded[start:start + len(answers)]))
        self.assertEqual(sum(not line.startswith(" ") for line in answers), len(block))


if __name__ == "__main__":
    unittest.main()
