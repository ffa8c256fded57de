"""The figures on small made-up evenings, each worked out by hand."""
import datetime
import unittest

import places
import amounts
import figures
from reading import Evening


def evenings(*rows):
    """Evenings of (date, value, paid in on the day)."""
    found = []
    for date, value, flow in rows:
        one = Evening(datetime.date.fromisoformat(date))
        one.value, one.deposit = value, flow
        found.append(one)
    return found


def of(*rows):
    return figures.Figures(evenings(*rows), 0.0, 0)


class Figures(unittest.TestCase):
    def test_a_payment_is_no_return(self):
        # 100, then 100 more: the value doubles, and nothing was earned.
        found = of(("2021-01-01", 100.0, 100.0), ("2021-01-02", 200.0, 100.0))
        self.assertEqual((found.in_all, found.paid_in), (0.0, 200.0))

    def test_two_years(self):
        # 100 became 121 in 731 days: 1.21 to the power 365.25 / 731, about 9.99 %.
        self.assertAlmostEqual(of(("2020-01-01", 100.0, 100.0), ("2022-01-01", 121.0, 0.0)).a_year, 0.0999, places=4)

    def test_less_than_a_year(self):
        self.assertIsNone(of(("2021-01-01", 100.0, 100.0), ("2021-12-31", 121.0, 0.0)).a_year)
        self.assertIsNotNone(of(("2021-01-01", 100.0, 100.0), ("2022-01-01", 121.0, 0.0)).a_year)

    def test_no_return_from_nothing(self):
        found = of(("2021-01-01", 0.0, 0.0), ("2021-01-02", 100.0, 100.0), ("2021-01-03", 110.0, 0.0))
        self.assertEqual(found.index[:2], [1.0, 1.0])
        self.assertAlmostEqual(found.in_all, 0.1)

    def test_all_is_lost(self):
        # A debt is no more than all: the index stays at nothing, also where money is paid in again.
        found = of(("2020-01-01", 100.0, 100.0), ("2020-01-02", -20.0, 0.0), ("2021-01-04", 80.0, 100.0), ("2021-01-05", 88.0, 0.0))
        self.assertEqual(found.index, [1.0, 0.0, 0.0, 0.0])
        self.assertEqual((found.in_all, found.a_year, found.fall.part, str(found.fall.until)), (-1.0, -1.0, 1.0, "2020-01-02"))

    def test_volatility(self):
        # Returns of 10 % and -10 %: the mean is 0, the sum of squares 0.02, over 1; its root times the root of 252 is 2.2450.
        rows = [("2021-01-01", 100.0, 100.0), ("2021-01-02", 110.0, 0.0), ("2021-01-03", 99.0, 0.0)]
        self.assertAlmostEqual(of(*rows).volatility, 2.2450, places=4)
        self.assertIsNone(of(*rows[:2]).volatility)

    def test_first_of_equal_falls(self):
        fall = of(("2021-01-01", 100.0, 100.0), ("2021-01-02", 100.0, 0.0), ("2021-01-03", 50.0, 0.0), ("2021-01-04", 100.0, 0.0),
                  ("2021-01-05", 50.0, 0.0)).fall
        self.assertEqual((fall.part, str(fall.since), str(fall.until)), (0.5, "2021-01-01", "2021-01-03"))

    def test_no_fall(self):
        self.assertIsNone(of(("2021-01-01", 100.0, 100.0), ("2021-01-02", 101.0, 0.0)).fall)

    def test_month_ends(self):
        rows = evenings(("2021-01-29", 1.0, 0.0), ("2021-02-01", 1.0, 0.0), ("2021-02-26", 1.0, 0.0), ("2022-02-01", 1.0, 0.0))
        self.assertEqual([str(e.date) for e in figures.month_ends(rows)], ["2021-01-29", "2021-02-26", "2022-02-01"])


class Written(unittest.TestCase):
    def test_amounts(self):
        self.assertEqual([amounts.quantity(x) for x in (71.0, 1234567.0, 0.5, 12.34567)], ["71", "1,234,567", "0.5", "12.3457"])
        self.assertEqual([amounts.price(x) for x in (102.9, 12345.67, 7.0, 0.123456)], ["102.90", "12,345.67", "7.00", "0.123456"])


if __name__ == "__main__":
    unittest.main()
