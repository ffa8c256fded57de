"""A plan's days: when is paid and rebalanced, by dates picked so that a wrong period shows; and how securities are numbered."""
import datetime
import unittest

import places
import days
import plan


def schedule(dates, *pairs):
    """The plan's days on these dates, by (name, value) pairs."""
    return plan.schedule(plan.made(pairs), [datetime.date.fromisoformat(date) for date in dates])


def rebalanced(rhythm, *dates):
    """The dates on which the weights are followed."""
    return [str(day.date) for day in schedule(dates, ("first_deposit", 1.0), ("rebalance", rhythm)) if day.rebalance]


class Days(unittest.TestCase):
    def test_rhythms(self):
        for rhythm, dates, due in (
                ("daily", ["2021-01-04", "2021-01-05", "2021-01-08"], [0, 1, 2]),
                # Friday and Monday; a week that spans two years; the same week's number a year later.
                ("weekly", ["2020-12-28", "2021-01-01", "2021-01-04", "2021-01-08", "2022-01-03"], [0, 2, 4]),
                ("monthly", ["2021-01-29", "2021-02-01", "2021-02-26", "2022-02-01"], [0, 1, 3]),
                # The quarters end with March, June, September and December.
                ("quarterly", ["2021-01-29", "2021-03-31", "2021-04-01", "2021-06-30", "2021-07-01", "2022-07-01"], [0, 2, 4, 5]),
                ("yearly", ["2021-01-29", "2021-12-31", "2022-01-03"], [0, 2]),
                ("never", ["2021-01-29", "2022-01-03"], [])):
            self.assertEqual(rebalanced(rhythm, *dates), [dates[at] for at in due], rhythm)

    def test_payments(self):
        dates = ["2021-01-29", "2021-02-01", "2021-02-02", "2021-03-01"]
        found = schedule(dates, ("first_deposit", 20000.0), ("deposit", (500.0, "monthly")), ("withdraw", (100.0, "monthly")))
        self.assertEqual([day.deposit for day in found], [20000.0, 500.0, 0.0, 500.0])
        self.assertEqual([day.withdraw for day in found], [0.0, 100.0, 0.0, 100.0])

    def test_no_first_deposit(self):
        found = schedule(["2021-01-29", "2021-02-01"], ("deposit", (500.0, "monthly")))
        self.assertEqual([day.deposit for day in found], [500.0, 500.0])

    def test_the_later_pair_counts(self):
        found = schedule(["2021-01-29"], ("first_deposit", 1.0), ("first_deposit", 2.0))
        self.assertEqual(found[0].deposit, 2.0)


class Numbers(unittest.TestCase):
    def test_order_of_names(self):
        # Whole numbers by size, then other names by their letters; a raised 2 is no whole number.
        self.assertEqual(days.numbers(["b", "10", "a", "9", "\u00b2"]), {"9": 0, "10": 1, "a": 2, "b": 3, "\u00b2": 4})

    def test_log(self):
        # 128 rebalancings of 256 securities are 32,768 orders, twice 65,536.
        found = schedule([str(datetime.date(2021, 1, 1) + datetime.timedelta(days=n)) for n in range(129)],
                         ("first_deposit", 1.0), ("rebalance", "daily"))
        self.assertEqual([days.log_rows(found[:128], 256), days.log_rows(found, 256)], [65536, 1048576])


if __name__ == "__main__":
    unittest.main()
