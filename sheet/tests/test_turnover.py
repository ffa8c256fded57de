"""Turnover on a sheet: the lesser of what was bought and what was sold (document 02, request 4), worked out by hand.

4 Jan: 10,000 is paid in; half of it is 5,000, which at 100 buys 50. 5 Jan books the order, and on 6 Jan it trades for 5,000.
11 Jan: at 200 the account is 5,000 + 50 x 200 = 15,000; half is 7,500, and 2,500 too much are held: 12.5 at 200, a sale of 12.
    12 Jan books it, and on 13 Jan it trades for 2,400.
18 Jan: at 100 the account is 7,400 + 38 x 100 = 11,200; half is 5,600, and 1,800 are missing: 18. On 20 Jan they trade for 1,800.
25 Jan: at 800 the account is 5,600 + 56 x 800 = 50,400; half is 25,200, and 19,600 too much are held: 24.5, a sale of 24. On 27 Jan
    it trades for 19,200.
"""
import unittest

import places
import sheet
from test_two_funds import rows

# The price of each week, bid and ask alike, over three days.
WEEKS = [((4, 5, 6), 100), ((11, 12, 13), 200), ((18, 19, 20), 100), ((25, 26, 27), 800)]
# Bought 5,000: nothing was sold. Sold 2,400. Bought 6,800, sold 2,400. Sold 21,600, bought 6,800.
TURNOVERS = ["0.00", "2400.00", "2400.00", "6800.00"]


def quotes(weeks):
    return "".join(f"2021-01-{day:02},A,{price},{price}\n" for days, price in weeks for day in days)


class Turnover(places.Folder):
    def files(self, weeks):
        given = self.words(quotes=quotes(weeks), weights="A,0.5\n", plan="first deposit = 10000\nrebalance = weekly\n")
        return sheet.rehearse(sheet.arguments(given), places.PROGRAM)

    def test_lesser_of_the_two(self):
        for count, turnover in enumerate(TURNOVERS, 1):
            found = rows(self.files(WEEKS[:count])["figures.csv"])[0]
            self.assertEqual([found["turnover"], found["trades"]], [turnover, str(count)])

    def test_caption(self):
        self.assertIn("turnover                      6,800.00 euros, the lesser of bought and sold", self.files(WEEKS)["sheet.txt"])


if __name__ == "__main__":
    unittest.main()
