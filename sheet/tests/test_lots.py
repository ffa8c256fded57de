"""The plan of examples/two-funds in lots of 5, worked out by hand from document 01 and request 1 of 02, to the cent; and how the
numbers of lots are told.

25 Jan: 3,499 at 50.05 is 69.9: 65 of the bond fund; 5,999 at 100.10 is 59.9: 55 of the equity fund. 26 Jan books the orders.
27 Jan: they trade at the asks. 65 x 50.00 = 3,250.00 and 55 x 102.10 = 5,615.50; cash is 10,000 - 8,865.50 = 1,134.50.
1 Feb: 500 is paid in; cash is 1,634.50. The positions are worth 65 x 50.30 = 3,269.50 and 55 x 97.40 = 5,357.00, each 1 less where
    it is sold: the liquidation value is 1,634.50 + 3,268.50 + 5,356.00 = 10,259.00. 35 % of it is 3,590.65; 321.15 are missing,
    less 1: 320.15 at 50.40 is 6.4, so 5. 60 % is 6,155.40; 798.40 are missing, less 1: 797.40 at 97.60 is 8.2, so 5.
3 Feb: they trade. 5 x 50.25 = 251.25 and 5 x 100.10 = 500.50; cash is 1,634.50 - 751.75 = 882.75.
5 Feb: 882.75 + 70 x 50.05 (3,503.50) + 60 x 102.90 (6,174.00) = 10,560.25.
"""
import datetime
import subprocess
import sys
import unittest

import places
import days
import plan
import sheet
from scenario import lines
from test_explain import EXPLAIN
from test_two_funds import rows, words

# A bid and ask of 2^-40: 2^60 of cash is 2^100 shares.
ROWS = [(0, 2.0 ** -40, 2.0 ** -40, 1)]


def built(**given):
    """The line of the builder in a scenario of this plan."""
    chosen = plan.made([("first_deposit", 1.0), *given.items()])
    made = days.scenario(chosen, plan.schedule(chosen, [datetime.date(2021, 1, 4)]), ["0:TABLE"], {"A": 0}, {"A": 0.5})
    return next(line for line in made if line.startswith("new "))


class Lots(places.Folder):
    def test_two_funds(self):
        files = sheet.rehearse(sheet.arguments([*words(self.to), "--lot", "5"]), places.PROGRAM)
        evenings, figures = rows(files["days.csv"]), rows(files["figures.csv"])[0]
        self.assertEqual([f"{float(day['cash']):.2f}" for day in evenings],
                         ["10000.00"] * 2 + ["1134.50"] * 3 + ["1634.50"] * 2 + ["882.75"] * 3)
        self.assertEqual([figures[name] for name in ("final value", "turnover", "trades", "refused")],
                         ["10560.25", "0.00", "4", "0"])
        self.assertIn("whole lots of 5 shares", files["sheet.txt"])

    def test_scenario(self):
        self.assertEqual(built(lot=1000), "new 65536 lot:1000 / 0:TABLE")
        self.assertEqual(built(cost=("flat", 1.0), lot=10), "new 65536 lot:10 flat:3ff0000000000000 / 0:TABLE")
        self.assertEqual([built(), built(lot=1)], ["new 65536 / 0:TABLE"] * 2)

    def test_values(self):
        self.assertEqual([plan.lot(word) for word in ("1", "10", "0100", "1000000")], [1, 10, 100, 1000000])
        for word in ("0", "1000001", "00000001", "2.5", "-1", "+1", "ten", "", "\u0661", "9" * 5000):
            self.assertIsNone(plan.lot(word), word[:20])

    def test_told(self):
        """17 by a builder, 18 by a walk and by an update, and the lot of a broker."""
        given = [lines.new(8, [], ROWS, lot=1000001), lines.new(8, [], ROWS, lot=1000), lines.amount("deposit", 2.0 ** 60),
                 lines.walk(1, [(0, 0.5)]), lines.update(1, [], [], [(0, 0.5)])]
        text = "\n".join(given) + "\n"
        answers = subprocess.run([places.PROGRAM], input=text, capture_output=True, text=True, check=True).stdout
        command = [sys.executable, "-B", EXPLAIN, self.file("scenario", text), self.file("answers", answers)]
        told = subprocess.run(command, capture_output=True, text=True)
        self.assertEqual((told.returncode, told.stderr), (0, ""))
        self.assertIn("  line  2: a new broker that trades in lots of 1,000; first quotes: symbol 0", told.stdout)
        self.assertIn("Refused with number 17: the lot is outside 1 to 1,000,000.", told.stdout)
        said = "Refused with number 18: the shares of a weight, before rounding, are NaN or too many for the lot."
        self.assertEqual(told.stdout.count(said), 2)


if __name__ == "__main__":
    unittest.main()
