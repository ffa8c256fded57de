"""examples/explain.py tells every event of an update and of a list of orders, also where states are not written, and the rows and
numbers of corrected quotes."""
import os
import subprocess
import sys
import unittest

import places
from scenario import lines

EXPLAIN = os.path.join(places.ROOT, "examples", "explain.py")
# Bid 99 and ask 100; 1,000 is there.
TABLE = [(0, 99.0, 100.0, 1), (1, 99.0, 100.0, 1)]
SCENARIO = [lines.new(16, [], TABLE), lines.amount("deposit", 1000.0), lines.update(2, TABLE, TABLE, [(0, 0.5), (1, 2.0)]), "quiet",
            lines.send_list(2, [("mb", 0, 1.0, None), ("lb", 0, 1.0, 100.0)]), lines.walk(2, [(0, 0.5)]), "nonsense"]
TOLD = """\
           Done: the account's value is 1,000.00, and 2 orders were sent.
             market buy of 5 of symbol 0: taken
             market buy of 20 of symbol 1: refused with number 7, cash does not exceed the cost at the latest ask
  line  4: quiet
           Quiet.
  line  5: send 2 orders
           Done: 2 orders were sent.
             market buy of 1 of symbol 0: taken
             limit buy of 1 of symbol 0 at 100.00: refused with number 6, a limit or stop order cannot be sent through the broker
  line  6: orders for 0.5 of symbol 0, listed and not sent
           Done: 1 orders are listed.
             market buy of 5 of symbol 0
  line  7: nonsense
           Malformed at word 1: unknown call."""

# A correction of the first row and a row of another symbol; two rows alike; and more rows than are taken.
ROWS = [(7, 99.0, 100.0, 5, 0), (3, 49.0, 50.0, 4, 0), (7, 98.0, 101.0, 5, 1)]
CORRECTIONS = [lines.correct(256, ROWS), lines.correct(256, ROWS + ROWS[:1]), lines.correct(256, ROWS[:1] * 1025)]
CORRECTED = """\
  line  1: a table from 3 of the vendor's rows
           Done: the table has 2 rows.
             symbol 3 at 49.00 / 50.00, date 4
             symbol 7 at 98.00 / 101.00, date 5
  line  2: a table from 4 of the vendor's rows
           Refused with number 21: two of the vendor's rows are alike in symbol, date and revision.
  line  3: a table from 1025 of the vendor's rows
           Refused with number 22: there are more than 1,024 of the vendor's rows."""


class Explained(places.Folder):
    def told(self, scenario):
        text = "\n".join(scenario) + "\n"
        answers = subprocess.run([places.PROGRAM], input=text, capture_output=True, text=True, check=True).stdout
        command = [sys.executable, "-B", EXPLAIN, self.file("scenario", text), self.file("answers", answers)]
        return subprocess.run(command, capture_output=True, text=True)

    def test_every_event(self):
        told = self.told(SCENARIO)
        self.assertIn(TOLD, told.stdout)
        self.assertEqual((told.returncode, told.stderr), (1, ""))
        self.assertIn("7 answers, 1 not as expected", told.stdout)

    def test_corrections(self):
        told = self.told(CORRECTIONS)
        self.assertIn(CORRECTED, told.stdout)
        self.assertEqual((told.returncode, told.stderr), (0, ""))


if __name__ == "__main__":
    unittest.main()
