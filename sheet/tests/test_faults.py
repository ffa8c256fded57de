"""What a user may get wrong in the files: each is named by file, line, cause and what to do, and nothing is written."""
import os
import unittest

import places
import sheet
from faults import Faults
from places import PLAN, QUOTES, WEIGHTS


class Bad(places.Folder):
    def sheet(self, **given):
        return sheet.rehearse(sheet.arguments(self.words(**given)), places.PROGRAM)["sheet.txt"]

    def fault(self, words):
        """What is said of a command that is refused; nothing is written."""
        with self.assertRaises(Faults) as caught:
            sheet.rehearse(sheet.arguments(words), places.PROGRAM)
        self.assertFalse(os.path.exists(self.to))
        return caught.exception

    def refused(self, *said, **given):
        """The run is refused with these words."""
        found = self.fault(self.words(**given))
        for words in said:
            self.assertIn(words, str(found))
        return found.sentences

    def test_good(self):
        self.assertIn("final value", self.sheet())

    def test_unknown_security(self):
        self.refused("w.csv, line 4", "'C' has no quote", weights=WEIGHTS + "C,0.1\n")

    def test_no_date(self):
        self.refused("q.csv, line 6", "'2021-02-30' is not a date", quotes=QUOTES + "2021-02-30,A,10,11\n")

    def test_price_not_above_zero(self):
        self.refused("q.csv, line 6", "the bid 0 is not above zero", "the ask -1 is not above zero",
                     quotes=QUOTES + "2021-01-06,A,0,-1\n")

    def test_price_that_is_none(self):
        self.refused("the bid '1,5' is not a decimal number", quotes=QUOTES + '2021-01-06,A,"1,5",2\n')

    def test_price_that_is_too_large(self):
        self.refused("line 6: the ask", "is not a decimal number", quotes=QUOTES + f"2021-01-06,A,1,{'9' * 400}\n")
        large = "9" * 308
        self.refused("too large for the engine's floats", weights="A,0.9\n",
                     plan=f"first deposit = {large}\ndeposit = {large} daily\n")

    def test_twice_on_a_day(self):
        self.refused("q.csv, line 6", "on line 2", quotes=QUOTES + "2021-01-04,A,10,11\n")

    def test_every_bad_row(self):
        found = self.refused(quotes=QUOTES + "x,A,10,11\n2021-01-06,A,0,1\n2021-01-07\n")
        self.assertEqual(len(found), 3)

    def test_too_many_securities(self):
        names = [f"S{n}" for n in range(257)]
        quotes = QUOTES + "".join(f"2021-01-04,{name},1,2\n" for name in names)
        self.refused("names 257 securities", quotes=quotes, weights="security,weight\n" + "".join(f"{name},0.001\n" for name in names))

    def test_weight_twice(self):
        self.refused("w.csv, line 4", "on line 2", weights=WEIGHTS + "A,0.1\n")

    def test_weight_that_is_none(self):
        self.refused("w.csv, line 4", "'ten' is not a decimal number", weights=WEIGHTS + "C,ten\n")
        self.refused("w.csv, line 4", "is below zero", weights=WEIGHTS + "C,-0.1\n")
        self.refused("no weight above zero", weights="A,0\n")

    def test_header_without_a_column(self):
        self.refused("no column ask", quotes="date,security,bid\n2021-01-04,A,1\n")

    def test_no_rows(self):
        self.refused("q.csv: has no rows", quotes="")
        self.refused("q.csv: has no rows", quotes="date,security,bid,ask\n")
        self.refused("w.csv: has no rows", weights="security,weight\n\n")

    def test_quotation_mark_that_is_not_closed(self):
        self.refused("q.csv, line 3", "fewer than four cells", quotes=QUOTES.replace("2021-01-04,B", '2021-01-04,"B'))
        self.refused("q.csv, line 3", "not closed", quotes=QUOTES.replace("2021-01-04,B", '2021-01-04,"B') + "x" * 200000)

    def test_lines_are_counted_over_cells_of_several(self):
        quotes = "date,security,bid,ask,note\n" + '2021-01-04,A,10.00,10.10,"two\nlines"\n2021-01-05,A,ten,10.20,x\n'
        self.refused("q.csv, line 4: the bid 'ten'", quotes=quotes)

    def test_plan_that_is_none(self):
        self.refused("p.txt, line 2", "'fee' is no part of a plan", plan=PLAN + "fee = 3\n")
        self.refused("p.txt, line 2", "has no '='", plan=PLAN + "monthly\n")
        self.refused("'often' is no value of rebalance", plan=PLAN + "rebalance = often\n")
        self.refused("pays nothing in", plan="rebalance = monthly\n")
        self.refused("has 17 costs", plan=PLAN + "cost = flat 1\n" * 17)
        self.refused("p.txt, line 2", "'0' is no value of lot", "from 1 to 1,000,000", plan=PLAN + "lot = 0\n")

    def test_option_that_is_none(self):
        self.assertIn("--deposit: 'much' is no value of it", str(self.fault([*self.words(), "--deposit", "much"])))

    def test_files_that_cannot_be_read(self):
        given = self.words()
        for at, path, said in ((1, "/nowhere.csv", "/nowhere.csv: can't be read (No such file"),
                               (1, self.folder, "can't be read (Is a directory)"),
                               (3, "/nowhere.csv", "/nowhere.csv: can't be read"),
                               (5, "/nowhere.txt", "/nowhere.txt: can't be read")):
            self.assertIn(said, str(self.fault([*given[:at], path, *given[at + 1:]])))

    def test_other_encodings(self):
        latin, wide = self.file("latin.csv", QUOTES.replace("B", "Bücher"), "latin-1"), self.file("wide.csv", QUOTES, "utf-16")
        rest = self.words()[2:]
        self.assertIn("latin.csv, line 3: is not UTF-8 text", str(self.fault(["--quotes", latin, *rest])))
        self.assertIn("wide.csv, line 1: is not UTF-8 text", str(self.fault(["--quotes", wide, *rest])))

    def test_warnings(self):
        self.assertIn("the weights add up to 1;", self.sheet(weights="A,0.5\nB,0.5\n"))
        self.assertIn("write 0.25 for 25 %", self.sheet(weights="A,60\nB,40\n"))
        self.assertIn("more than the account", self.sheet(weights="A,0.9\nB,0.9\n"))
        self.assertIn("has the weight 0", self.sheet(weights="A,0.9\nB,0\n"))
        self.assertIn("line 2: the bid is above the ask", self.sheet(quotes=QUOTES.replace("10.10\n", "9.10\n")))
        self.assertNotIn("note:", self.sheet())

    def test_forms_that_are_read(self):
        """No header, semicolons, line ends of Windows, other order of columns and of days, a byte order mark: the same sheet."""
        first = self.sheet()
        rows = [line.split(",") for line in QUOTES.splitlines()[1:]]
        for text in ("\n".join(QUOTES.splitlines()[1:]) + "\n", QUOTES.replace(",", ";"),
                     "\ufeff" + QUOTES, QUOTES.replace("\n", "\r\n"),
                     QUOTES.replace("\n", "\n\n,,,\n").rstrip(), "".join(reversed(QUOTES.splitlines(True)[1:])),
                     "ask,bid,security,date,note\n" + "".join(f"{d},{c},{b},{a},x\n" for a, b, c, d in rows)):
            self.assertEqual(self.sheet(quotes=text), first)

    def test_quote_lines(self):
        """The engine's own quote lines give the same account; the securities are the symbols' numbers."""
        lines = "0,20210104,4024000000000000,4024333333333333\n0,20210105,4024333333333333,4024666666666666\n"
        self.refused("line 3", "is not a quote line", quotes=lines + "0,20210106,1,2\n", weights="0,0.5\n")
        self.assertEqual(self.sheet(quotes=lines, weights="0,0.5\n"),
                         self.sheet(quotes="2021-01-04,0,10.00,10.10\n2021-01-05,0,10.10,10.20\n", weights="0,0.5\n"))

    def test_refused_orders_are_told(self):
        """1.9 of 1,000 less nothing is 188 of A at 10.10: 1,898.80, and there are 1,000."""
        text = self.sheet(weights="A,1.9\n")
        self.assertIn("2021-01-04  buy of 188 of A: cash does not exceed the cost at the latest ask (number 7)", text)

    def test_refused_payments_are_told(self):
        """All is paid out on the second day, and again on a third, when nothing is left."""
        plan = PLAN + "withdraw = 1000 daily\nrebalance = never\n"
        text = self.sheet(quotes=QUOTES + "2021-01-06,A,10,11\n", plan=plan)
        self.assertIn("2021-01-06  withdraw of 1,000.00: the money could not be paid out (number 12)", text)
        self.assertIn("paid out                      1,000.00", text)


if __name__ == "__main__":
    unittest.main()
