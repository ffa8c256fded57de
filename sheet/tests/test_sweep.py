"""Many mixes: the quotes made ready give each mix the scenario of its own sheet; what failed is named, and a sweep that was
interrupted and resumed gives the table of one that was not."""
import os
import shutil
import signal
import subprocess
import time
import unittest

import places
import sheet
from places import QUOTES, text_of

SWEEP = os.path.join(places.ROOT, "examples", "sweep.sh")
THREE = QUOTES + "2021-01-05,C,30.00,30.10\n2021-01-06,C,31.00,31.10\n2021-01-07,A,10.20,10.30\n2021-01-08,A,10.30,10.40\n"


class Ready(places.Folder):
    def scenario(self, *source, weights):
        words = [*source, "--weights", weights, "--first-deposit", "1000", "--to", self.to]
        return sheet.rehearse(sheet.arguments(words), places.PROGRAM)["scenario.txt"]

    def test_a_mix_has_the_scenario_of_its_own_sheet(self):
        quotes, ready = self.file("q.csv", THREE), os.path.join(self.folder, "ready")
        mixes = [self.file("all.csv", "A,0.3\nB,0.3\nC,0.3\n"), self.file("some.csv", "C,0.4\nB,0.4\n"),
                 self.file("one.csv", "C,0.9\n")]
        sheet.prepare(sheet.arguments(["--quotes", quotes, "--weights", *mixes, "--prepare", ready]))
        for mix in mixes:
            self.assertEqual(self.scenario("--prepared", ready, weights=mix), self.scenario("--quotes", quotes, weights=mix))

    def test_a_bad_mix_is_passed_over(self):
        quotes, ready = self.file("q.csv", THREE), os.path.join(self.folder, "ready")
        mixes = [self.file("good.csv", "A,0.3\n"), self.file("bad.csv", "Z,0.3\n")]
        sheet.prepare(sheet.arguments(["--quotes", quotes, "--weights", *mixes, "--prepare", ready]))
        self.assertIn("# name 0 A", text_of(ready))


@unittest.skipUnless(shutil.which("parallel"), "GNU parallel is not there")
class Sweep(places.Folder):
    def command(self, to, mixes):
        plan = self.file("a plan.txt", "first deposit = 1000\nrebalance = daily\n")
        return [SWEEP, "--quotes", self.file("q.csv", THREE), "--plan", plan, "--to", os.path.join(self.folder, to), *mixes]

    def start(self, command):
        return subprocess.Popen(command, stdout=subprocess.PIPE, stderr=subprocess.PIPE, text=True, start_new_session=True,
                                env={**os.environ, "REHEARSE": places.PROGRAM})

    def swept(self, command):
        """A whole sweep: status, what was printed, what was said on standard error."""
        process = self.start(command)
        return (*process.communicate(timeout=120), process.returncode)

    def mixes(self, count):
        return [self.file(f"mix {n}.csv", f"A,0.{n:02}\nB,0.3\nC,0.2\n") for n in range(1, count + 1)]

    def done(self, log):
        """The mixes that a log has as run to their end: its first column counts the list's lines, two have status and signal."""
        rows = [line.split("\t") for line in text_of(log).splitlines()[1:]]
        return [f"mix {row[0]}" for row in rows if row[6:8] == ["0", "0"]]

    def joined(self, to):
        return [text_of(self.folder, to, name) for name in ("mixes.csv", "mixes.svg")]

    def test_interrupted_and_resumed(self):
        mixes = self.mixes(24)
        self.assertEqual(self.swept(self.command("whole", mixes))[1:], ("", 0))
        process, log = self.start(self.command("parts", mixes)), os.path.join(self.folder, "parts", "joblog")
        while not os.path.exists(log) or len(text_of(log).splitlines()) < 4:
            time.sleep(0.01)
        os.kill(process.pid, signal.SIGINT)
        process.wait(timeout=60)
        self.assertEqual(places.commands_with(self.folder), [])
        self.assertIn("stopped", process.communicate()[1])
        self.assertLess(len(text_of(log).splitlines()), 25)
        self.assertFalse(os.path.exists(os.path.join(self.folder, "parts", "mixes.csv")))
        done = [os.path.join(self.folder, "parts", "sheets", name, "sheet.txt") for name in self.done(log)]
        before = [os.stat(path).st_mtime_ns for path in done]
        self.assertGreaterEqual(len(done), 3)
        self.assertEqual(self.swept(self.command("parts", mixes))[1:], ("", 0))
        self.assertEqual(self.joined("parts"), self.joined("whole"))
        self.assertEqual(len(self.joined("whole")[0].splitlines()), 25)
        self.assertEqual([os.stat(path).st_mtime_ns for path in done], before)

    def test_a_mix_that_fails(self):
        mixes = [*self.mixes(2), self.file("bad.csv", "Z,0.3\n")]
        out, said, status = self.swept(self.command("out", mixes))
        self.assertEqual(status, 1)
        self.assertIn("2 of 3 mixes", out)
        self.assertEqual(said, f"no sheet of bad: {mixes[2]}, line 1: 'Z' has no quote in any line of the quotes; "
                               "correct the name, or add its quotes\n")
        self.assertEqual([line.partition(",")[0] for line in self.joined("out")[0].splitlines()], ["mix", "mix 1", "mix 2"])

    def test_another_sweep_in_the_folder(self):
        mixes = self.mixes(2)
        self.assertEqual(self.swept(self.command("out", mixes))[2], 0)
        self.file("mix 1.csv", "A,0.5\n")
        _, said, status = self.swept(self.command("out", mixes))
        self.assertEqual(status, 1)
        self.assertIn("has a sweep of other mixes, quotes or plan", said)

    def test_names_that_come_twice(self):
        _, said, status = self.swept(self.command("out", [*self.mixes(1), *self.mixes(1)]))
        self.assertEqual(status, 1)
        self.assertIn("give the files different names", said)


if __name__ == "__main__":
    unittest.main()
