"""Where the tests find the sheet's modules, the examples and the program; a folder of small files for each test; which processes
run."""
import glob
import os
import sys
import tempfile
import unittest

ROOT = os.path.dirname(os.path.dirname(os.path.dirname(os.path.abspath(__file__))))
for folder in ("sheet", "tools"):
    sys.path.insert(0, os.path.join(ROOT, folder))
PROGRAM = os.environ.get("REHEARSE") or os.path.join(ROOT, "target", "bin", "rehearse")
TWO_FUNDS = os.path.join(ROOT, "examples", "two-funds")

QUOTES = """\
date,security,bid,ask
2021-01-04,A,10.00,10.10
2021-01-04,B,20.00,20.10
2021-01-05,A,10.10,10.20
2021-01-05,B,20.10,20.20
"""
WEIGHTS = "security,weight\nA,0.5\nB,0.4\n"
PLAN = "first deposit = 1000\n"


def text_of(*parts):
    """A file's text as it stands: line ends are kept."""
    with open(os.path.join(*parts), encoding="utf-8", newline="") as file:
        return file.read()


def commands_with(words):
    """The commands of running processes in which these words stand."""
    found = []
    for path in glob.glob("/proc/[0-9]*/cmdline"):
        try:
            found.append(text_of(path).replace("\0", " "))
        except OSError:
            pass
    return [command for command in found if words in command]


class Folder(unittest.TestCase):
    """A test with a folder of its own; `to` is where its sheets go."""

    def setUp(self):
        holder = tempfile.TemporaryDirectory()
        self.addCleanup(holder.cleanup)
        self.folder, self.to = holder.name, os.path.join(holder.name, "out")

    def file(self, name, text, encoding="utf-8"):
        path = os.path.join(self.folder, name)
        with open(path, "w", encoding=encoding, newline="") as file:
            file.write(text)
        return path

    def words(self, quotes=QUOTES, weights=WEIGHTS, plan=PLAN):
        """The words of a command for these texts."""
        return ["--quotes", self.file("q.csv", quotes), "--weights", self.file("w.csv", weights),
                "--plan", self.file("p.txt", plan), "--to", self.to]
