"""Records the answers that the gate replays: runs the engine and the Rust on crates/rehearse/stdin and
writes crates/rehearse/stdout, and the lists at the end of docs/RECORDED.md. A line's answer is the Rust's
until an added number is due, the Rust panics or a lot is not 1; from there to the next `new` it rests on document
01 alone, by model.py, which the engine must equal on every line. Which lines are malformed, and why, is said by
forms.py. Exit status 1 where the engine differs from one of them, where a reason has no malformed line, or, with
--check, where the files are not what would be written."""

import argparse
import os
import sys

ROOT = os.path.dirname(os.path.dirname(os.path.abspath(__file__)))
# Nothing is written beside the sources; tools/ has the shared package.
sys.dont_write_bytecode = True
sys.path.insert(0, os.path.join(ROOT, "tools"))

import forms
import judge
import programs
import table
from reread import reread

INPUT = os.path.join(ROOT, "crates", "rehearse", "stdin")
OUTPUT = os.path.join(ROOT, "crates", "rehearse", "stdout")
PAPER = os.path.join(ROOT, "docs", "RECORDED.md")
HEADING = "## Which line draws which number\n"
# The rows of the log of a program that is started without arguments.
LOG_ROWS = 65536
# The Rust's driver answers these by itself, also where the comparison has stopped.
OWN_WORDS = ("quiet", "full", "correct")


class Recording:
    """The output; the lines that are the oracle's and those that are the model's; who draws what."""

    def __init__(self):
        self.output = b""
        self.oracle, self.model = [], []
        self.drawn, self.silent = {}, {}

    def add(self, number, block, decided):
        self.output += block + b"\n"
        (self.oracle if decided else self.model).append(number)

    def note(self, number, verb, due):
        for drawn in sorted(set(due.drawn)):
            self.drawn.setdefault(drawn, {}).setdefault(verb, []).append(number)
        for drawn in sorted({n for n in due.silent if n != "unquoted"}):
            self.silent.setdefault(drawn, []).append(number)


def run(program, lines):
    """A program's answers to these lines, by number."""
    numbers = [number for number, _line, _why in forms.answered(lines, LOG_ROWS)]
    blocks = judge.blocks(programs.answers(program, b"\n".join(lines)))
    if len(blocks) != len(numbers):
        raise judge.Difference("%s answers %d lines of %d" % (program, len(blocks), len(numbers)))
    return dict(zip(numbers, blocks))


def for_driver(lines):
    """The lines, with a comment for each whose LOG only the engine refuses: the Rust's driver takes any WHOLE."""
    own = {number: why for number, _line, why in forms.answered(lines, forms.DRIVER_ROWS)}
    given = list(lines)
    for number, _line, why in forms.answered(lines, LOG_ROWS):
        if why != own[number]:
            given[number - 1] = b"#"
    return given


def has_every_reason(found):
    """Raises Difference where no line is malformed for one of the reasons: an editor may have mended line ends."""
    unmet = forms.unmet({why.partition(b" ")[2] for _number, _line, why in found if why is not None})
    if unmet:
        raise judge.Difference("no line of stdin is malformed for the reason `%s`" % "`, `".join(unmet))


def record(text, engine, oracle):
    """The recording; raises Difference where the engine differs from forms.py, the oracle or the model."""
    lines = text.split(b"\n")
    found = forms.answered(lines, LOG_ROWS)
    has_every_reason(found)
    ones, others = run(engine, lines), run(oracle, for_driver(lines))
    recording = Recording()
    judging = judge.Judge(judge.Tally())
    dues = iter(reread([line.decode() for _number, line, why in found if why is None]).due)
    for number, line, why in found:
        # To a line that the driver is not given there is the engine's answer alone.
        one, other, decided = ones[number], others.get(number, ones[number]), True
        if why is None:
            decided = judged(recording, judging, number, line.decode(), next(dues), one, other)
        elif one != b"%d malformed %s" % (number, why):
            raise judge.Difference("line %d: `malformed %s` is due" % (number, why.decode()))
        if decided and one != other:
            raise judge.Difference("line %d: the answers or states differ" % number)
        recording.add(number, one, decided)
    return recording


def judged(recording, judging, number, line, due, one, other):
    """Does the oracle decide the answer to this line? The engine's is compared with the model's anyway."""
    verb = line.split()[0]
    try:
        judging.line(line, due, judge.said(one, number), judge.said(other, number))
    except judge.Difference as difference:
        raise judge.Difference("line %d: %s" % (number, difference))
    recording.note(number, verb, due)
    return judging.stopped is None or verb in OWN_WORDS


def ranges(numbers):
    """Line numbers as text, runs of them shortened."""
    runs = []
    for number in numbers:
        if runs and runs[-1][1] == number - 1:
            runs[-1][1] = number
        else:
            runs.append([number, number])
    return ", ".join(str(a) if a == b else "%d to %d" % (a, b) for a, b in runs)


def verb_place(item):
    return table.KINDS.index(item[0])


def lists(recording):
    """The generated end of the paper."""
    rows = [HEADING, "| number | line of stdin, by call | unreported, in a liquidation |", "|---|---|---|"]
    for number in sorted(recording.drawn):
        calls = sorted(recording.drawn[number].items(), key=verb_place)
        by_call = "; ".join("`%s` %s" % (verb, ranges(at)) for verb, at in calls)
        rows.append("| %d | %s | %s |" % (number, by_call, ranges(recording.silent.get(number, []))))
    rows += ["", "## Lines that rest on document 01 alone", "",
             "%d of %d answered lines:" % (len(recording.model), len(recording.model + recording.oracle)), "",
             ranges(recording.model) + ".", ""]
    return "\n".join(rows)


def files(recording):
    """What the two files are to hold."""
    with open(PAPER, encoding="utf-8") as paper:
        head = paper.read().split(HEADING)[0]
    return [(OUTPUT, recording.output), (PAPER, (head + lists(recording)).encode())]


def stale(path, content):
    """Is the file missing, or other than this?"""
    if not os.path.exists(path):
        return True
    with open(path, "rb") as there:
        return there.read() != content


def options():
    parser = argparse.ArgumentParser(description=__doc__)
    parser.add_argument("--check", action="store_true", help="write nothing, say whether the files are right")
    parser.add_argument("--engine", default=os.path.join(ROOT, "target", "bin", "rehearse"))
    parser.add_argument("--oracle", default=os.path.join(ROOT, "target", "oracle", "bent"))
    return parser.parse_args()


def main():
    given = options()
    for path in (given.engine, given.oracle):
        if not os.access(path, os.X_OK):
            sys.exit("There is no program at %s." % path)
    with open(INPUT, "rb") as text:
        try:
            recording = record(text.read(), given.engine, given.oracle)
        except (judge.Difference, programs.Crash) as fault:
            sys.exit("not recorded: %s" % fault)
    print("%d lines are the oracle's, %d rest on document 01 alone" % (len(recording.oracle), len(recording.model)))
    wrong = [(path, content) for path, content in files(recording) if stale(path, content)]
    for path, content in wrong:
        print("%s %s" % (os.path.relpath(path, ROOT), "is not as recorded" if given.check else "is written"))
        if not given.check:
            with open(path, "wb") as out:
                out.write(content)
    if given.check:
        print("the files are as recorded" if not wrong else "the files are not as recorded")
        sys.exit(1 if wrong else 0)


if __name__ == "__main__":
    main()
