"""Compares the engine with the Rust and with document 01's model: generates scenarios from a seed, runs both
programs on them, and says what was compared and whether there is a difference; holds the program `quotes` to
lines.py; then sees that the lying engines of liars.py are refused. Exit status 1 where there is a difference, a
lying engine passes, or no damaged line was malformed for one of the reasons."""

import argparse
import os
import sys
import time
from collections import Counter

ROOT = os.path.dirname(os.path.dirname(os.path.abspath(__file__)))
# Nothing is written beside the sources; tools/ has the shared package.
sys.dont_write_bytecode = True
sys.path.insert(0, os.path.join(ROOT, "tools"))

import corrections
import damage
import deletions
import differences
import ends
import exhaustive
import forms
import judge
import liars
import lines as quote_lines
import programs
import scenarios
import shorten
import table
import turnovers
from play import Due

FOLDER = os.path.join(ROOT, "target", "compare")
CHUNK = 15000
MOST = 5
FULL = Due((), (), False, None, b"full full")


def options():
    parser = argparse.ArgumentParser(description=__doc__)
    parser.add_argument("--seed", type=int, default=1)
    parser.add_argument("--calls", type=int, default=1000000, help="calls to compare with the bent Rust")
    parser.add_argument("--single-calls", type=int, default=None, help="with the unchanged Rust; a tenth if not given")
    parser.add_argument("--lot-calls", type=int, default=None, help="in scenarios with lots; a tenth if not given")
    parser.add_argument("--damaged", type=int, default=None, help="damaged lines; a twentieth if not given")
    parser.add_argument("--texts", type=int, default=quote_lines.TEXTS, help="texts of quote lines")
    parser.add_argument("--log-rows", type=int, default=65536, help="the rows that the engine's log has")
    parser.add_argument("--liars", action="store_true", help="try the lying engines and nothing else")
    parser.add_argument("--driver", action="store_true",
                        help="hold the Rust's driver to forms.py on damaged lines and nothing else; needs no engine")
    parser.add_argument("--engine", default=os.path.join(ROOT, "target", "bin", "rehearse"))
    parser.add_argument("--quotes", default=quote_lines.PROGRAM)
    parser.add_argument("--oracle", default=os.path.join(ROOT, "target", "oracle", "bent"))
    parser.add_argument("--unchanged", default=os.path.join(ROOT, "target", "oracle", "unchanged"))
    return parser.parse_args()


def chunk(source):
    """Some scenarios as one run of lines with what is due; each starts with `full`."""
    lines, due, starts = [], [], []
    for name, play in source:
        starts.append((len(lines), name, play.model))
        lines += ["full"] + play.lines
        due += [FULL] + play.due
        if len(lines) >= CHUNK:
            break
    return lines, due, starts


class Comparison:
    """One engine beside one oracle, chunk by chunk. A difference is a Fault of the judge; `crashed` says that a
    program ended or answered too little."""

    def __init__(self, engine, oracle, label, most=MOST, cut=True):
        self.engine, self.oracle, self.label = engine, oracle, label
        self.most, self.cut = most, cut
        self.tally = judge.Tally()
        self.faults = []
        self.crashed = False

    def run(self, source, calls=None):
        """Compares so many more calls, or, where no count is given, all that the source has."""
        before = self.tally.calls()
        while (calls is None or self.tally.calls() < before + calls) and len(self.faults) < self.most:
            lines, due, starts = chunk(source)
            if not lines:
                return
            text = ("\n".join(lines) + "\n").encode()
            try:
                one = judge.blocks(programs.answers(self.engine, text))
                other = judge.blocks(programs.answers(self.oracle, text))
            except programs.Crash:
                one = other = []
            if len(one) == len(other) == len(lines):
                self.judge(lines, due, starts, one, other)
            else:
                self.find_crash(lines, starts)

    def judge(self, lines, due, starts, one, other):
        ends = [start for start, _name, _model in starts[1:]] + [len(lines)]
        for (start, name, model), end in zip(starts, ends):
            parts = [rows[start:end] for rows in (lines, due, one, other)]
            try:
                judge.judge_lines(judge.Judge(self.tally), *parts, start)
            except judge.Fault as fault:
                self.fault(name, parts[0], "%s, at `%s`" % (fault.what, parts[0][fault.at][:60]))
            self.count(name, model, parts[1])
            if len(self.faults) >= self.most:
                return

    def count(self, name, model, due):
        facts = self.tally.facts
        self.tally.scenarios[name] += 1
        facts["scenarios"] += 1
        facts["trades"] += len(model.trades)
        facts["failed"] += model.failed
        facts["silent"] += sum(len(one.silent) for one in due)

    def find_crash(self, lines, starts):
        """Runs scenario by scenario to find the one at which a program ends or answers too little."""
        self.crashed = True
        ends = [start for start, _name, _model in starts[1:]] + [len(lines)]
        for (start, name, _model), end in zip(starts, ends):
            found = shorten.fault(lines[start:end], self.engine, self.oracle)
            if found is not None:
                return self.fault(name, lines[start:end], found[1])
        self.faults.append("a program fails on scenarios that pass one by one")

    def fault(self, name, lines, what):
        if self.cut:
            title = "%s-%d-%s" % (self.label, len(self.faults) + 1, name)
            what += "; cut down: " + shorten.report(FOLDER, title, lines, self.engine, self.oracle)
        self.faults.append(what)


def damaged_driver(given, lines):
    """How many of these lines were met, by reason, and the first fault of the Rust's driver, or None."""
    met, fault = damage.check_driver(given.oracle, lines)
    return met, None if fault is None else "the Rust's driver, " + fault


def damaged_both(given, lines):
    """The same of the engine, and where it has no fault of the driver."""
    met, fault = damage.check(given.engine, given.oracle, lines, given.log_rows)
    if fault is None:
        return met, damaged_driver(given, lines)[1]
    still = damage.well_formed(lines, given.log_rows)
    return met, "%s; without the malformed lines: %s" % (
        fault, shorten.report(FOLDER, "damaged", still, given.engine, given.oracle))


def compare_damaged(given, check):
    """The first fault in damaged lines, or else the reasons for which none of them was malformed."""
    count = given.calls // 20 if given.damaged is None else given.damaged
    source, met, fault = damage.texts(given.seed + 2), Counter(), None
    while sum(met.values()) < count and fault is None:
        try:
            found, fault = check(given, next(source))
        except programs.Crash as crash:
            found, fault = Counter(), str(crash)
        met += found
    table.damaged(met, forms.REASONS)
    if fault is not None:
        return [fault]
    return ["no damaged line was malformed for the reason `%s`" % why for why in (forms.unmet(met) if count else [])]


def try_liars(given):
    """The lying engines that are not refused for what they say; the honest filter must pass."""
    faults = []
    print("== lying engines (%d calls each)" % liars.CALLS)
    for name, (what, _lie) in liars.LIARS.items():
        tried = Comparison(liars.command(name, given.engine), given.oracle, name, most=1, cut=False)
        tried.run(scenarios.scenarios(given.seed), liars.CALLS)
        refused = bool(tried.faults) and not tried.crashed
        print("%-16s %s" % (name, what))
        print("  " + (tried.faults[0] if tried.faults else "no difference"))
        if refused == (name == liars.HONEST) or tried.crashed:
            faults.append("the lying engine %s is not told apart" % name)
    return faults


def compare_main(given):
    """The engine beside the bent Rust: every short scenario, deletions from a full book, turnovers, corrected quotes, then
    random ones."""
    part = Comparison(given.engine, given.oracle, "bent")
    part.run(exhaustive.scenarios())
    part.run(deletions.scenarios())
    part.run(turnovers.scenarios())
    part.run(corrections.scenarios())
    part.run(scenarios.scenarios(given.seed), given.calls)
    table.summary("the engine beside the Rust, bent (seed %d)" % given.seed, part.tally)
    return part.faults


def compare_single(given):
    calls = given.calls // 10 if given.single_calls is None else given.single_calls
    part = Comparison(given.engine, given.unchanged, "unchanged")
    part.run(deletions.single_scenarios())
    part.run(turnovers.scenarios())
    part.run(corrections.scenarios(single=True))
    part.run(scenarios.single_scenarios(given.seed + 1), calls)
    table.summary("the engine beside the unchanged Rust", part.tally)
    return part.faults


def enough(source, calls):
    """Scenarios of this source until they have so many calls."""
    while calls > 0:
        name, play = next(source)
        calls -= len(play.lines)
        yield name, play


def compare_lots(given):
    """The engine beside the model on scenarios with lots; at lot 1 beside the bent Rust too."""
    calls = given.calls // 10 if given.lot_calls is None else given.lot_calls
    part = Comparison(given.engine, given.oracle, "lots")
    part.run(enough(scenarios.lot_scenarios(given.seed + 3), calls))
    table.summary("the engine with lots", part.tally)
    return part.faults


def compare(given):
    """The faults of all the parts."""
    started = time.time()
    faults = compare_main(given) + compare_single(given) + compare_lots(given) + compare_damaged(given, damaged_both)
    meant = differences.check(given)
    print("== meant differences\n%d scenarios, %d not as written" % (differences.count(), len(meant)))
    wrong = ends.check(given.engine)
    print("== how runs end\n%d ends, %d not as written" % (ends.count(), len(wrong)))
    quoted = quote_lines.check(given.quotes, given.seed, given.texts)
    ordered = corrections.check(given.engine)
    faults += meant + wrong + quoted + ordered + try_liars(given)
    print("Took %d seconds." % (time.time() - started))
    return faults


def needed(given):
    """The programs that are run."""
    if given.driver:
        return [given.oracle]
    return [given.engine, given.oracle, given.unchanged] + ([] if given.liars else [given.quotes])


def main():
    given = options()
    for path in needed(given):
        if not os.access(path, os.X_OK):
            sys.exit("There is no program at %s." % path)
    if given.driver:
        faults = compare_damaged(given, damaged_driver)
    else:
        faults = try_liars(given) if given.liars else compare(given)
    for fault in faults:
        print("difference: " + fault)
    print("no difference" if not faults else "%d differences" % len(faults))
    sys.exit(1 if faults else 0)


if __name__ == "__main__":
    main()
