"""bench.py ROUNDS [NAME..]: run every scenario of the benchmark (or those named) on every engine, in turn, and print the table.

Run in the repository, with the engines built. The time of the timed calls is what each engine tells by `clock`; of a whole run it is the processor time. What the
Rattle program answers must equal, line by line and bit by bit, what the Rust with ordered maps answers: every call's answer and the
final state. The Rust as published walks its maps in random order, so its sums' last bits and its trades' order may differ; whether
its holdings, bases and set of trades are the same is told.
Ends with a status other than 0 where an engine is missing, fails, answers otherwise, or tells more time than it had on the processor.
"""
import hashlib
import os
import pathlib
import resource
import signal
import subprocess
import sys
import time

import scenarios
import table

WORK = pathlib.Path("target/bench")
ENGINES = {
    "rehearse": os.environ.get("REHEARSE", "target/bin/rehearse"),
    "unchanged": "target/oracle/unchanged",
    "mended": "target/oracle/mended",
    "bent": "target/oracle/bent",
    "bent_mended": "target/oracle/bent_mended",
}
STACK = 100000 * 1024
ORDERED = ("bent", "bent_mended")
# Lines of the state that have no sum over symbols and no number given in the order of sending.
UNORDERED = ("held", "pending", "latest", "basis", "trades", "waiting")


def children_time():
    """Seconds of processor time of the engines run so far."""
    used = resource.getrusage(resource.RUSAGE_CHILDREN)
    return used.ru_utime + used.ru_stime


def wide_stack():
    """A stack that holds the Rattle program's large log."""
    resource.setrlimit(resource.RLIMIT_STACK, (STACK, resource.getrlimit(resource.RLIMIT_STACK)[1]))


class Run:
    """What one engine did with one scenario in one round."""

    def __init__(self, name, engine):
        self.answers = WORK / f"{name}.{engine}.answers"
        with open(WORK / f"{name}.txt") as given, open(self.answers, "w") as out:
            self.seconds, self.processor = -time.monotonic(), -children_time()
            words = [ENGINES[engine]] + (["large"] if engine == "rehearse" else [])
            subprocess.run(words, stdin=given, stdout=out, check=True, preexec_fn=wide_stack)
            self.seconds, self.processor = self.seconds + time.monotonic(), self.processor + children_time()
        self.calls = self.microseconds = self.clocks = 0
        self.digest, self.unordered = hashlib.sha256(), hashlib.sha256()
        with open(self.answers) as lines:
            for line in lines:
                self.take(line)
        self.digest, self.unordered = self.digest.digest(), self.unordered.digest()

    def take(self, line):
        """Read a clock, or add a line to what is compared: all as it stands, and parts of the state in any order."""
        words = line.split(" ", 4)
        if words[1] == "clock":
            self.clocks += 1
            if self.clocks % 2 == 0:
                self.calls += int(words[2])
                self.microseconds += int(words[3])
            return
        self.digest.update(line.encode())
        if line.startswith(" ") and words[1].strip() in UNORDERED:
            self.unordered.update(" ".join(sorted(line.split())).encode())

    def per_call(self):
        return self.microseconds / self.calls

    def off_processor(self):
        """The part of the run in which the engine waited for a processor."""
        return max(0.0, 1 - self.processor / self.seconds)


def timed_lines(name):
    """How many calls a scenario has between its odd and even clocks."""
    inside, count = False, 0
    with open(WORK / f"{name}.txt") as lines:
        for line in lines:
            if line == "clock\n":
                inside = not inside
            else:
                count += inside
    return count


def first_difference(one, other):
    """The first lines that differ, clocks apart, cut to what fits a screen."""
    with open(one) as a, open(other) as b:
        for x, y in zip(a, b):
            if x != y and " clock " not in x:
                return f"  {one}: {x[:160].rstrip()}\n  {other}: {y[:160].rstrip()}"
    return f"  {one} and {other} have different lengths"


def round_of(name, engines):
    """One round of a scenario: the runs by engine; the ordered Rust must agree with the Rattle program."""
    runs = {engine: Run(name, engine) for engine in engines}
    for engine, run in runs.items():
        if run.calls != timed_lines(name):
            sys.exit(f"{name}: {engine} counted {run.calls} calls, not {timed_lines(name)}")
        # On a busy machine a clock that goes on while the engine waits makes that engine look slower than it is.
        if run.microseconds > run.processor * 1e6:
            sys.exit(f"{name}: {engine} tells {run.microseconds} µs, but had {run.processor * 1e6:.0f} µs of processor time:"
                     " its clock is not one of processor time, and the figures cannot be compared")
        if engine in ORDERED and run.digest != runs["rehearse"].digest:
            sys.exit(f"{name}: {engine} answers otherwise\n{first_difference(runs['rehearse'].answers, run.answers)}")
    return runs


def measured(rounds, names):
    """By scenario: a list over the rounds of the runs by engine. The engine that starts changes from round to round."""
    found = {name: [] for name in names}
    engines = list(ENGINES)
    for number in range(rounds):
        order = engines[number % len(engines):] + engines[:number % len(engines)]
        for name in names:
            found[name].append(round_of(name, order))
            print(f"round {number + 1} of {rounds}: {name}", file=sys.stderr)
    return found


def main(rounds, *names):
    missing = [path for path in ENGINES.values() if not pathlib.Path(path).exists()]
    if missing:
        sys.exit(f"not built: {' '.join(missing)}")
    WORK.mkdir(parents=True, exist_ok=True)
    made = scenarios.SCENARIOS | scenarios.WHOLE
    names = names or tuple(made)
    for name in names:
        with open(WORK / f"{name}.txt", "w") as out:
            out.writelines(line + "\n" for line in made[name][2]())
    found = measured(int(rounds), names)
    text = table.markdown(found) + "\n" + table.notes(found, ENGINES["rehearse"])
    (WORK / "table.md").write_text(text)
    (WORK / "rounds.csv").write_text(table.rounds(found))
    print(text, end="")


if __name__ == "__main__":
    # Told to end, it ends the engine that it runs too.
    signal.signal(signal.SIGTERM, signal.default_int_handler)
    try:
        main(*sys.argv[1:])
    except KeyboardInterrupt:
        sys.exit("stopped")
