"""`rt run` in a program's folder, told in a line for each crate while it is proved: which it is of how many, and how long it took
last time.

rt proves what has changed in the program and in the crates below it, each after those that it uses, builds the program and runs it,
here on no input. The program is put into target/bin, all that was said into target/build.out, and the seconds that each crate took
are kept in target/build.times.
"""
import filecmp
import os
import re
import shutil
import sys
import time

import group

ROOT = os.path.dirname(os.path.dirname(os.path.abspath(__file__)))
TARGET = os.path.join(ROOT, "target")
OUT, TIMES = os.path.join(TARGET, "build.out"), os.path.join(TARGET, "build.times")
# What is said of a crate when its proof begins, of each of its items, and when all of it is proved.
AT_WORK = re.compile(rb"rt: chose --jobs \d+ for (\w+)$|(?:fn|struct|enum|impl) (\w+)::")
PROVED = b"logic=proved "
# Where another rt is at work on the same, this one waits for it.
WAITS = re.compile(rb"rt: .*waiting for")
# What is said of items and libraries that are proved.
COUNTED = re.compile(r"so far: |logic |statements |library |crate |axioms |only=|rt: chose |.*: proved$")


def uses():
    """The crates that each crate uses, by crates.txt."""
    with open(os.path.join(ROOT, "crates.txt"), encoding="utf-8") as file:
        rows = (line.partition("#")[0].partition(":") for line in file)
        return {name.split()[0]: rest.split() for name, colon, rest in rows if colon}


def reached(crate, used, before=()):
    """The repository's crates, with those `before`: this one and what it uses, each after those that it uses itself, as rt goes."""
    found = [*before]
    if crate in used and crate not in found:
        for name in used[crate]:
            found = reached(name, used, found)
        found.append(crate)
    return found


def lines_of(path):
    try:
        with open(path, encoding="utf-8", errors="replace") as file:
            return file.read().splitlines()
    except OSError:
        return []


class Told:
    """What is said on standard error while rt runs, and what is kept of its output."""

    def __init__(self, crates, out):
        self.crates, self.out, self.rest = crates, out, b""
        self.times = dict(line.split() for line in lines_of(TIMES))
        self.at_work, self.began = None, time.monotonic()

    def heard(self, piece):
        """A piece of rt's output, or nothing, after a silence."""
        self.out.write(piece)
        self.out.flush()
        *lines, self.rest = (self.rest + piece).split(b"\n")
        for line in lines:
            match = AT_WORK.match(line)
            if match:
                self.begins((match[1] or match[2]).decode())
            elif line.startswith(PROVED):
                self.ends()
            elif WAITS.match(line):
                print(line.decode(errors="replace"), file=sys.stderr, flush=True)

    def begins(self, crate):
        if crate == self.at_work or crate not in self.crates:
            return
        self.at_work, self.began = crate, time.monotonic()
        before = f" ({self.times[crate]} s last time)" if crate in self.times else ""
        place = self.crates.index(crate) + 1
        print(f"proving {place} of {len(self.crates)}: {crate}{before}", file=sys.stderr, flush=True)

    def ends(self):
        if self.at_work:
            self.times[self.at_work] = f"{time.monotonic() - self.began:.0f}"

    def keep_times(self):
        with open(TIMES, "w", encoding="utf-8") as file:
            file.writelines(f"{crate} {seconds}\n" for crate, seconds in self.times.items())


def unproved(lines):
    """What was said behind the last crate that is proved, without what is counted there."""
    said = []
    for line in lines:
        said = [] if line.startswith(PROVED.decode()) else [*said, line]
    return [line for line in said if not COUNTED.match(line)]


def put(crate, folder):
    """Puts the built program into target/bin, at once, since it may be running there."""
    built, place = os.path.join(folder, "out", crate), os.path.join(TARGET, "bin", crate)
    if os.path.exists(place) and filecmp.cmp(built, place, shallow=False):
        return
    os.makedirs(os.path.dirname(place), exist_ok=True)
    shutil.copy2(built, place + ".new")
    os.replace(place + ".new", place)


def build(crate):
    """Runs rt, and says what it said of a crate that is not proved; answers its status."""
    os.makedirs(TARGET, exist_ok=True)
    folder = os.path.join(ROOT, "crates", crate)
    with open(OUT, "wb") as out:
        told = Told(reached(crate, uses()), out)
        try:
            status = group.run(["rt", "run"], told.heard, folder)
        finally:
            told.keep_times()
    if status:
        ended = f"rt run in crates/{crate} ended with status {status}; all that it said is in target/build.out"
        print(*unproved(lines_of(OUT)), ended, sep="\n", file=sys.stderr)
    else:
        put(crate, folder)
    return status
