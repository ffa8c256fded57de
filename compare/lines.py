"""Quote lines (document 02, request 2): a reader and a writer written from the paper alone, and some thousand texts, good and
damaged, through the program `quotes`, which must print what they say, byte for byte. First come the recorded texts of
quote-lines.txt. Exit status 1 where there is a difference.

lines.py [--seed N] [--texts N] [--program PATH]; QUOTES names another build of the program, too."""

import argparse
import itertools
import os
import re
import subprocess
import sys
import tempfile
import time
from collections import Counter

ROOT = os.path.dirname(os.path.dirname(os.path.abspath(__file__)))
# Nothing is written beside the sources; tools/ has the shared package.
sys.dont_write_bytecode = True
sys.path.insert(0, os.path.join(ROOT, "tools"))

import line_texts
import programs
import shorten
from scenario import floats

FOLDER = os.path.join(ROOT, "target", "compare")
PROGRAM = os.path.join(ROOT, "target", "bin", "quotes")
TEXTS = 4000
LINE = re.compile(rb"(0|[1-9][0-9]*),(0|-?[1-9][0-9]*),([0-9a-f]{16}),([0-9a-f]{16})")
NUMBERS = (0, 1, 2, 3, 19, 20)
SECONDS = 60


# ---- reading and writing

def row(line):
    """The row that a line says, without its newline, or None. A symbol of more than three digits is 256."""
    found = LINE.fullmatch(line)
    if found is None:
        return None
    symbol, date, bid, ask = (field.decode() for field in found.groups())
    # Python reads no number of many thousand digits.
    if len(date) > 20 or not -2**63 <= int(date) < 2**63:
        return None
    return int(symbol) if len(symbol) < 4 else 256, int(date), floats.number(bid), floats.number(ask)


def is_price(x):
    return floats.finite(x) and x > 0.0


def fault(found, least):
    """The number that a line draws, or 0; `least` is the least symbol that ascends."""
    if found is None:
        return 19
    symbol, _date, bid, ask = found
    if symbol > 255:
        return 1
    if not (is_price(bid) and is_price(ask)):
        return 2
    return 3 if symbol < least else 0


def read(text):
    """The number that a text draws, or 0, and the rows that are read."""
    if len(text) > 65536:
        return 20, []
    *lines, rest = text.split(b"\n")
    rows = []
    for line in lines:
        found = row(line)
        number = fault(found, rows[-1][0] + 1 if rows else 0)
        if number:
            return number, []
        rows.append(found)
    return (19, []) if rest else (0, rows)


def write(rows):
    """The text of a table."""
    return b"".join(b"%d,%d,%s,%s\n" % (symbol, date, floats.text(bid).encode(), floats.text(ask).encode())
                    for symbol, date, bid, ask in rows)


def printed(number, rows):
    """What the program prints for a text that reads so."""
    return b"%d\n" % number if number else write(rows)


# ---- the program beside it

def shown(data):
    return "%d bytes, %r" % (len(data), data[:200] + (b" ... " + data[-100:] if len(data) > 300 else data[200:]))


def said(program, text):
    """What the program prints, or how it failed."""
    try:
        return programs.answers(program, text, SECONDS)
    except programs.Crash as crash:
        return str(crash).encode()


def shorter(program, text):
    """The text with lines left out, as long as the program's answer is wrong."""
    lines, at = text.splitlines(keepends=True), 0
    while at < len(lines) and len(lines) > 1:
        rest = b"".join(lines[:at] + lines[at + 1:])
        if said(program, rest) != printed(*read(rest)):
            del lines[at]
        else:
            at += 1
    return b"".join(lines)


def difference(program, text):
    """What is told of a text that is answered otherwise; it is kept whole in target/compare/."""
    if len(text) <= 20000:
        text = shorter(program, text)
    path = shorten.written(FOLDER, "quote-lines.txt", text)
    return "the text %s (%s)\n  wanted: %s\n  got:    %s" % (
        shown(text), path, shown(printed(*read(text))), shown(said(program, text)))


def mistaken(text, due, number, rows):
    """What is wrong with the reader and the writer here, by the number that a text draws as it was made, or None."""
    if due not in (None, number):
        return "%d is due by how the text was made, the reader here has %d: %s" % (due, number, shown(text))
    if number == 0 and write(rows) != text:
        return "the writer here has another text: %s" % shown(text)
    return None


def in_pieces(program, text, size):
    """What the program prints where its input comes over a pipe piece by piece, or how it failed."""
    with subprocess.Popen([program], bufsize=0, stdin=subprocess.PIPE, stdout=subprocess.PIPE) as running:
        try:
            for at in range(0, len(text), size):
                running.stdin.write(text[at:at + size])
                time.sleep(0.002)
            return running.communicate(timeout=SECONDS)[0]
        except (BrokenPipeError, subprocess.TimeoutExpired) as failure:
            running.kill()
            return str(failure).encode()


def from_folder(program):
    """What the program prints where its input can't be read, or how it failed."""
    with tempfile.TemporaryDirectory() as folder:
        place = os.open(folder, os.O_RDONLY)
        try:
            return subprocess.run([program], stdin=place, stdout=subprocess.PIPE, timeout=SECONDS).stdout
        except subprocess.TimeoutExpired as failure:
            return str(failure).encode()
        finally:
            os.close(place)


def check_inputs(program, seed):
    """What is wrong where the input comes in pieces, or can't be read, which counts as its end."""
    faults = []
    for kind, text, _due in itertools.islice(line_texts.texts(seed), len(line_texts.KINDS)):
        # No more than the program takes, so that it is there for the last piece.
        text = text[:65537]
        wanted, got = printed(*read(text)), in_pieces(program, text, len(text) // 3 + 1)
        if got != wanted:
            faults.append("quote lines, `%s`, in pieces: %s is due, there is %s" % (kind, shown(wanted), shown(got)))
    got = from_folder(program)
    return faults + (["quote lines, a folder as the input: nothing is due, there is %s" % shown(got)] if got else [])


def check_texts(program, seed, count):
    """How many texts drew which number, by kind, 0 for those printed unchanged; and the first difference, in a list."""
    met = Counter()
    recorded = (("recorded", text, due) for _line, text, due in line_texts.recorded())
    for kind, text, due in itertools.chain(recorded, itertools.islice(line_texts.texts(seed), count)):
        number, rows = read(text)
        wrong = mistaken(text, due, number, rows)
        if wrong is None and said(program, text) != printed(number, rows):
            wrong = difference(program, text)
        if wrong is not None:
            return met, ["quote lines, `%s`: %s" % (kind, wrong)]
        met[kind, number] += 1
    return met, []


def summary(met, seed):
    """The numbers drawn, by kind; `-` is none: printed unchanged."""
    print("== quote lines (seed %d)\n%d texts; %d were printed unchanged, %s" % (
        seed, sum(met.values()), sum(count for (_kind, number), count in met.items() if number == 0),
        ", ".join("%d drew %d" % (sum(count for (_kind, other), count in met.items() if other == number), number)
                  for number in NUMBERS[1:])))
    print("  %-36s" % "" + "".join("%7s" % (number or "-") for number in NUMBERS))
    for kind in dict.fromkeys(kind for kind, _number in met):
        print("  %-36s" % kind + "".join("%7d" % met[kind, number] for number in NUMBERS))


def check(program, seed, count):
    """Prints what was met; the faults, the first difference of a text alone."""
    met, faults = check_texts(program, seed, count)
    summary(met, seed)
    return faults or check_inputs(program, seed)


def options():
    parser = argparse.ArgumentParser(description=__doc__)
    parser.add_argument("--seed", type=int, default=1)
    parser.add_argument("--texts", type=int, default=TEXTS, help="beside the recorded ones")
    parser.add_argument("--program", default=os.environ.get("QUOTES") or PROGRAM)
    return parser.parse_args()


def main():
    given = options()
    if not os.access(given.program, os.X_OK):
        sys.exit("There is no program at %s." % given.program)
    started = time.time()
    faults = check(given.program, given.seed, given.texts)
    print("Took %d seconds." % (time.time() - started))
    for one in faults:
        print("difference: " + one)
    print("no difference" if not faults else "%d differences" % len(faults))
    sys.exit(1 if faults else 0)


if __name__ == "__main__":
    main()
