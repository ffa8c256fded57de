"""Records what the gate gives the program `quote_checks`, and what it must print: crates/quote_checks/stdin has the recorded
texts of quote-lines.txt, with lists of several sizes lent, and crates/quote_checks/stdout the answers of the reader and the
writer of lines.py. The program is not run. Its first comment says the form of both files. With --check nothing is written,
and the exit status is 1 where the files are not what would be written.

line_records.py [--check]"""

import argparse
import os
import sys

ROOT = os.path.dirname(os.path.dirname(os.path.abspath(__file__)))
# Nothing is written beside the sources; tools/ has the shared package.
sys.dont_write_bytecode = True
sys.path.insert(0, os.path.join(ROOT, "tools"))

import line_texts
import lines
from record import stale

FOLDER = os.path.join(ROOT, "crates", "quote_checks")
# The rows and bytes that are lent, by a record's first byte.
LENT = {b"r": (256, 15104), b"s": (255, 15104), b"w": (256, 15103), b"l": (257, 15105)}
END = b"\x1e"
ROOM = 65536
# Recorded texts that are longer are left out, so that all records have room.
LONGEST = 1000
LINE = b"7,-1,3ff0000000000000,4000000000000000\n"


# ---- what is given

def full_table():
    """All 256 symbols, with the longest lines."""
    return lines.write([(symbol, -2**63, 1.0, 2.0) for symbol in range(256)])


def records():
    """The first byte and the text of each record."""
    texts = [text for _line, text, _due in line_texts.recorded() if len(text) <= LONGEST]
    # A good text, the empty one, a bad one, and one that is bad behind a good line.
    others = [LINE, b"", LINE[:-1], LINE + LINE]
    return ([(b"r", text) for text in texts] + [(how, text) for how in (b"s", b"w", b"l") for text in others]
            + [(how, full_table()) for how in (b"r", b"w")])


def two_rows():
    """The tables that are not read: rows that do not ascend, a symbol of 256, a bid of zero."""
    return [[(7, -1, 1.0, 2.0), second] for second in ((7, -1, 1.0, 2.0), (256, -1, 1.0, 2.0), (8, -1, 0.0, 2.0))]


# ---- what is to be printed

def rows_fault(rows):
    """The number that the rows of a table draw, or 0."""
    least = 0
    for row in rows:
        number = lines.fault(row, least)
        if number:
            return number
        least = row[0] + 1
    return 0


def written(rows, room):
    """The writer's answer, for a buffer of `room` bytes."""
    number = 15 if room < 15104 else rows_fault(rows)
    text = b"" if number else lines.write(rows)
    return b"%d %d %d\n%s" % (number, len(text), room - len(text), text)


def answered(text, rows_lent, bytes_lent):
    """The reader's answer, and the writer's where the text draws no number."""
    number, rows = (15, []) if rows_lent < 256 else lines.read(text)
    answer = b"%d %d %d\n" % (number, len(rows), len(rows))
    return answer if number else answer + written(rows, bytes_lent)


def output():
    """What the program prints: the records' answers, and those that need no record."""
    long = b"0" * (ROOM + 1)
    answers = [answered(text, *LENT[how]) for how, text in records()]
    answers += [answered(long, 256, 15104), answered(long[:-1], 256, 15104), answered(long, 255, 15104)]
    return b"".join(answers + [written(rows, room) for rows in two_rows() for room in (15104, 15103)])


# ---- the files

def given():
    """The input. No text may have the byte that ends a record, and the program reads no more than there is room for."""
    found = records()
    if any(END in text for _how, text in found):
        sys.exit("A text has the byte that ends a record.")
    content = b"".join(how + text + END for how, text in found)
    if len(content) > ROOM:
        sys.exit("The records have %d bytes; the program reads %d." % (len(content), ROOM))
    return content


def options():
    parser = argparse.ArgumentParser(description=__doc__)
    parser.add_argument("--check", action="store_true", help="write nothing, say whether the files are right")
    return parser.parse_args()


def main():
    only_check = options().check
    contents = [(os.path.join(FOLDER, "stdin"), given()), (os.path.join(FOLDER, "stdout"), output())]
    wrong = [(path, content) for path, content in contents if stale(path, content)]
    for path, content in wrong:
        print("%s %s" % (os.path.relpath(path, ROOT), "is not as recorded" if only_check else "is written"))
        if not only_check:
            with open(path, "wb") as out:
                out.write(content)
    if only_check:
        print("the files are as recorded" if not wrong else "the files are not as recorded")
        sys.exit(1 if wrong else 0)


if __name__ == "__main__":
    main()
