"""Corrected quotes (document 02, request 5), the same in every run: lists of the vendor's rows on both sides of each
rule and random ones, each in a `correct`, and tables that come out of them handed on to checks, updates and builders.
The same rows in a hundred orders must be answered alike, which is looked at here, in the program's own answers.

corrections.py [--program PATH]: holds what a program answers to `correct` to the model, and looks at the orders;
REHEARSE names another build of the engine, too. Exit status 1 where there is a difference."""

import argparse
import itertools
import os
import random
import sys
import time
from collections import Counter

ROOT = os.path.dirname(os.path.dirname(os.path.abspath(__file__)))
# Nothing is written beside the sources; tools/ has the shared package.
sys.dont_write_bytecode = True
sys.path.insert(0, os.path.join(ROOT, "tools"))

import amounts
import forms
import judge
import programs
from boundaries import row as quoted
from model import corrected
from play import Play
from player import KINDS
from scenario.floats import INF, LARGEST, LEAST, NAN

PROGRAM = os.path.join(ROOT, "target", "bin", "rehearse")
SEED = 5
LISTS = 4000
ORDERS = 100
# How many lists one scenario has.
TOGETHER = 40
ROOM = 256
MOST = 1024
LONGEST = 1100
SYMBOLS = range(256)
FIRST, LAST = -2 ** 63, 2 ** 63 - 1
# The ends, both sides of zero, and dates that agree in their low 8, 16, 31 or 32 bits.
DATES = [FIRST, FIRST + 5, -2 ** 32, -1, 0, 5, 5 + 2 ** 8, 5 + 2 ** 16, 5 + 2 ** 31, 5 + 2 ** 32, LAST - 1, LAST]
REVISIONS = [0, 1, 127, 128, 254, 255]
NO_SYMBOLS = [256, 257, 256 + 7, 65536 + 7, 2 ** 32 - 1]
NO_PRICES = [NAN, INF, -INF, 0.0, -0.0, -1.0, -LEAST]


def row(symbol, date, revision, at=0):
    """A row whose bid and ask say which it is, since a table shows no revision."""
    return symbol, 1.0 + at, 2.0 + at, date, revision


def numbered(keys):
    """Rows of these symbols, dates and revisions, each of its own bid and ask."""
    return [row(*key, at) for at, key in enumerate(keys)]


def both_ways(rows):
    yield rows
    yield rows[::-1]


def many(count, dates=1):
    """So many rows, of 256 symbols or as many as there are, of so many dates and of revisions from 0 on."""
    return numbered([(at % 256, at // 256 % dates, at // 256 // dates) for at in range(count)])


def of_one_symbol(count):
    """So many rows of one symbol, of 16 dates; the one that wins stands in the middle."""
    keys = [(7, at // 64, at % 64) for at in range(count)]
    return numbered(keys[count // 2:] + keys[:count // 2])


def with_row(rows, at, other):
    return rows[:at] + [other] + rows[at:]


# Which row wins

def dates():
    """Two dates of a symbol, the later with the lower revision, and with the same."""
    for one, other in itertools.permutations(DATES, 2):
        yield numbered([(7, one, 9 if one > other else 200), (7, other, 9 if other > one else 200)])
        yield numbered([(7, one, 3), (7, other, 3)])


def revisions():
    """Two and all revisions of one date."""
    for date in (FIRST, -1, 0, LAST):
        for one, other in itertools.permutations(REVISIONS, 2):
            yield numbered([(7, date, one), (7, date, other)])
    yield from both_ways(numbered([(255, 5, revision) for revision in SYMBOLS]))


def several():
    """Three rows of a symbol in each order, alone and among rows of the symbols beside it."""
    beside = numbered([(6, LAST, 255), (8, 9, 0)])
    for rows in itertools.permutations(numbered([(7, 5, 1), (7, 5, 2), (7, 4, 255)])):
        yield list(rows)
        yield beside[:1] + list(rows) + beside[1:]
        yield [rows[0], beside[1], rows[1], beside[0], rows[2]]


def whole():
    """No row, every symbol, and as many rows as there may be."""
    yield []
    for rows in (many(256), many(512), many(MOST, 2), many(MOST, 4), many(MOST - 1), of_one_symbol(MOST), many(257)):
        yield from both_ways(rows)
    for symbol in (0, 1, 127, 128, 254, 255):
        yield [row(symbol, 0, 0)]


# 21

def twins():
    """Two rows alike, of the same prices or not, which win or are superseded, with the third in each place."""
    for other in (row(7, 5, 1), row(7, 5, 1, 1)):
        yield [row(7, 5, 1), other]
        for third in (row(7, 9, 0, 2), row(7, 5, 2, 2), row(7, 5, 0, 2), row(7, 4, 255, 2), row(8, 5, 1, 2)):
            yield from ([third, row(7, 5, 1), other], [row(7, 5, 1), third, other], [row(7, 5, 1), other, third])
    yield [row(7, 5, 1)] * 3
    yield [row(7, 5, 1)] * MOST


def nearly_twins():
    """Rows that differ in one of symbol, date and revision alone, and some of them in no low bits."""
    for date in DATES:
        yield [row(7, date, 1), row(8, date, 1)]
        yield numbered([(7, date, revision) for revision in REVISIONS])
    yield numbered([(7, date, 1) for date in DATES])
    yield [row(0, 1, 2), row(1, 2, 0), row(2, 0, 1), row(0, 2, 1), row(1, 0, 2), row(2, 1, 0)]


def far_twins():
    """Two rows alike at many places of a long list, the first and the last among them, superseded or not."""
    places = [0, 1, 255, 256, 511, 512, 767, 1021, 1022]
    for one, other in itertools.combinations(places, 2):
        rows = many(MOST - 1)
        yield with_row(rows, other + 1, rows[one])
    for rows in (of_one_symbol(MOST - 1), many(MOST - 1, 4)):
        yield rows + rows[:1]
        yield rows[-1:] + rows


# 1 and 2

def faults():
    """Rows that draw 1 and rows that draw 2."""
    for symbol in NO_SYMBOLS:
        yield row(symbol, 5, 1)
        yield symbol, NAN, 0.0, 5, 1
    for price in NO_PRICES:
        yield 7, price, 1.0, 5, 1
        yield 7, 1.0, price, 5, 1
        yield 7, price, price, 5, 1


def faulty():
    """A row that draws 1 or 2 alone, before, between and behind others, which supersede it or do not, or are alike."""
    sets = [[], [row(7, 9, 0), row(8, 5, 1)], [row(7, 4, 0), row(8, 5, 1)], [row(8, 5, 1), row(8, 5, 1)]]
    for fault in faults():
        for rows in sets:
            for at in range(len(rows) + 1):
                yield with_row(rows, at, fault)


def two_faults():
    """1 and 2 in different rows, in either order, near and far."""
    ones, others = [row(256, 5, 1), row(2 ** 32 - 1, 9, 0)], [(7, 0.0, 1.0, 5, 1), (7, 1.0, NAN, 9, 0)]
    for one, other in itertools.product(ones, others):
        yield from both_ways([one, other])
        yield from both_ways([one, row(7, 9, 1), row(3, 1, 1), other])
        yield from both_ways([one] + many(MOST - 2) + [other])


def far_faults():
    """A row that draws 1 or 2 at places of a long list, and a row alike beside it."""
    for fault in (row(256, 5, 1), (7, 0.0, 1.0, 5, 1)):
        for at in (0, 255, 256, 511, 512, MOST - 2, MOST - 1):
            yield with_row(many(MOST - 1), at, fault)
            yield with_row([row(3, 5, 1)] * (MOST - 1), at, fault)


def good_prices():
    """The least and the largest prices, a bid above the ask, and the last symbol."""
    for bid, ask in itertools.product((LEAST, 1.0, LARGEST), repeat=2):
        yield [(255, bid, ask, 5, 1)]


# 15 and 22

def limits():
    """Lists about the most rows, good and with rows that draw other numbers, for tables of every length."""
    good, twin = many(LONGEST), [row(7, 5, 1)] * 2
    lists = [[], good[:1], twin, [row(256, 5, 1)], [(7, NAN, 1.0, 5, 1)], good[:256], good[:257]]
    for count in (MOST - 1, MOST, MOST + 1, LONGEST):
        lists += [good[:count], good[:count - 1] + good[:1], good[:count - 1] + [row(256, 5, 1)],
                  [(7, 0.0, 1.0, 5, 1)] + good[:count - 1], [row(7, 5, 1)] * count]
    for room in (0, 1, 255, 256, 257, 1023, 1024):
        for rows in lists:
            yield room, rows


# Random lists

def some_dates(rng):
    """Few dates, so that revisions decide, or many."""
    choice = rng.random()
    if choice < 0.5:
        return rng.sample(DATES, rng.randint(1, 4))
    if choice < 0.8:
        start = rng.choice([0, 20240102, -3])
        return [start + i for i in range(rng.randint(1, 6))]
    return [rng.randint(FIRST, LAST) for _ in range(rng.randint(1, 30))]


def prices(rng):
    if rng.random() < 0.2:
        return amounts.positive(rng), amounts.positive(rng)
    return rng.uniform(1.0, 1000.0), rng.uniform(1.0, 1000.0)


def random_rows(rng, count):
    """At most so many rows, no two alike, in random order."""
    symbols = rng.sample(SYMBOLS, rng.choice([1, 2, 4, 20, 256]))
    days, marks = some_dates(rng), rng.choice([REVISIONS, range(4), range(256)])
    keys = {(rng.choice(symbols), rng.choice(days), rng.choice(marks)) for _ in range(count)}
    rows = [(symbol, *prices(rng), date, revision) for symbol, date, revision in sorted(keys)]
    rng.shuffle(rows)
    return rows


def spoiled(rng, rows):
    """The rows with a few more, at any places: rows alike with some of them, and rows that draw 1 or 2."""
    rows = list(rows)
    for _ in range(rng.choice([1, 1, 2, 3])):
        symbol, bid, ask, date, revision = rng.choice(rows or [row(7, 5, 1)])
        symbol, bid, ask = rng.choice([(symbol, bid, ask), (symbol, *prices(rng)), (rng.choice(NO_SYMBOLS), bid, ask),
                                       (symbol, rng.choice(NO_PRICES), ask), (symbol, bid, rng.choice(NO_PRICES))])
        rows.insert(rng.randint(0, len(rows)), (symbol, bid, ask, date, revision))
    return rows


def random_lists(rng):
    for _ in range(LISTS):
        count = rng.choice([1, 2, 3, 5, 10, 20, 40, 100] * 3 + [400, MOST - 3])
        rows = random_rows(rng, count)
        yield rng.choice([ROOM] * 20 + [MOST, 1000, 255, 0]), spoiled(rng, rows) if rng.random() < 0.4 else rows


# The same rows in other orders

def order_sets(rng):
    """Lists whose rows come in many orders: good ones, and those that draw the same number in each."""
    yield numbered([(7, 5, 0), (7, 4, 9)])
    yield numbered([(7, 5, 1), (7, 5, 2), (7, 4, 255), (8, 4, 0)])
    yield numbered(itertools.product((0, 7, 255), DATES, REVISIONS))
    for count in (40, 200, MOST):
        yield random_rows(rng, count)
    yield many(MOST, 4)
    yield of_one_symbol(MOST)
    rows = random_rows(rng, 40)
    yield rows + rows[:1]
    yield rows + [row(7, 0, 0), row(7, 0, 0), row(7, 1, 0)]
    yield rows + [row(256, 5, 1), row(300, 5, 1)] + rows[:1]
    yield rows + [(7, 0.0, 1.0, 5, 1), (8, NAN, 1.0, 5, 1)] + rows[:1]


def in_orders():
    """The lists, each in a hundred random orders."""
    rng = random.Random(SEED)
    return [[rng.sample(rows, len(rows)) for _ in range(ORDERS)] for rows in order_sets(rng)]


# Scenarios

def begun():
    """A broker with cash, a holding and orders, which no list may touch."""
    play = Play()
    play.new(64, [], [quoted(7, 10.0)])
    play.amount("deposit", 1000.0)
    play.order("send", ("mb", 7, 3.0, None))
    play.check([], [])
    play.check([quoted(7, 11.0)], [])
    play.order("insert", ("ls", 7, 1.0, 500.0))
    return play


def correct(play, room, rows):
    play.correct(room, rows)
    assert len(play.lines[-1]) <= forms.LINE


def listed(lists):
    """Scenarios of some lists each: the broker is as before after them, and the Rust is compared on."""
    lists = iter(lists)
    while True:
        some = list(itertools.islice(lists, TOGETHER))
        if not some:
            return
        play = begun()
        for room, rows in some:
            correct(play, room, rows)
        play.word("state")
        play.amount("deposit", 1.0)
        yield play


def fixed_lists():
    for lists in (dates, revisions, several, whole, twins, nearly_twins, far_twins, faulty, two_faults, far_faults,
                  good_prices):
        for rows in lists():
            yield ROOM, rows
    yield from limits()


def beside_stops():
    """Lists where no broker was built, another log is lent, the Rust has panicked or the lot is 5: answered as ever."""
    play = Play()
    stops = [lambda: play.new(8, [], [quoted(256, 1.0)]), lambda: play.lend(7),
             lambda: play.order("send", ("mb", 9, 1.0, None)), lambda: play.new(8, [], [], 5)]
    for stop in stops:
        play.new(8, [], [])
        stop()
        for room, rows in ((ROOM, many(3)), (ROOM, []), (255, many(3)), (ROOM, [row(7, 5, 1)] * 2)):
            correct(play, room, rows)
        play.word("state")
    return play


def handed_on(rng, play, symbols, day):
    """The table of some of the vendor's rows, as it is written; the rows of a day before are among them."""
    keys = {(symbol, day - rng.choice([0, 0, 0, 1]), rng.randint(0, 3)) for symbol in symbols for _ in range(3)}
    rows = [(symbol, rng.uniform(20.0, 60.0), rng.uniform(20.0, 60.0), date, revision)
            for symbol, date, revision in sorted(keys)]
    rng.shuffle(rows)
    correct(play, ROOM, rows)
    return corrected(ROOM, rows)[1]


def order(rng, symbol):
    return rng.choice(KINDS), symbol, float(rng.randint(1, 9)), rng.choice([None, 35.0, 40.0, 45.0])


def traded(rng, symbols, given):
    """Days on each of which a table is corrected and then checked, with orders in the book for these of its symbols. None
    is inserted while one of an update waits."""
    play = Play()
    play.new(256, [], handed_on(rng, play, symbols, 0))
    play.amount("deposit", 1e5)
    for day in range(1, 17):
        table = handed_on(rng, play, symbols, day)
        if day % 4 == 0:
            play.update(1, table, table, [(given[0], 0.4)])
        elif day % 4 == 1:
            play.check(table, table)
        else:
            for symbol in given:
                play.order("insert", order(rng, symbol))
            play.check(table, table)
    return play


def trading(single):
    """Scenarios of such days; for the unchanged Rust, one symbol alone is traded, and one order waits at most."""
    rng = random.Random(SEED)
    for count in [1, 2, 3, 5, 8] * 6 + [64, 256]:
        symbols = sorted(rng.sample(SYMBOLS, count))
        yield traded(rng, symbols, rng.sample(symbols, 1 if single else min(count, 4)))


def scenarios(single=False):
    """A name and a Play for each."""
    shuffled = ((ROOM, rows) for orders in in_orders() for rows in orders)
    plays = (listed(fixed_lists()), listed(random_lists(random.Random(SEED))), listed(shuffled), [beside_stops()],
             trading(single))
    return (("corrections", play) for play in itertools.chain(*plays))


# One program alone

def said(program, play):
    """What a program answers to each line of a scenario."""
    blocks = judge.blocks(programs.answers(program, ("\n".join(play.lines) + "\n").encode()))
    return [judge.said(block, number) for number, block in enumerate(blocks, 1)]


def not_alike(program):
    """Of the lists in other orders, those that a program does not answer alike in each."""
    found = []
    for at, orders in enumerate(in_orders(), 1):
        play = Play()
        for rows in orders:
            correct(play, ROOM, rows)
        answers = said(program, play)
        if len(answers) != ORDERS or len(set(answers)) != 1 or not answers[0].startswith(b"correct "):
            found.append("list %d in %d orders has %d answers" % (at, ORDERS, len(set(answers))))
    return found


def check(program):
    """Prints how many lists were given in other orders; the faults."""
    try:
        found, count = not_alike(program), len(in_orders())
    except (judge.Difference, programs.Crash) as wrong:
        found, count = [str(wrong)], 0
    print("== corrected quotes in other orders\n%d lists in %d orders each, %d not answered alike" % (
        count, ORDERS, len(found)))
    return ["corrected quotes, " + what for what in found]


def as_model(program, play, met):
    """The first answer to a `correct` that is not the model's, or None; counts by number those that are."""
    answers = said(program, play)
    if len(answers) != len(play.lines):
        return "%d lines were answered by %d" % (len(play.lines), len(answers))
    for line, due, answer in zip(play.lines, play.due, answers):
        if line.startswith("correct "):
            if answer != due.text:
                return "`%s`: %r is due, there is %r" % (line[:300], due.text[:100], answer[:100])
            met[due.drawn[0] if due.drawn else 0] += 1
    return None


def check_answers(program):
    """Prints how many answers were held to the model; the faults, one a scenario."""
    met, found = Counter(), []
    for _name, play in scenarios():
        try:
            found.append(as_model(program, play, met))
        except (judge.Difference, programs.Crash) as wrong:
            found.append(str(wrong))
    counts = ", ".join("%d drew %d" % (met[number], number) for number in sorted(met) if number)
    print("== corrected quotes\n%d lists: %d tables, %s" % (sum(met.values()), met[0], counts))
    return [what for what in found if what is not None]


def options():
    parser = argparse.ArgumentParser(description=__doc__)
    parser.add_argument("--program", default=os.environ.get("REHEARSE") or PROGRAM)
    return parser.parse_args()


def main():
    program = options().program
    if not os.access(program, os.X_OK):
        sys.exit("There is no program at %s." % program)
    started = time.time()
    found = check_answers(program) + check(program)
    print("Took %d seconds." % (time.time() - started))
    for one in found:
        print("difference: " + one)
    print("no difference" if not found else "%d differences" % len(found))
    sys.exit(1 if found else 0)


if __name__ == "__main__":
    main()
