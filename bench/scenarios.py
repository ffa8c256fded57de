"""scenarios.py NAME: print the scenario of that name of the benchmark; without a name, the names.

Each is the same text on every machine. What is timed stands between pairs of `clock` lines: the odd ones start a stretch, the even
ones end it; of those in WHOLE it is the whole run. Answers are written quietly, and the whole state once, at the end.

Prices: the draws are those of tools/scenario/draws.py from 7 on. A security's first mid is 50 + (draw modulo 10,000) / 100. Each day
it is multiplied by 0.98 + (draw modulo 4,001) / 100,000; bid is mid * 0.9995, ask mid * 1.0005. There are no costs.
"""
import os
import sys

# tools/ has the shared package.
sys.path.insert(0, os.path.join(os.path.dirname(os.path.dirname(os.path.abspath(__file__))), "tools"))

from scenario import lines
from scenario.draws import Draws

LOG = 262144
# A rebalancing's orders fill two updates later, so holdings swing between none and twice the weight: orders arise every day.
WEIGHTS = 0.3
WARM_UP = 10
UPDATE_DAYS = {10: 4000, 50: 2000, 100: 1000, 200: 600, 256: 480}


class Prices:
    def __init__(self, symbols):
        self.draws = Draws(7)
        self.mids = [50.0 + self.draws.draw() % 10000 / 100.0 for _ in range(symbols)]
        self.date = -1

    def next_day(self):
        """The next day's table."""
        self.date += 1
        self.mids = [mid * (0.98 + self.draws.draw() % 4001 / 100000.0) for mid in self.mids]
        return [(symbol, mid * 0.9995, mid * 1.0005, self.date) for symbol, mid in enumerate(self.mids)]


def started(rows, deposit):
    """A new broker with money."""
    return ["quiet", lines.new(LOG, [], rows), lines.amount("deposit", deposit)]


def update(symbols):
    prices = Prices(symbols)
    rows = prices.next_day()
    weights = [(symbol, WEIGHTS / symbols) for symbol in range(symbols)]
    yield from started(rows, 10000000.0)
    for day in range(UPDATE_DAYS[symbols]):
        if day == WARM_UP:
            yield "clock"
        yield lines.update(symbols, rows, rows, weights)
        rows = prices.next_day()
    yield from ("clock", "state")


def check_resting():
    """1,024 limit buys at 1 rest over 100 symbols; no ask comes near, so that nothing trades."""
    prices = Prices(100)
    yield from started(prices.next_day(), 10000000.0)
    for i in range(1024):
        yield lines.order("insert", ("lb", i % 100, 1.0, 1.0))
    yield lines.check([], [])
    yield "clock"
    for _ in range(2000):
        rows = prices.next_day()
        yield lines.check(rows, rows)
    yield from ("clock", "state")


def check_empty():
    """A check with nothing in the book and empty tables: what a call costs at least."""
    yield from started(Prices(100).next_day(), 10000000.0)
    yield "clock"
    yield from [lines.check([], [])] * 50000
    yield from ("clock", "state")


def delete():
    """The newest of 1,024 resting orders leaves, then the newest of the rest, until the book is empty; what fills it again is
    not timed."""
    yield from started(Prices(100).next_day(), 10000000.0)
    for turn in range(50):
        for i in range(1024):
            yield lines.order("insert", ("lb", i % 100, 1.0, 1.0))
        yield lines.check([], [])
        yield "clock"
        for i in reversed(range(1024)):
            yield lines.delete(turn * 1024 + i)
        yield "clock"
    yield "state"


def send():
    """Market buys of 1 share, a thousand at a time; two checks between, which trade them, are not timed."""
    rows = Prices(100).next_day()
    yield from started(rows, 1000000000.0)
    for _ in range(100):
        yield "clock"
        for i in range(1000):
            yield lines.order("send", ("mb", i % 100, 1.0, None))
        yield "clock"
        yield from [lines.check(rows, rows)] * 2
    yield "state"


def deposit():
    yield from started(Prices(100).next_day(), 10000000.0)
    yield "clock"
    yield from [lines.amount("deposit", 1.0)] * 100000
    yield from ("clock", "state")


def traded(kinds):
    """50,000 trades of 10 symbols, by a thousand orders at a time: one of each symbol, of the first of these kinds, then of the
    next, and again from the first."""
    prices = Prices(10)
    yield from started(prices.next_day(), 1000000000.0)
    for _ in range(50):
        for i in range(1000):
            yield lines.order("send", (kinds[i // 10 % len(kinds)], i % 10, 1.0, None))
        for _ in range(2):
            rows = prices.next_day()
            yield lines.check(rows, rows)


def cost_basis():
    """The bases of 10 symbols, each 50 times, after 50,000 trades."""
    yield from traded(["mb"])
    yield "clock"
    for i in range(500):
        yield lines.read("cost_basis", i % 10)
    yield from ("clock", "state")


def turnover():
    """The turnover, 500 times, after 50,000 trades, half of them sales."""
    yield from traded(["mb", "ms"])
    yield "clock"
    yield from [lines.read("turnover")] * 500
    yield from ("clock", "state")


def correct():
    """1,024 of the vendor's rows of one symbol, the latest in the middle, 200 times: no two are alike, so that all are compared."""
    rows = [(7, 99.0, 100.0, (i + 512) % 1024, i % 256) for i in range(1024)]
    yield from started([], 1.0)
    yield "clock"
    yield from [lines.correct(256, rows)] * 200
    yield from ("clock", "state")


# name: what is timed, the symbols, the scenario's maker
SCENARIOS = {f"update-{n}": ("update", n, lambda n=n: update(n)) for n in UPDATE_DAYS} | {
    "check-resting": ("check, 1,024 resting", 100, check_resting),
    "check-empty": ("check, empty book and tables", 0, check_empty),
    "delete": ("deletion, up to 1,024 resting", 100, delete),
    "send": ("send of one order", 1, send),
    "deposit": ("deposit", 0, deposit),
    "cost-basis": ("cost basis, 50,000 trades", 1, cost_basis),
    "turnover": ("turnover, 50,000 trades", 10, turnover),
    "correct": ("corrected quotes, 1,024 rows", 1, correct),
}


LINES = 1000000


def short_lines():
    """A comment, a deposit, a withdrawal and two reads, over and over."""
    yield from started(Prices(100).next_day(), 10000000.0)
    turn = ["# a line that is passed over", lines.amount("deposit", 2.0), lines.amount("withdraw", 1.0), "get_cash_balance",
            lines.read("get_position_qty", 1)]
    yield from turn * (LINES // len(turn))
    yield "state"


def comments():
    yield "quiet"
    yield from ["# a line that is passed over"] * LINES
    yield "state"


# Scenarios of which the whole run is timed, reading and writing too. name: what its lines are, how many there are, the maker
WHOLE = {
    "short-lines": ("a comment, a deposit, a withdrawal, two reads", LINES, short_lines),
    "comments": ("comments alone", LINES, comments),
}


def main(name=None):
    found = (SCENARIOS | WHOLE)[name][2]() if name else SCENARIOS | WHOLE
    sys.stdout.writelines(line + "\n" for line in found)


if __name__ == "__main__":
    main(*sys.argv[1:])
