"""Turnover by the fund convention (document 02, request 4), the same in every run: bought sums below, at and above the
sold ones and a float away from them, one side alone, values of either sign, sums whose order matters, infinities and
NaN. Each log is met row by row, and a fresh one finds the old rows of the one before. One order waits at a time, and one
symbol is traded, so that the unchanged Rust runs them too."""

from itertools import permutations

from boundaries import row
from play import Play
from scenario.floats import LARGEST, LEAST, down, up

SYMBOL = 3
LOG = 16
CASH = 2.0 ** 60
# From here on the floats are the even numbers: 1 and 1 more are nothing, and 2 more are the next one.
EVEN = 2.0 ** 53
FAR = 1e300


def trade(play, side, shares, price):
    """One trade of a value shares x price: inserted, booked by a check without rows, and traded by the next."""
    play.order("insert", ("mb" if side == "buy" else "ms", SYMBOL, shares, None))
    play.check([], [])
    play.check([row(SYMBOL, price)], [])


def logged(trades):
    """A log of these trades, turnover read before each, and for a log of another length in the end, which is 16."""
    play = Play()
    play.new(LOG, [], [row(SYMBOL, 1.0)])
    play.amount("deposit", CASH)
    for side, shares, price in trades:
        play.read("turnover")
        trade(play, side, shares, price)
    play.read("turnover")
    play.lend(LOG - 1)
    play.read("turnover")
    return play


def bought(*values):
    return [("buy", value, 1.0) for value in values]


def sold(*values):
    return [("sell", value, 1.0) for value in values]


def beside(value):
    """A value bought and sold, the sold one the same or the float beside it, either of them first."""
    for other in (value, up(value), down(value)):
        yield bought(value) + sold(other)
        yield sold(other) + bought(value)


def sides():
    """One side alone, and both, of either sign and of zeros."""
    for values in ([1.0], [20.0, 30.0], [-30.0], [-1.0, 1.0], [0.0], [-0.0], [LEAST], [LEAST, -LEAST]):
        yield bought(*values)
        yield sold(*values)
    for one in (-30.0, -0.0, 0.0, 20.0):
        for other in (-20.0, -0.0, 0.0, 30.0):
            yield bought(one) + sold(other)


def orders():
    """1, 1 and 2^53 in each order, of one side, before, behind and between values of the other that are more."""
    for one, other in ((bought, sold), (sold, bought)):
        for values in permutations((1.0, 1.0, EVEN)):
            yield other(2.0 * EVEN) + one(*values)
            yield one(*values) + other(2.0 * EVEN)
            yield [pair for value in values for pair in one(value) + other(EVEN)]
        yield one(EVEN) + other(EVEN) + one(1.0, 1.0)


def far():
    """Values of infinity, of its negative and both, which add up to NaN, alone and beside 2 for 3."""
    for one, other in (("buy", "sell"), ("sell", "buy")):
        for shares in ([FAR], [-FAR], [FAR, -FAR], [-FAR, FAR], [FAR, FAR], [LARGEST], [LARGEST, -LARGEST]):
            rows = [(one, count, FAR) for count in shares]
            yield rows
            yield rows + [(other, 2.0, 3.0)]
            yield [(other, 2.0, 3.0)] + rows
            yield rows + [(other, FAR, FAR)]


def logs():
    yield []
    for value in (0.1, 1.0, 20.0, 1e15, EVEN, 1e-300):
        yield from beside(value)
    yield from sides()
    yield from orders()
    yield from far()


def scenarios():
    """A name and a Play for each."""
    return (("turnovers", logged(trades)) for trades in logs())
