"""The lines of docs/SCENARIOS.md: each call's form is written here and nowhere else, with the rows of words.py."""

from scenario import words
from scenario.floats import text


def joined(*parts):
    """The words of a line; a list among the parts gives its own words."""
    found = []
    for part in parts:
        found.extend(part if isinstance(part, list) else [part])
    return " ".join(found)


def quotes(rows):
    return [words.quote(row) for row in rows]


def weights(rows):
    return [words.weight(row) for row in rows]


def new(log, costs, first, lot=None):
    """A builder; without a lot its word is left out."""
    size = [] if lot is None else words.lot(lot)
    return joined("new", str(log), size, [words.cost(row) for row in costs], "/", quotes(first))


def lend(log):
    return "lend %d" % log


def amount(verb, x):
    """A call with one float: a cash mover's or a rounding."""
    return "%s %s" % (verb, text(x))


def order(verb, row):
    """A send or a direct insertion."""
    return "%s %s" % (verb, words.order(row))


def send_list(room, orders):
    return joined("send_list", str(room), [words.order(row) for row in orders])


def delete(number):
    return "delete %d" % number


def check(tradable, fetched):
    return joined("check", quotes(tradable), "/", quotes(fetched))


def walk(room, rows):
    return joined("walk", str(room), weights(rows))


def update(room, tradable, fetched, rows):
    return joined("update", str(room), quotes(tradable), "/", quotes(fetched), "/", weights(rows))


def read(verb, number=None):
    """A read: of nothing more, of a symbol, or of a list to so much room."""
    return verb if number is None else "%s %d" % (verb, number)


def correct(room, rows):
    return joined("correct", str(room), [words.vendor_quote(row) for row in rows])


def figures(verb, one, other, side=None):
    """A cost function's call."""
    return joined(verb, text(one), text(other), [side] if side else [])
