"""The words of docs/SCENARIOS.md, each form written and read here and nowhere else. Orders are tuples (kind, symbol,
shares, price or None), quotes (symbol, bid, ask, date), the vendor's quotes (symbol, bid, ask, date, revision), weights and
holdings (symbol, amount), costs (name, amount), trades (side, symbol, quantity, value, date)."""

from scenario.floats import number, text


def order(row):
    kind, symbol, shares, price = row
    return "%s:%d:%s:%s" % (kind, symbol, text(shares), "-" if price is None else text(price))


def quote(row):
    symbol, bid, ask, date = row
    return "%d:%s:%s:%d" % (symbol, text(bid), text(ask), date)


def vendor_quote(row):
    """A quote of the vendor, which has a revision."""
    return "%s:%d" % (quote(row[:4]), row[4])


def weight(row):
    """A weight, or a holding."""
    symbol, amount = row
    return "%d:%s" % (symbol, text(amount))


def cost(row):
    name, amount = row
    return "%s:%s" % (name, text(amount))


def lot(size):
    """The lot of a new broker; the word may be left out for 1."""
    return "lot:%d" % size


def trade(row):
    side, symbol, quantity, value, date = row
    return "%s:%d:%s:%s:%d" % (side, symbol, text(quantity), text(value), date)


def read_order(word):
    kind, symbol, shares, price = word.split(":")
    return kind, int(symbol), number(shares), None if price == "-" else number(price)


def read_quote(word):
    symbol, bid, ask, date = word.split(":")
    return int(symbol), number(bid), number(ask), int(date)


def read_vendor_quote(word):
    row, _colon, revision = word.rpartition(":")
    return read_quote(row) + (int(revision),)


def read_weight(word):
    symbol, share = word.split(":")
    return int(symbol), number(share)


def read_cost(word):
    name, amount = word.split(":")
    return name, number(amount)


def is_lot(word):
    return word.startswith("lot:")


def read_lot(word):
    return int(word.partition(":")[2])
