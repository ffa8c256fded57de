"""The calls of a scenario and their answers in plain English."""
import os
import re
import sys

# tools/ has the shared package.
sys.path.insert(0, os.path.join(os.path.dirname(os.path.dirname(os.path.abspath(__file__))), "tools"))

from answers import money
from scenario.floats import number
from scenario.meanings import MEANINGS
from scenario.words import is_lot, read_lot, read_order, read_quote, read_weight

KINDS = {"m": "market", "l": "limit", "s": "stop"}


def order(word):
    kind, symbol, shares, price = read_order(word)
    at = "" if price is None else f" at {money(price)}"
    return f"{KINDS[kind[0]]} {'buy' if kind[1] == 'b' else 'sale'} of {shares:g} of symbol {symbol}{at}"


def table(rows):
    """Quotes as `symbol 0 at 99.00 / 100.00`."""
    found = []
    for symbol, bid, ask, _ in map(read_quote, rows):
        found.append(f"symbol {symbol} at {money(bid)} / {money(ask)}")
    return ", ".join(found) or "no quotes"


def quote(word):
    symbol, bid, ask, date = read_quote(word)
    return f"symbol {symbol} at {money(bid)} / {money(ask)}, date {date}"


def mix(rows):
    """Weights as `0.5 of symbol 3`."""
    return ", ".join(f"{weight:g} of symbol {symbol}" for symbol, weight in map(read_weight, rows)) or "no weights"


def lot(rest):
    """The lot behind a log's length as words, where there is one."""
    return f" that trades in lots of {read_lot(rest[1]):,}" if is_lot(rest[1]) else ""


def asked(name, rest):
    """A call in plain English."""
    if name == "new":
        return f"a new broker{lot(rest)}; first quotes: {table(rest[rest.index('/') + 1:])}"
    if name == "check":
        return f"a check on {table(rest[:rest.index('/')])}"
    if name == "update":
        return f"a check on {table(rest[1:rest.index('/')])}, then orders for {mix(rest[rest.index('/', rest.index('/') + 1) + 1:])}"
    if name in ("deposit", "withdraw", "liquidate"):
        return f"{name} {money(number(rest[0]))}"
    if name in ("send", "insert"):
        return f"{name} a {order(rest[0])}"
    if name == "send_list":
        return f"send {len(rest) - 1} orders"
    if name == "walk":
        return f"orders for {mix(rest[1:])}, listed and not sent"
    if name == "correct":
        return f"a table from {len(rest) - 1} of the vendor's rows"
    return name.replace("get_", "read the ").replace("_", " ")


def refused(drawn):
    return f"Refused with number {drawn}: {MEANINGS[int(drawn)]}"


def event(word):
    """An order's event: taken, or its number in words."""
    drawn, _, rest = word.partition(":")
    return f"{order(rest)}: {'taken' if drawn == 'taken' else f'refused with number {drawn}, {MEANINGS[int(drawn)]}'}"


OTHER_READS = ("cost_basis", "turnover", "executed_trade_count", "trade_impact_total", "calculate_trade_costs", "floor", "ceil")
# Calls that answer rows: the first of these words, and how one is told.
ROWS = {"update": (3, event), "send_list": (1, event), "walk": (1, order), "correct": (1, quote)}


def row_lines(name, words):
    """The events of an update or of a list of orders, the orders of a walk and the rows of a corrected table, one a line."""
    if words[0] == "refused" or name not in ROWS:
        return []
    first, told = ROWS[name]
    return [told(word) for word in words[first:]]


def figure(word):
    """A FLOAT as an amount; other words as they are."""
    return money(number(word)) if re.fullmatch("[0-9a-f]{16}", word) else word


def answered(name, words):
    """An answer in plain English."""
    if words[0] == "refused":
        return refused(words[1])
    if name in ("send", "insert"):
        taken = words[0].startswith("taken:")
        return "Taken; it waits for the next check to book it" if taken else refused(words[0].split(":")[0])
    if name == "check":
        return f"Done: {words[1]} traded, {words[3]} sales queued to raise cash"
    if name == "update":
        return f"Done: the account's value is {money(number(words[1]))}, and {words[2]} orders were sent"
    if name == "send_list":
        return f"Done: {words[0]} orders were sent"
    if name == "walk":
        return f"Done: {words[0]} orders are listed"
    if name == "correct":
        return f"Done: the table has {words[0]} rows"
    if name in OTHER_READS or name.startswith("get_"):
        return f"It is {' '.join(map(figure, words))}"
    return words[0].capitalize()
