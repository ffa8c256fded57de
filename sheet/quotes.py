"""Closing quotes from a vendor's CSV (date, security, bid, ask), or from quote lines: symbol, date and the bits of bid and ask."""
import math
import re

import amounts
import progress
import table
from faults import at, refuse
from scenario.floats import number

COLUMNS = ["date", "security", "bid", "ask"]
QUOTE_LINE = re.compile(r"(\d+),(-?\d+),([0-9a-f]{16}),([0-9a-f]{16})\Z")


class Quote:
    """A security's closing quote on a day, with the line that it stands on."""

    __slots__ = ("line", "day", "security", "bid", "ask")

    def __init__(self, line, day, security, bid, ask):
        self.line, self.day, self.security, self.bid, self.ask = line, day, security, bid, ask


def is_price(price):
    return price is not None and 0.0 < price < math.inf


def is_name(security):
    return security != "" and security.isprintable()


def price_fault(path, line, name, word, price):
    if price is None:
        return at(path, line, f"the {name} '{word}' is not a decimal number", "write it as 12.34, with a point")
    if not is_price(price):
        return at(path, line, f"the {name} {word} is not above zero", "correct the price or take the line out")
    return None


def row_faults(path, quote, words):
    """What is wrong with a row, by its cells."""
    day, security, bid, ask = words
    if quote.day is None:
        yield at(path, quote.line, f"'{day}' is not a date", "write it as 2021-12-31")
    if not is_name(security):
        yield at(path, quote.line, "the security has no name of printable characters", "name the security or take the line out")
    for name, word, price in (("bid", bid, quote.bid), ("ask", ask, quote.ask)):
        fault = price_fault(path, quote.line, name, word, price)
        if fault:
            yield fault


def if_good(path, quote, cells, faults):
    """The quote; nothing, and its faults, where it is bad."""
    if quote.day is not None and is_name(quote.security) and is_price(quote.bid) and is_price(quote.ask):
        return quote
    faults.extend(row_faults(path, quote, cells))
    return None


def from_cells(path, line, cells, faults):
    """A row of the CSV."""
    if cells is None:
        faults.append(at(path, line, "has fewer than four cells", "give date, security, bid, ask"))
        return None
    day, security, bid, ask = cells
    return if_good(path, Quote(line, amounts.date(day), security, amounts.decimal(bid), amounts.decimal(ask)), cells, faults)


def from_line(path, line, words, faults):
    """A quote line: symbol,date,bid,ask, the date a whole number YYYYMMDD."""
    parts = QUOTE_LINE.match(words)
    if parts is None:
        faults.append(at(path, line, "is not a quote line like those before it",
                         "write symbol,date,bid,ask with 16 hexadecimal digits each for bid and ask"))
        return None
    symbol, day, bid, ask = parts.groups()
    digits = int(day)
    date = amounts.calendar(digits // 10000, digits // 100 % 100, digits % 100) if digits > 0 else None
    return if_good(path, Quote(line, date, symbol, number(bid), number(ask)), (day, symbol, bid, ask), faults)


def all_rows(path, faults):
    """Every row of a file that is good by itself."""
    text = table.text_of(path)
    if QUOTE_LINE.match(text.partition("\n")[0].rstrip("\r")):
        form, rows = from_line, list(enumerate(text.splitlines(), 1))
    else:
        form, rows = from_cells, table.rows(path, COLUMNS)
    read = (form(path, line, row, faults) for line, row in progress.told("reading the quotes", rows))
    return [quote for quote in read if quote is not None]


def by_day(path, rows, faults):
    """The rows of each day by security; a security twice on a day is a fault."""
    days = {}
    for row in rows:
        seen = days.setdefault(row.day, {}).setdefault(row.security, row)
        if seen is not row:
            faults.append(at(path, row.line, f"'{row.security}' has a quote on {row.day} already, on line {seen.line}",
                             "take one of the two out"))
    return days


def read(path):
    """The quotes of a file: days in order, each with its rows by security."""
    faults = []
    days = by_day(path, all_rows(path, faults), faults)
    refuse(faults)
    return dict(sorted(days.items()))


def crossed(path, days):
    """Rows whose bid is above the ask: they are used as they are, and told."""
    rows = [row for day in days.values() for row in day.values() if row.bid > row.ask]
    if rows:
        more = f", and on {len(rows) - 1} more lines" if rows[1:] else ""
        yield at(path, rows[0].line, f"the bid is above the ask{more}", "the quotes are used as they are")
