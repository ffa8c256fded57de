"""Decimal amounts and ISO dates, as they stand in a file."""
import datetime
import functools
import re

DECIMAL = re.compile(r"[+-]?(\d+(\.\d*)?|\.\d+)\Z")
DATE = re.compile(r"(\d{4})-(\d{2})-(\d{2})\Z")


def decimal(word):
    """The float nearest to a decimal number, or None for any other word, or one too large for a float."""
    if not DECIMAL.match(word):
        return None
    found = float(word)
    return found if abs(found) < float("inf") else None


@functools.lru_cache(maxsize=None)
def date(word):
    """A date of the calendar, or None. A day comes once for each security, and is worked out once."""
    parts = DATE.match(word)
    return None if parts is None else calendar(*map(int, parts.groups()))


def calendar(year, month, day):
    try:
        return datetime.date(year, month, day)
    except ValueError:
        return None


def whole(day):
    """A date as the engine's tables carry it: the whole number YYYYMMDD."""
    return day.year * 10000 + day.month * 100 + day.day


def money(x):
    """An amount for the reader, with two digits and thousands apart."""
    return f"{x:,.2f}"


def quantity(x):
    """Shares for the reader: whole, or with up to four digits behind the point."""
    return f"{x:,.4f}".rstrip("0").rstrip(".")


def price(x):
    """A price for the reader, with two to six digits behind the point."""
    text = f"{x:,.6f}".rstrip("0")
    return text + "0" * (2 - len(text.partition(".")[2]))
