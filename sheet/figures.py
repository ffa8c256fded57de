"""The figures of a fact sheet, from the evenings of a rehearsal. A payment is made before the day's orders and earns nothing on its
day, so a day's return is the value without that day's payments over the value of the evening before."""
import math

TRADING_DAYS = 252
DAYS_A_YEAR = 365.25
# The days from which on a return a year is told.
A_YEAR = 365


def returns(evenings):
    """The return of each day after the first, -1 or more; None where the evening before was worth nothing, or less."""
    found = []
    for before, now in zip(evenings, evenings[1:]):
        found.append(max((now.value - now.flow) / before.value, 0.0) - 1 if before.value > 0 else None)
    return found


def index(rates):
    """What 1 became by the returns, evening by evening; a day without a return keeps it."""
    found = [1.0]
    for rate in rates:
        found.append(found[-1] * (1 + (rate or 0.0)))
    return found


def a_year(level, days):
    """The return a year of an index that stands at a level after so many days; none for less than a year."""
    return None if days < A_YEAR else level ** (DAYS_A_YEAR / days) - 1


def volatility(rates):
    """The deviation of daily returns, a year; none for fewer than two of them."""
    known = [rate for rate in rates if rate is not None]
    if len(known) < 2:
        return None
    mean = sum(known) / len(known)
    return math.sqrt(sum((rate - mean) ** 2 for rate in known) / (len(known) - 1)) * math.sqrt(TRADING_DAYS)


class Fall:
    """A fall of the index from a height, as a part of it, with the days of the height and the depth."""

    def __init__(self, part, since, until):
        self.part, self.since, self.until = part, since, until


def largest_fall(levels, dates):
    """The first of the largest falls, from the first day of its height; none where the index never fell."""
    high, since, found = levels[0], dates[0], None
    for level, date in zip(levels, dates):
        if level > high:
            high, since = level, date
        part = 1 - level / high
        if part > (found.part if found else 0.0):
            found = Fall(part, since, date)
    return found


def month_ends(evenings):
    """The last evening of each month."""
    last = {(evening.date.year, evening.date.month): evening for evening in evenings}
    return list(last.values())


class Figures:
    """All figures of a rehearsal, and the index of returns, evening by evening."""

    def __init__(self, evenings, turnover, refused):
        last, rates = evenings[-1], returns(evenings)
        self.index = index(rates)
        self.date, self.value, self.trades = last.date, last.value, last.trades
        self.paid_in = sum(evening.deposit for evening in evenings)
        self.paid_out = sum(evening.withdraw for evening in evenings)
        self.in_all = self.index[-1] - 1
        self.a_year = a_year(self.index[-1], (last.date - evenings[0].date).days)
        self.volatility = volatility(rates)
        self.fall = largest_fall(self.index, [evening.date for evening in evenings])
        self.turnover, self.refused = turnover, refused
