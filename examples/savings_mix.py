"""savings_mix.py FOLDER: write quotes.csv and weights.csv of ten made-up securities over five years of closing quotes.

Every quote is made up by this rule, so that each machine gets the same text.

Days: Monday to Friday from 2021 to 2025, without 1 January, Good Friday, Easter Monday, 1 May, 25 and 26 December.
Draws: those of tools/scenario/draws.py from SEED on. A shock is the sum of twelve draws over 65,536, less 6: about normal, mean 0,
deviation 1.
Quotes: each day has a common shock, then one of its own for each security in turn. Its mid moves by
drift / 252 + volatility / sqrt(252) * (c * common + sqrt(1 - c * c) * own) of itself and is rounded to cents.
Bid and ask lie 0.05 % of the mid, rounded up to cents, below and above it.

The weights sum to 0.95: the cash left over absorbs price moves between sending and filling.
"""
import csv
import datetime
import math
import os
import sys

# tools/ has the shared package.
sys.path.insert(0, os.path.join(os.path.dirname(os.path.dirname(os.path.abspath(__file__))), "tools"))

from scenario.draws import Draws

SEED = 35
EASTER = {2021: (4, 4), 2022: (4, 17), 2023: (4, 9), 2024: (3, 31), 2025: (4, 20)}
# name, weight, first mid, drift a year, volatility a year, c
MIX = [
    ("world shares", "0.30", 38.40, 0.075, 0.15, 0.90),
    ("emerging market shares", "0.08", 21.15, 0.070, 0.19, 0.75),
    ("small company shares", "0.07", 26.80, 0.080, 0.20, 0.80),
    ("property shares", "0.05", 14.60, 0.050, 0.17, 0.65),
    ("euro government bonds", "0.15", 32.25, 0.020, 0.05, 0.05),
    ("euro company bonds", "0.10", 24.70, 0.030, 0.05, 0.35),
    ("inflation-linked bonds", "0.06", 18.95, 0.025, 0.06, 0.10),
    ("short-dated bonds", "0.06", 12.10, 0.020, 0.015, 0.05),
    ("gold", "0.05", 16.45, 0.045, 0.14, 0.10),
    ("money market", "0.03", 50.25, 0.020, 0.003, 0.00),
]


def shock(draws):
    return sum(draws.draw() for _ in range(12)) / 65536 - 6


def closed(day):
    easter = datetime.date(day.year, *EASTER[day.year])
    holidays = [(1, 1), (5, 1), (12, 25), (12, 26)]
    return day.weekday() > 4 or (day.month, day.day) in holidays or (day - easter).days in (-2, 1)


def trading_days():
    day, last = datetime.date(2021, 1, 1), datetime.date(2025, 12, 31)
    while day <= last:
        if not closed(day):
            yield day
        day += datetime.timedelta(days=1)


def cents(amount):
    """An amount of whole cents, as text."""
    return f"{amount // 100}.{amount % 100:02}"


def moved(mids, draws):
    """The next day's mids, in whole cents."""
    common, found = shock(draws), []
    for mid, (_, _, _, drift, volatility, c) in zip(mids, MIX):
        mixed = c * common + math.sqrt(1 - c * c) * shock(draws)
        found.append(round(mid * (1 + drift / 252 + volatility / math.sqrt(252) * mixed)))
    return found


def quotes():
    """The rows of every day."""
    draws, mids = Draws(SEED), [round(row[2] * 100) for row in MIX]
    for day in trading_days():
        for row, mid in zip(MIX, mids):
            half = math.ceil(mid / 2000)
            yield day, row[0], cents(mid - half), cents(mid + half)
        mids = moved(mids, draws)


def write(path, head, rows):
    with open(path, "w", newline="") as out:
        table = csv.writer(out, lineterminator="\n")
        table.writerow(head)
        table.writerows(rows)


def main(folder):
    write(os.path.join(folder, "quotes.csv"), ["date", "security", "bid", "ask"], quotes())
    write(os.path.join(folder, "weights.csv"), ["security", "weight"], [row[:2] for row in MIX])


if __name__ == "__main__":
    main(*sys.argv[1:])
