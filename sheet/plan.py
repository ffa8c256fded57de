"""A savings plan: costs, payments and their rhythm, from a small file of `name = value` lines and from options, which come last."""
import amounts
import table
from faults import Faults, at, refuse

# What stays the same until a rhythm's next day.
PERIODS = {
    "daily": lambda day: day,
    "weekly": lambda day: tuple(day.isocalendar())[:2],
    "monthly": lambda day: (day.year, day.month),
    "quarterly": lambda day: (day.year, (day.month - 1) // 3),
    "yearly": lambda day: day.year,
    "never": lambda day: None,
}
RHYTHMS = tuple(PERIODS)
COSTS = ("per_share", "pct_of_value", "flat")
MOST_COSTS = 16
MOST_LOT = 1000000


class Plan:
    """What is paid in and out and when, when the account is rebalanced, costs and lot. A regular amount is (amount, rhythm)."""

    def __init__(self):
        self.title, self.currency = "Savings plan", "euros"
        self.first_deposit = 0.0
        self.deposit = self.withdraw = (0.0, "never")
        self.rebalance = "monthly"
        self.costs = []
        self.lot = 1


def positive(word):
    """An amount above zero, or None."""
    found = amounts.decimal(word)
    return found if found is not None and found > 0.0 else None


def regular(word):
    """`500 monthly`, or None."""
    parts = word.split()
    if len(parts) != 2 or parts[1] not in RHYTHMS or positive(parts[0]) is None:
        return None
    return positive(parts[0]), parts[1]


def cost(word):
    """`flat 1`, `pct_of_value 0.001` or `per_share 0.01`, or None."""
    parts = word.split()
    if len(parts) != 2 or parts[0] not in COSTS or amounts.decimal(parts[1]) is None:
        return None
    return parts[0], amounts.decimal(parts[1])


def rhythm(word):
    return word if word in RHYTHMS else None


def lot(word):
    """A whole number that the engine takes as a lot, or None."""
    small = word.isascii() and word.isdecimal() and len(word) <= len(str(MOST_LOT))
    return int(word) if small and 1 <= int(word) <= MOST_LOT else None


def words(word):
    return word if word and word.isprintable() else None


# name: how its value is read, and what the value looks like
NAMES = {
    "title": (words, "some words"),
    "currency": (words, "a word, as euros"),
    "first_deposit": (positive, "an amount above zero, as 20000"),
    "deposit": (regular, f"an amount above zero and a rhythm ({', '.join(RHYTHMS)}), as 500 monthly"),
    "withdraw": (regular, f"an amount above zero and a rhythm ({', '.join(RHYTHMS)}), as 100 quarterly"),
    "rebalance": (rhythm, f"one of {', '.join(RHYTHMS)}"),
    "cost": (cost, f"one of {', '.join(COSTS)} and an amount, as flat 1"),
    "lot": (lot, f"a whole number from 1 to {MOST_LOT:,}, as 10"),
}


def put(plan, name, value):
    """A value of the plan; a cost is added to those before it."""
    if name == "cost":
        plan.costs.append(value)
    else:
        setattr(plan, name, value)


def line_fault(path, line, name, equals, value):
    """What is wrong with a line of the plan, or None."""
    if not equals:
        return at(path, line, "has no '='", "write name = value")
    if name not in NAMES:
        return at(path, line, f"'{name}' is no part of a plan", f"use one of {', '.join(NAMES)}")
    if NAMES[name][0](value) is None:
        return at(path, line, f"'{value}' is no value of {name}", f"write {NAMES[name][1]}")
    return None


def read(path):
    """The (name, value) pairs of a plan's file; a line that starts with # is passed over."""
    faults, found = [], []
    for line, text in enumerate(table.text_of(path).splitlines(), 1):
        if not text.strip() or text.lstrip().startswith("#"):
            continue
        name, equals, value = text.partition("=")
        name, value = name.strip().replace(" ", "_"), value.strip()
        fault = line_fault(path, line, name, equals, value)
        if fault:
            faults.append(fault)
        else:
            found.append((name, NAMES[name][0](value)))
    refuse(faults)
    return found


def made(pairs):
    """The plan of these pairs, the later before the earlier."""
    plan = Plan()
    for name, value in pairs:
        put(plan, name, value)
    if not plan.first_deposit and plan.deposit[1] == "never":
        raise Faults(["the plan pays nothing in; give first_deposit or deposit"])
    if len(plan.costs) > MOST_COSTS:
        raise Faults([f"the plan has {len(plan.costs)} costs; the engine takes {MOST_COSTS}: take some out"])
    return plan


def starts(rhythm_name, before, date):
    """Does a new period of the rhythm start between two trading days?"""
    return PERIODS[rhythm_name](before) != PERIODS[rhythm_name](date)


class Day:
    """A trading day of the plan: what is paid in and out before its quotes, and whether weights are followed."""

    def __init__(self, date, deposit, withdraw, rebalance):
        self.date, self.deposit, self.withdraw, self.rebalance = date, deposit, withdraw, rebalance


def schedule(plan, dates):
    """The plan's days: regular payments on the first trading day of each later period, weights also on the first day."""
    found = [Day(dates[0], plan.first_deposit or plan.deposit[0], 0.0, plan.rebalance != "never")]
    for before, date in zip(dates, dates[1:]):
        paid = [amount if starts(rhythm_name, before, date) else 0.0 for amount, rhythm_name in (plan.deposit, plan.withdraw)]
        found.append(Day(date, *paid, starts(plan.rebalance, before, date)))
    return found
