"""Generates scenarios from a seed: families of random ones of every length and mixture, and those
of boundaries.py; the same with lots, and those of lots.py. As a program it prints them: scenarios.py [--seed N]
[--count N] [--single] [--lots]."""

import argparse
import os
import random
import sys

# Nothing is written beside the sources; tools/ has the shared package.
sys.dont_write_bytecode = True
sys.path.insert(0, os.path.join(os.path.dirname(os.path.dirname(os.path.abspath(__file__))), "tools"))

import amounts
import boundaries
import lots
import single
from player import Mix, Player

TRADING = {"deposit": 5, "withdraw": 3, "liquidate": 3, "send": 22, "send_list": 4, "insert": 6,
           "delete": 3, "check": 24, "walk": 4, "update": 8, "read": 8, "figure": 3, "state": 1, "relend": 1}


def length(rng):
    choice = rng.random()
    if choice < 0.15:
        return rng.randint(1, 10)
    return rng.randint(10, 80) if choice < 0.45 else rng.randint(80, 300)


def some_symbols(rng, least=1, most=8):
    return sorted(rng.sample(range(256), rng.randint(least, most)))


def calls(**shares):
    """The trading mixture with other shares for some calls."""
    return {**TRADING, **shares}


def ordinary(rng, player=Player):
    mix = Mix(rng, some_symbols(rng), TRADING, move=rng.choice([0.01, 0.05, 0.2]), edge=rng.choice([0.03, 0.15]))
    return player(rng, mix).run(length(rng))


def rebalancing(rng, player=Player):
    """A model portfolio: an update nearly every day."""
    mix = Mix(rng, some_symbols(rng, 1, 12), calls(update=60, send=4, insert=1, liquidate=2, deposit=2),
              move=rng.choice([0.02, 0.1]), edge=rng.choice([0.0, 0.05, 0.3]))
    return player(rng, mix).run(length(rng))


def wide(rng, player=Player):
    """Tiny and huge amounts and prices, mixed with ordinary ones."""
    mix = Mix(rng, some_symbols(rng, 1, 5), TRADING, wild=rng.choice([0.02, 0.1, 0.5]), move=0.3)
    return player(rng, mix).run(min(length(rng), 120))


def extreme(rng, player=Player):
    """All amounts of one far size, so that infinities, NaNs and subnormals are worked out inside."""
    level, cash = rng.choice([((300.0, 307.9), (300.0, 308.0)), ((-308.0, -300.0), (-310.0, -300.0)),
                              ((-320.0, -310.0), (-315.0, -305.0)), ((150.0, 160.0), (290.0, 308.0)),
                              ((290.0, 300.0), (305.0, 308.2)), ((-3.0, 1.0), (14.0, 20.0))])
    mix = Mix(rng, some_symbols(rng, 1, 4), calls(deposit=12), wild=rng.choice([0.0, 0.0, 0.05]),
              level=level, cash=cash, move=rng.choice([0.1, 0.6]))
    return player(rng, mix).run(min(length(rng), 100))


def unquoted(rng, player=Player):
    """Some symbols are tradable and never fetched, so that they are held without a quote."""
    symbols = some_symbols(rng, 2, 7)
    count = rng.randint(1, max(1, len(symbols) // 2))
    hidden = symbols[-count:] if rng.random() < 0.7 else symbols[:count]
    shown = [s for s in symbols if s not in hidden]
    mix = Mix(rng, shown, calls(insert=25, liquidate=2, update=10), hidden=hidden, move=0.03)
    return player(rng, mix).run(length(rng))


def falling(rng, player=Player):
    """Prices jump after buys of nearly all the cash: shortfalls, liquidations, Failed brokers."""
    mix = Mix(rng, some_symbols(rng, 1, 5), calls(send=35, check=35, update=12, deposit=2, insert=2, delete=1),
              move=rng.choice([0.1, 0.4, 0.8]), edge=rng.choice([0.05, 0.5]), greed=0.8, cash=rng.choice([(2.0, 4.0), (4.0, 7.0)]))
    return player(rng, mix).run(length(rng))


def short_log(rng):
    mix = Mix(rng, some_symbols(rng, 1, 4), calls(send=40, insert=15, update=15), log=rng.randint(0, 40))
    return Player(rng, mix).run(min(length(rng), 150))


def resting(rng):
    """Limit and stop orders by direct insertion, deletions, and rows that meet their prices."""
    mix = Mix(rng, some_symbols(rng, 1, 5), calls(insert=45, delete=14, check=30, update=3, liquidate=1),
              move=rng.choice([0.02, 0.1]), hidden=rng.choice([[], [], [255]]))
    mix.symbols = [s for s in mix.symbols if s not in mix.hidden] or [7]
    return Player(rng, mix).run(min(length(rng), 150))


def figures(rng):
    """The cost functions and the roundings."""
    mix = Mix(rng, some_symbols(rng, 1, 2), {"figure": 60, "read": 2, "deposit": 1}, wild=0.3,
              costs=[amounts.cost(rng, True) for _ in range(rng.randint(0, 16))])
    mix.quiet = rng.random() < 0.9
    return Player(rng, mix).run(length(rng))


def faulty(rng, player=Player):
    """Many calls that draw added numbers."""
    mix = Mix(rng, some_symbols(rng, 1, 5), TRADING, fault=0.3, hidden=[], log=rng.choice([6, 300]))
    return player(rng, mix).run(rng.randint(2, 25))


def many_symbols(rng, player=Player):
    """Up to 256 symbols; what the broker holds is written now and then."""
    count = rng.choice([40, 100, 256])
    symbols = list(range(256)) if count == 256 else sorted(rng.sample(range(256), count))
    mix = Mix(rng, symbols, calls(update=30, check=15, walk=2), quiet=True, edge=rng.choice([0.0, 0.002, 0.05]),
              cash=(6.0, 8.0), log=65536, fault=0.0, move=rng.choice([0.01, 0.3]), greed=rng.choice([0.0, 0.1]))
    return player(rng, mix).run(rng.randint(10, 60) if rng.random() < 0.9 else 300)


def heavy(rng, player):
    """Money and prices whose quotients come to 2^52, from both sides."""
    mix = Mix(rng, some_symbols(rng, 1, 5), calls(update=30, walk=30, deposit=10), level=(-2.0, 1.0),
              cash=rng.choice([(13.0, 15.0), (15.0, 17.0)]), edge=0.3)
    return player(rng, mix).run(min(length(rng), 100))


def costly(rng, player):
    """Costs as large as what is to be moved and as the prices, so that quotients fall below zero."""
    given = [("flat", 10.0 ** rng.uniform(1.0, 5.0)), ("per_share", 10.0 ** rng.uniform(0.0, 3.0)),
             ("pct_of_value", rng.choice([0.5, 1.0, 1.5]))]
    given = rng.sample(given, rng.choice([1, 1, 2, 3]))
    mix = Mix(rng, some_symbols(rng, 1, 5), calls(update=40, walk=20), costs=given)
    return player(rng, mix).run(min(length(rng), 150))


FAMILIES = [(ordinary, 20), (rebalancing, 14), (wide, 10), (extreme, 9), (unquoted, 8), (falling, 14),
            (short_log, 5), (resting, 10), (figures, 3), (faulty, 6), (many_symbols, 0.3),
            (boundaries.scenario, 12), (boundaries.full_book, 0.15)]
# Those that a player with a lot plays, and how often.
LOT_FAMILIES = [(ordinary, 6), (rebalancing, 12), (wide, 4), (extreme, 4), (unquoted, 4), (falling, 5), (faulty, 8),
                (heavy, 8), (costly, 8), (many_symbols, 0.2)]


def scenarios(seed):
    """Scenarios without end: a family's name and a Play."""
    rng = random.Random(seed)
    families = [family for family, _share in FAMILIES]
    shares = [share for _family, share in FAMILIES]
    while True:
        family = rng.choices(families, shares)[0]
        yield family.__name__, family(rng)


def lot_scenarios(seed):
    """Scenarios with lots, of which lot 1 alone is the Rust's too."""
    rng = random.Random(seed)
    families = [family for family, _share in LOT_FAMILIES]
    shares = [share for _family, share in LOT_FAMILIES]
    while True:
        if rng.random() < 0.5:
            yield "boundary", lots.scenario(rng)
        else:
            family = rng.choices(families, shares)[0]
            yield family.__name__, family(rng, lots.player)


def single_scenarios(seed):
    """Scenarios in which at most one sell and one buy wait, and one symbol is held and weighted."""
    rng = random.Random(seed)
    while True:
        yield "single", single.scenario(rng)


def main():
    options = argparse.ArgumentParser(description=__doc__)
    options.add_argument("--seed", type=int, default=1)
    options.add_argument("--count", type=int, default=10)
    options.add_argument("--single", action="store_true", help="those for the unchanged Rust")
    options.add_argument("--lots", action="store_true", help="those with lots")
    given = options.parse_args()
    source = (single_scenarios if given.single else lot_scenarios if given.lots else scenarios)(given.seed)
    for _ in range(given.count):
        name, play = next(source)
        print("# " + name)
        print("\n".join(["full"] + play.lines))


if __name__ == "__main__":
    main()
