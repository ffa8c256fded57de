"""Scenarios for the unchanged Rust, whose maps walk in random order and whose sort is no total order:
at most one sell and one buy wait at a time, and one symbol alone is traded and weighted."""

import copy

from market import Market
from model import is_buy
from player import Mix, Player

CALLS = {"deposit": 6, "withdraw": 4, "liquidate": 4, "send": 25, "insert": 12, "delete": 4, "check": 30,
         "walk": 6, "update": 14, "read": 8, "figure": 2, "state": 1}


def one_of_each(model):
    buys = sum(1 for order in model.waiting if is_buy(order))
    return buys <= 1 and len(model.waiting) - buys <= 1


class SinglePlayer(Player):
    """A player that takes back each call after which too much waits, also inside an update."""

    def __init__(self, rng, mix):
        super().__init__(rng, mix)
        self.one = mix.symbols[0]
        self.others = Market(rng, [s for s in rng.sample(range(256), rng.randint(0, 3)) if s != self.one], 0.0, 0.05)
        self.crowded = False
        book = self.model.take

        def take(order):
            book(order)
            self.crowded = self.crowded or not one_of_each(self.model)
        self.model.take = take

    def guarded(self, call):
        kept = {key: copy.copy(value) for key, value in vars(self.model).items() if key != "take"}
        view = dict(vars(self.play.view))
        count = len(self.play.lines)
        self.crowded = False
        call()
        if self.crowded:
            vars(self.model).update(kept)
            vars(self.play.view).update(view)
            del self.play.lines[count:], self.play.due[count:]

    def quoted(self):
        return self.one if self.one in self.model.latest else None

    def tables(self):
        """With rows of symbols that are quoted and never traded."""
        others = self.others.table(self.others.mid)
        return tuple(sorted(table + others) for table in super().tables())

    def run(self, length):
        rng, mix = self.rng, self.mix
        self.play.new(mix.log, mix.costs, self.market.table(mix.symbols))
        tries = 0
        while len(self.play.lines) < length and tries < 3 * length:
            tries += 1
            self.guarded(getattr(self, rng.choices(mix.calls, mix.shares)[0]))
        return self.play


def scenario(rng):
    level, cash, wild = rng.choice([((1.0, 3.0), (3.0, 6.0), 0.0), ((1.0, 3.0), (3.0, 6.0), 0.1),
                                    ((290.0, 300.0), (305.0, 308.2), 0.0), ((-320.0, -310.0), (-315.0, -305.0), 0.0)])
    mix = Mix(rng, [rng.randint(0, 255)], CALLS, level=level, cash=cash, wild=wild, move=rng.choice([0.05, 0.3, 1.0]))
    return SinglePlayer(rng, mix).run(rng.randint(5, 120))
