"""Scenarios of brokers with lots: a player whose weights come near the multiples of its lot and near the bound from
which on a quotient draws 18, and short scenarios on the boundaries of what 02 says of lots. The Rust has no lots: but
for lot 1 the engine is held to the model alone."""

import amounts
from boundaries import beside, hold, price, row, sell_all, start
from play import Play
from player import Player
from scenario import floats

LOTS = [1, 2, 5, 7, 10, 100, 1000, 1000000]
OUTSIDE = [0, 1000001, 4294967295]
BOUND = 2.0 ** 52


def some(rng):
    """A lot, now and then one that draws 17."""
    return rng.choice(OUTSIDE if rng.random() < 0.04 else LOTS)


class LotPlayer(Player):
    """A player of a broker with a lot, who now and then starts anew with another one, or with none."""

    def run(self, length):
        """Where no broker is made a few calls are enough."""
        return super().run(min(length, 8) if self.mix.lot in OUTSIDE else length)

    def aimed(self, symbol):
        """A weight whose quotient without costs is a multiple of the lot, the bound, or beside one; None where there is
        no quote or no value."""
        rng, model = self.rng, self.model
        quoted, total = model.latest.get(symbol), model.liquidation_value()
        if quoted is None or not total:
            return None
        sized = float(model.lot * rng.choice([0, 1, 2, 3, rng.randint(1, 1000)]))
        quotient = rng.choice([1.0, -1.0]) * beside(rng, rng.choice([sized, sized, sized, BOUND]))
        value = model.value(symbol) or 0.0
        weight = floats.div(value + quotient * quoted[2 if quotient > 0.0 else 1], total)
        return weight if floats.finite(weight) else None

    def weight(self, symbol, share):
        aimed = self.aimed(symbol) if self.edgy() else None
        return super().weight(symbol, share) if aimed is None else aimed

    def renew(self):
        """Another broker on the same market; some of its lots are left out or 1, which the Rust has too."""
        rng, mix = self.rng, self.mix
        first = self.market.table([s for s in mix.symbols if rng.random() < 0.95])
        self.play.new(mix.log, mix.costs, first, rng.choice([None] + LOTS))
        self.deposit()

    def faulty(self):
        """As any player's, or a lot outside its range with or without costs and rows that draw a number."""
        rng = self.rng
        if rng.random() < 0.7:
            return super().faulty()
        costs = rng.choice([self.mix.costs, [amounts.cost(rng, False)] * 17, [("flat", self.bad())]])
        rows = self.market.table(self.mix.symbols)
        self.play.new(8, costs, rng.choice([rows, self.bad_table(rows)]), rng.choice(OUTSIDE + [5]))


def player(rng, mix):
    """A player of this mix with a lot, and mostly with money for orders of many lots."""
    mix.lot = some(rng)
    least, most = mix.cash
    if most < 10.0 and rng.random() < 0.8:
        mix.cash = least + len(str(mix.lot)) - 1, most + len(str(mix.lot)) - 1
    mix.calls, mix.shares = mix.calls + ["renew"], mix.shares + [0.5]
    return LotPlayer(rng, mix)


# The boundaries. Prices and cash are powers of two, so that a quotient is the one that is meant, to the bit.

CASH = 2.0 ** 60


def weight_for(quotient, at):
    """The weight of a broker with this cash, whose quotient at this price is so large."""
    return quotient * at / CASH


def quotients(rng, lot):
    """Some that are multiples of the lot, stand beside one, or are too large or just not."""
    one = float(lot * rng.randint(1, 10 ** rng.randint(1, 9)))
    found = [beside(rng, float(lot)), one, beside(rng, one), beside(rng, BOUND), floats.down(BOUND), BOUND - 1.0,
             BOUND - rng.randint(1, 2 * lot), one + 0.5, 2.0 ** -200, rng.uniform(0.0, 3.0 * lot), BOUND + lot]
    return [rng.choice([1.0, -1.0]) * x for x in rng.sample(found, 6)]


def multiples(rng, play):
    """Quotients of both signs at lots of every size, row by row and all in one walk and update."""
    lot = rng.choice(LOTS[1:] + [rng.randint(2, 1000000)])
    at = {symbol: 2.0 ** rng.randint(-30, 5) for symbol in range(6)}
    rows = [row(symbol, at[symbol]) for symbol in at]
    play.new(64, [], rows, lot)
    play.amount("deposit", CASH)
    weights = [(symbol, weight_for(x, at[symbol])) for symbol, x in enumerate(quotients(rng, lot))]
    for one in weights:
        play.walk(1, [one])
    play.walk(6, weights)
    within = [(s, w) for s, w in weights if abs(w * CASH / at[s]) < BOUND]
    play.walk(6, within)
    play.update(6, [], [], rng.choice([weights, within, within]))
    sell_all(play, rows)


def below_costs(rng, play):
    """A flat cost above the difference, and a cost a share above the bid: quotients below zero for buys and sales."""
    lot, at = rng.choice(LOTS), 2.0 ** rng.randint(-4, 4)
    quotient = rng.choice(quotients(rng, lot) + [0.0])
    costs = [("flat", abs(quotient) * at)] if rng.random() < 0.6 else [("per_share", 3.0 * at)]
    play.new(64, costs, [row(2, at), row(3, at, 2.0 * at)], lot)
    play.amount("deposit", CASH)
    for size in (abs(quotient), beside(rng, abs(quotient) / 2.0), float(lot), 1.0, floats.LEAST):
        for sign in (1.0, -1.0):
            play.walk(1, [(rng.choice([2, 3]), weight_for(sign * size, at))])
    play.update(2, [], [], [(2, weight_for(-abs(quotient), at)), (3, weight_for(1.0, at))])
    play.word("state")


def in_place(rng, play):
    """An order, then an unquoted symbol, a zero difference, a quotient of which 18 is drawn, in any order, and a last
    row; the same in an update whose check trades."""
    lot, rows = rng.choice(LOTS), [row(s, 4.0) for s in (1, 2, 4)]
    play.new(16, [], rows, lot)
    play.amount("deposit", CASH)
    play.order("send", ("mb", 1, float(lot), None))
    play.check([], rows)
    few = weight_for(3.5 * lot, 4.0)
    parts = rng.sample([few, weight_for(BOUND, 4.0), 0.0, few, -weight_for(BOUND, 4.0)], 4)
    weights = list(zip((1, 2, 3, 4), parts))
    play.walk(4, weights)
    play.update(4, rows, rng.choice([rows, []]), weights)
    play.word("state")
    play.update(2, [], [], [(2, few), (4, few)])
    sell_all(play, rows)


def not_a_size(rng, play):
    """NaN and infinite quotients: no price and no budget, no price, or too tiny a price; lot 1 lists orders of them."""
    lot, costs = rng.choice(LOTS), rng.choice([
        [("pct_of_value", 1.0), ("per_share", 8.0)], [("per_share", 8.0)], [("flat", 1e18), ("per_share", 8.0)], []])
    play.new(16, costs, [row(1, 8.0 if costs else floats.LEAST), row(2, 4.0)], lot)
    play.amount("deposit", CASH)
    play.walk(1, [(1, rng.choice([-0.5, 0.5]))])
    play.walk(2, [(1, -0.5), (2, 0.5)])
    play.update(2, [], [], [(1, rng.choice([-0.5, 0.5])), (2, rng.choice([0.5, 1e-12]))])
    play.word("state")


def range_of_lots(rng, play):
    """Lots at the ends of their range, with costs and rows that draw 14, 2 and 1 to 3, or none; then calls."""
    costs = [("flat", rng.choice([1.0, 1.0, floats.NAN]))] * rng.choice([0, 1, 16, 17])
    rows = rng.choice([[row(1, 2.0)], [row(256, 2.0)], [row(1, 0.0)], [row(1, 2.0), row(1, 2.0)]])
    for lot in rng.sample([0, 1, 2, 999999, 1000000, 1000001, 4294967295], 4):
        play.new(8, costs, rows, lot)
        play.amount("deposit", 1e9)
        play.walk(1, [(1, 0.5)])
    play.new(8, [], [row(1, 2.0)], rng.choice([1000000, 999999, 2]))
    play.amount("deposit", 4e6)
    play.update(1, [], [], [(1, beside(rng, 0.5))])


def no_value_first(rng, play):
    """13 before 18: a flat cost of the position's value leaves no value, a cost a share of the bid no price."""
    shares, bid = float(rng.randint(1, 50)), float(rng.randint(1, 50))
    play.new(8, [("flat", shares * bid), ("per_share", bid)], [row(1, bid)], rng.choice(LOTS[1:]))
    play.amount("deposit", shares * bid)
    play.order("insert", ("mb", 1, shares, None))
    play.check([], [])
    play.check([row(1, bid)], [])
    play.walk(1, [(1, 0.5)])
    play.update(1, [], [row(1, bid)], [(1, 0.5)])
    play.amount("deposit", 1.0)
    play.walk(1, [(1, 0.5)])
    play.update(1, [], [], [(1, 0.5)])


def sales_keep_fractions(rng, play):
    """A liquidation and a shortfall at a large lot: whole positions, and a fraction of the last."""
    rows = [row(s, price(rng)) for s in (2, 9)]
    play.new(64, [], rows, rng.choice(LOTS[3:]))
    play.amount("deposit", float(rng.randint(200, 3000)))
    for symbol in (2, 9):
        hold(play, symbol, float(rng.randint(1, 300)), rows)
    model = play.model
    for amount in (model.value(2), (model.value(2) + model.value(9)) / 2.0, model.value(9) / 3.0, 0.5):
        play.amount("liquidate", amount)
    play.order("insert", ("mb", 2, floats.floor(model.cash / rows[0][1]) + rng.randint(-3, 60), None))
    sell_all(play, rows)
    play.update(2, rows, rows, [(2, 0.4), (9, 0.3)])
    sell_all(play, rows)


def examples(rng, play):
    """Examples 10 and 11 of document 01 at every lot, with the word and without."""
    for lot in [None] + LOTS:
        start(play, 1000.0, [row(3, 30.0)], lot=lot)
        play.walk(1, [(3, 0.5)])
        play.update(1, [], [], [(3, 0.5)])
        start(play, 10.0, [row(3, 100.0)], [("flat", 10.0)], lot=lot)
        play.walk(1, [(3, 0.5)])
        play.walk(1, [(3, -0.5)])


TEMPLATES = [multiples, multiples, below_costs, in_place, not_a_size, range_of_lots, no_value_first,
             sales_keep_fractions, examples]


def scenario(rng):
    play = Play()
    rng.choice(TEMPLATES)(rng, play)
    return play
