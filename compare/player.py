"""One random player: chooses the next call of a scenario from what the broker holds, so that most
orders are taken and trade, and a good part of the calls stands exactly on a rule's boundary."""

import amounts
from market import Market
from play import Play
from scenario import floats

KINDS = ["mb", "ms", "lb", "ls", "sb", "ss"]
SYMBOL_READS = ["get_quote", "get_position_qty", "get_pending_order", "get_position_value",
                "get_position_liquidation_value", "cost_basis"]
LIST_READS = ["get_positions", "get_quotes", "get_holdings", "get_pending_orders", "get_trade_costs"]
PLAIN_READS = ["get_total_value", "get_liquidation_value", "get_cash_balance", "turnover",
               "get_broker_state", "executed_trade_count"]


class Mix:
    """What a player does how often, and in which market."""

    def __init__(self, rng, symbols, calls, **given):
        self.symbols = symbols
        self.hidden = given.get("hidden", [])
        self.log = given.get("log", 4096)
        self.lot = given.get("lot")
        self.wild = given.get("wild", 0.0)
        self.move = given.get("move", 0.05)
        self.level = given.get("level", (1.0, 3.0))
        self.fault = given.get("fault", 0.001)
        self.edge = given.get("edge", 0.15)
        self.cash = given.get("cash", (3.0, 6.0))
        self.greed = given.get("greed", 0.1)
        self.costs = given["costs"] if "costs" in given else amounts.costs(rng, self.wild > 0.0)
        self.quiet = given.get("quiet", False)
        self.calls = list(calls.keys())
        self.shares = list(calls.values())


class Player:
    def __init__(self, rng, mix):
        self.rng = rng
        self.mix = mix
        self.play = Play()
        self.model = self.play.model
        self.market = Market(rng, mix.symbols + mix.hidden, mix.wild, mix.move, mix.level)

    def run(self, length):
        """A scenario of this many calls."""
        rng, mix = self.rng, self.mix
        first = [s for s in mix.symbols if rng.random() < 0.95]
        self.play.new(mix.log, mix.costs, self.market.table(first), mix.lot)
        if mix.quiet:
            self.play.word("quiet")
        if rng.random() < 0.85:
            self.deposit()
        while len(self.play.lines) < length:
            if self.model.failed:
                # A Failed broker refuses most calls: a few of them are enough.
                length = min(length, len(self.play.lines) + 12)
            if rng.random() < mix.fault:
                self.faulty()
            else:
                getattr(self, rng.choices(mix.calls, mix.shares)[0])()
            if mix.quiet and rng.random() < 0.1:
                self.play.word("state")
        return self.play

    # amounts

    def money(self):
        rng = self.rng
        if rng.random() < self.mix.wild:
            return amounts.wild(rng)
        amount = amounts.neat(rng, 10.0 ** rng.uniform(*self.mix.cash))
        return -amount if rng.random() < 0.05 else amount

    def beside(self, x):
        """x itself, or the float above or below it."""
        choice = self.rng.random()
        moved = x if choice < 0.6 else floats.up(x) if choice < 0.8 else floats.down(x)
        return moved if floats.finite(moved) else 0.0

    def part(self, x):
        """Some of x, at times all of it or a little more."""
        part = amounts.neat(self.rng, x * self.rng.uniform(0.0, 1.05))
        return part if floats.finite(part) else self.money()

    def edgy(self):
        return self.rng.random() < self.mix.edge

    # cash

    def deposit(self):
        self.play.amount("deposit", self.money())

    def withdraw(self):
        cash = self.model.cash
        choice = self.rng.random()
        if choice < 0.2:
            amount = self.money()
        else:
            amount = self.beside(cash) if self.edgy() else self.part(cash * self.rng.choice([0.1, 0.5, 1.0]))
        self.play.amount("withdraw", amount if floats.finite(amount) else 1.0)

    def liquidate(self):
        model, rng = self.model, self.rng
        value = model.liquidation_value()
        choice = rng.random()
        if choice < 0.1:
            amount = self.money()
        elif choice < 0.15:
            amount = rng.choice([0.0, -0.0, floats.LEAST, -1.0, 1e-9])
        elif choice < 0.4:
            amount = self.beside(rng.choice([value, self.worth(rng.randint(1, 3))]))
        else:
            amount = self.part(rng.choice([value, value - model.cash, self.worth(1)]))
        self.play.amount("liquidate", amount if floats.finite(amount) else 1.0)

    def worth(self, count):
        """The value of the first few positions."""
        values = [self.model.value(symbol) for symbol in sorted(self.model.held)[:count]]
        return sum((v for v in values if v is not None), 0.0)

    # orders

    def quoted(self):
        known = list(self.model.latest)
        return self.rng.choice(known) if known else None

    def odd_shares(self):
        rng = self.rng
        if rng.random() < self.mix.wild:
            return amounts.wild(rng)
        return rng.choice([0.0, -0.0, 1.0, -1.0, 0.5, 1e-9, float(rng.randint(-50, 50))])

    def buy(self, symbol):
        if self.rng.random() < 0.05:
            return "mb", symbol, self.odd_shares(), None
        ask = self.model.latest[symbol][2]
        if self.edgy():
            shares = self.beside(floats.div(self.model.cash, ask))
        else:
            shares = floats.div(self.free_cash(), ask)
            shares = amounts.neat(self.rng, shares * self.rng.choice([0.02, 0.1, 0.3, 0.9]) * self.rng.random())
        return "mb", symbol, shares if floats.finite(shares) else 1.0, None

    def free_cash(self):
        """Cash less what booked and waiting buys may take; a greedy player does not look at these."""
        cash = self.model.cash
        if self.rng.random() < self.mix.greed:
            return cash
        orders = [order for _number, order in self.model.resting] + self.model.waiting
        bound = sum(o[2] * self.market.mid[o[1]] for o in orders if o[0] in ("mb", "lb", "sb"))
        return max(cash - 1.1 * bound, 0.0) if bound > 0.0 else cash

    def sell(self, symbol):
        held = self.model.held.get(symbol)
        if held is None or not floats.finite(held) or self.rng.random() < 0.05:
            shares = float(self.rng.randint(1, 20)) if self.rng.random() < 0.7 else self.odd_shares()
        else:
            shares = self.beside(held) if self.edgy() else self.part(held)
        return "ms", symbol, shares, None

    def market_order(self):
        rng, held = self.rng, sorted(self.model.held)
        symbol = self.quoted()
        if symbol is None:
            return None
        if rng.random() < 0.6:
            return self.buy(symbol)
        usable = [s for s in held if s in self.model.latest]
        if usable and rng.random() < 0.85:
            return self.sell(rng.choice(usable))
        return self.sell(symbol)

    def any_order(self):
        """An order of any of the six kinds, for a direct insertion."""
        rng = self.rng
        symbol = rng.choice(self.mix.symbols + self.mix.hidden * 3)
        mid = self.market.mid[symbol]
        row = self.model.latest.get(symbol, (symbol, mid, mid, 0))
        price = rng.choice([None, row[1], row[2], mid * rng.uniform(0.9, 1.1), mid * 2.0, mid / 2.0,
                            self.beside(row[2]), -1.0, 0.0, self.money()])
        shares = float(rng.randint(1, 30)) if rng.random() < 0.9 else self.odd_shares()
        if rng.random() < 0.3 and floats.finite(self.model.cash):
            shares = self.part(floats.div(self.free_cash(), mid) * 0.3)
        if price is not None and not floats.finite(price):
            price = None
        return rng.choice(KINDS), symbol, shares, price

    def send(self):
        order = self.market_order()
        if order is None:
            return self.check()
        self.play.order("send", order)

    def insert(self):
        self.play.order("insert", self.any_order())

    def send_list(self):
        rng = self.rng
        orders = [self.market_order() for _ in range(rng.choice([0, 1, 2, 3, 5, 8]))]
        orders = [order for order in orders if order is not None]
        self.play.send_list(len(orders) + rng.choice([0, 0, 1, 7]), orders)

    def delete(self):
        rng, resting = self.rng, self.model.resting
        if resting and rng.random() < 0.75:
            number = rng.choice(resting)[0]
        else:
            given = self.model.given
            number = rng.choice([rng.randint(0, given), given, given + len(self.model.waiting), 2 ** 64 - 1])
        self.play.delete(number)

    # checks and weights

    def tables(self):
        """The tradable table and the fetched one, of the same day or of two."""
        rng, mix = self.rng, self.mix
        self.market.step()
        tradable = [s for s in mix.symbols if rng.random() < 0.9] + mix.hidden
        today = self.market.meet_prices(self.market.table(tradable), self.model.resting)
        choice = rng.random()
        if choice < 0.7:
            return today, [row for row in today if row[0] not in mix.hidden]
        if choice < 0.9:
            return today, self.market.table([s for s in mix.symbols if rng.random() < 0.9])
        return (today, []) if choice < 0.95 else ([], self.market.table(mix.symbols))

    def check(self):
        self.play.check(*self.tables())

    def weight(self, symbol, share):
        """A weight; at times one that gives a zero difference, or one of any size."""
        rng, model = self.rng, self.model
        if not self.edgy():
            return amounts.neat(rng, share)
        value, total = model.value(symbol), model.liquidation_value()
        choice = rng.random()
        if value is not None and total and choice < 0.5:
            weight = floats.div(value, total)
            return weight if floats.finite(weight) else 0.0
        if choice < 0.7:
            return rng.choice([0.0, -0.0, 1.0, -0.5, 1.5])
        return amounts.wild(rng) if rng.random() < self.mix.wild else share

    def weights(self):
        rng = self.rng
        symbols = [s for s in self.mix.symbols if rng.random() < 0.8]
        size = rng.uniform(0.3, 1.1) if rng.random() < self.mix.greed else rng.uniform(0.1, 0.5)
        shares = [rng.random() for _ in symbols]
        whole = sum(shares) or 1.0
        return [(s, self.weight(s, size * x / whole)) for s, x in zip(symbols, shares)]

    def room(self, rows):
        return len(rows) + self.rng.choice([0, 0, 1, 20])

    def walk(self):
        if self.model.liquidation_value() == 0.0:
            return self.deposit()
        weights = self.weights()
        self.play.walk(self.room(weights), weights)

    def update(self):
        if not self.model.held and not self.model.resting and self.model.cash == 0.0:
            return self.deposit()
        weights = self.weights()
        tradable, fetched = self.tables()
        self.play.update(self.room(weights), tradable, fetched, weights)

    # reads

    def read(self):
        rng = self.rng
        choice = rng.random()
        if choice < 0.35:
            self.play.read(rng.choice(PLAIN_READS))
        elif choice < 0.65:
            verb = rng.choice(LIST_READS)
            self.play.list_read(verb, self.model.rows(verb) + rng.choice([0, 0, 1, 20]))
        else:
            symbol = rng.choice(self.mix.symbols + self.mix.hidden + [rng.randint(0, 255)])
            self.play.symbol_read(rng.choice(SYMBOL_READS), symbol)

    def figure(self):
        """A call of a cost function or a rounding."""
        rng = self.rng
        choice = rng.random()
        if choice < 0.35:
            self.play.rounding(rng.choice(["floor", "ceil"]), amounts.any_float(rng))
            return
        one, other = (amounts.wild(rng), amounts.wild(rng)) if rng.random() < 0.5 else (self.money(), self.money())
        if choice < 0.7:
            self.play.impact(one, other, rng.choice(["buy", "sell"]))
        else:
            self.play.charges(one, other)

    def state(self):
        self.play.word("state")

    def relend(self):
        self.play.lend(self.mix.log)

    # what draws added numbers

    def bad(self):
        return self.rng.choice([floats.NAN, floats.INF, -floats.INF])

    def bad_row(self, row):
        """A row that draws 1 or 2."""
        symbol, bid, ask, date = row
        return self.rng.choice([
            (self.rng.choice([256, 1000, 4294967295]), bid, ask, date), (symbol, self.bad(), ask, date),
            (symbol, bid, self.bad(), date), (symbol, 0.0, ask, date), (symbol, bid, -0.0, date),
            (symbol, -bid, ask, date), (symbol, bid, -ask, date), (256, self.bad(), 0.0, date)])

    def bad_table(self, rows):
        """A table that draws 1, 2 or 3 somewhere, or now and then none."""
        rng, rows = self.rng, list(rows)
        if not rows:
            return [self.bad_row((0, 1.0, 1.0, 0))]
        at = rng.randrange(len(rows))
        choice = rng.random()
        if choice < 0.6:
            rows[at] = self.bad_row(rows[at])
        elif choice < 0.8:
            rows.insert(at, rows[at])
        else:
            rng.shuffle(rows)
        return rows

    def bad_weights(self, rows):
        rng, rows = self.rng, list(rows) or [(3, 0.5)]
        at = rng.randrange(len(rows))
        symbol, weight = rows[at]
        rows[at] = rng.choice([(256, weight), (symbol, self.bad()), (4294967295, self.bad())])
        if rng.random() < 0.3:
            rows = list(reversed(rows)) + rows
        return rows

    def bad_order(self):
        rng = self.rng
        kind, symbol, shares, price = self.any_order()
        return rng.choice([(kind, 256, shares, price), (kind, symbol, self.bad(), price),
                           (kind, symbol, shares, self.bad()), (kind, 4294967295, self.bad(), price)])

    def cramped_read(self):
        """A read to a list that is short of one row, or of all."""
        verb = self.rng.choice(LIST_READS)
        self.play.list_read(verb, self.rng.choice([0, max(self.model.rows(verb) - 1, 0)]))

    def faulty(self):
        """A call that draws an added number, 5, 6 or 13, or is near to it."""
        rng, play = self.rng, self.play
        tradable, fetched = self.tables()
        weights = self.weights()
        bad_tradable = self.bad_table(tradable) if rng.random() < 0.5 else tradable
        bad_fetched = self.bad_table(fetched) if rng.random() < 0.5 else fetched
        bad_weights = self.bad_weights(weights) if rng.random() < 0.5 else weights
        rng.choice([
            lambda: play.amount(rng.choice(["deposit", "withdraw", "liquidate"]), self.bad()),
            lambda: play.order(rng.choice(["send", "insert"]), self.bad_order()),
            lambda: play.order("send", self.any_order()),
            lambda: play.order("send", (rng.choice(KINDS[:2]), rng.randint(0, 255), 1.0, None)),
            lambda: play.send_list(rng.choice([3, 9]), [self.bad_order(), self.any_order(), self.any_order()]),
            lambda: play.send_list(1, [self.any_order(), self.any_order()]),
            lambda: play.check(bad_tradable, bad_fetched),
            lambda: play.walk(len(bad_weights), bad_weights),
            lambda: play.walk(max(len(weights) - 1, 0), weights),
            lambda: play.update(rng.choice([len(weights), 0, 512]), bad_tradable, bad_fetched, bad_weights),
            lambda: play.lend(rng.choice([0, self.mix.log + 1, self.mix.log - 1 if self.mix.log else 1])),
            lambda: play.symbol_read(rng.choice(SYMBOL_READS), rng.choice([256, 300, 4294967295])),
            self.cramped_read,
            lambda: play.impact(self.bad(), 1.0, "buy"),
            lambda: play.charges(1.0, self.bad()),
            lambda: play.new(8, [amounts.cost(rng, False) for _ in range(rng.choice([17, 32]))], fetched),
            lambda: play.new(8, [("flat", self.bad())], fetched),
            lambda: play.new(8, self.mix.costs, self.bad_table(fetched)),
        ])()
