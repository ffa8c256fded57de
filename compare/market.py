"""Random quotes for scenarios: prices that move, tables of them, and rows that stand exactly on a
resting order's price."""

import amounts
from scenario import floats


class Market:
    """Mid prices by symbol. `wild` is how often a price is of any size, `move` how far prices go."""

    def __init__(self, rng, symbols, wild, move, level=(1.0, 3.0)):
        self.rng = rng
        self.wild = wild
        self.move = move
        self.level = level
        self.date = rng.choice([100, 0, -5, 1700000000, -9223372036854775808, 9223372036854775000])
        self.mid = {symbol: self.fresh() for symbol in symbols}

    def fresh(self):
        if self.rng.random() < self.wild:
            return amounts.positive(self.rng)
        return amounts.neat(self.rng, 10.0 ** self.rng.uniform(*self.level))

    def step(self):
        """The next day."""
        rng = self.rng
        self.date = min(self.date + 1, 9223372036854775807)
        for symbol in self.mid:
            if rng.random() < 0.02 + 0.2 * self.wild:
                self.mid[symbol] = self.fresh()
            elif rng.random() < 0.9:
                moved = self.mid[symbol] * 2.0 ** rng.gauss(0.0, self.move)
                if 0.0 < moved < floats.INF:
                    self.mid[symbol] = amounts.neat(rng, moved)

    def row(self, symbol):
        rng, mid = self.rng, self.mid[symbol]
        spread = rng.choice([0.0, 0.0, 0.001, 0.01, 0.1, -0.01])
        bid, ask = mid * (1.0 - spread), mid * (1.0 + spread)
        bid = bid if bid > 0.0 else floats.LEAST
        ask = ask if 0.0 < ask < floats.INF else mid
        date = self.date if rng.random() < 0.97 else rng.randint(-2 ** 63, 2 ** 63 - 1)
        return symbol, bid, ask, date

    def table(self, symbols):
        return [self.row(symbol) for symbol in sorted(symbols)]

    def meet_prices(self, table, resting):
        """Some rows with a bid or an ask that is a resting order's price, or the float beside it."""
        rng = self.rng
        prices = {order[1]: order[3] for _number, order in resting if order[3] is not None}
        rows = []
        for symbol, bid, ask, date in table:
            price = prices.get(symbol, 0.0)
            if floats.finite(price) and price > 0.0 and rng.random() < 0.3:
                price = rng.choice([price, price, floats.up(price), floats.down(price)])
                if 0.0 < price < floats.INF:
                    bid, ask = rng.choice([(price, ask), (bid, price), (price, price)])
            rows.append((symbol, bid, ask, date))
        return rows
