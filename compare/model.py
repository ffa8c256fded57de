"""A plain broker after document 01, with the requests of 02, written for the comparison and from these papers alone: what
each call draws, answers and leaves. The engine is held to it on every line, and it is held to the Rust wherever the
Rust has an answer; the generator reads it to reach deep states and the rules' boundaries. Orders, quotes,
costs and trades are the tuples of scenario/words.py."""

from fractions import Fraction

from scenario.floats import NAN, ceil, div, finite, floor

BOOK = 1024
BUFFER = 1000.0
MOST_LOT = 1000000
# Quotients of this size and above are too large for a lot above 1.
TOO_LARGE = 2.0 ** 52
BUYS = ("mb", "lb", "sb")


def is_buy(order):
    return order[0] in BUYS


def quote_fault(symbol, bid, ask):
    """The number that a row of quotes draws by itself, or 0."""
    if symbol > 255:
        return 1
    return 0 if finite(bid) and finite(ask) and bid > 0.0 and ask > 0.0 else 2


def table_fault(rows):
    """The number that a table of quotes draws, or 0."""
    least = 0
    for symbol, bid, ask, _date in rows:
        number = quote_fault(symbol, bid, ask)
        if number:
            return number
        if symbol < least:
            return 3
        least = symbol + 1
    return 0


def vendor_fault(room, rows):
    """The number that the vendor's rows and the length of the lent table draw, or 0."""
    if room < 256:
        return 15
    if len(rows) > 1024:
        return 22
    for symbol, bid, ask, _date, _revision in rows:
        number = quote_fault(symbol, bid, ask)
        if number:
            return number
    keys = {(symbol, date, revision) for symbol, _bid, _ask, date, revision in rows}
    return 21 if len(keys) < len(rows) else 0


def corrected(room, rows):
    """Document 02, request 5: the number drawn, and the table of the vendor's rows, for each symbol the one of the
    latest date, and of these that of the highest revision."""
    number = vendor_fault(room, rows)
    if number:
        return number, []
    newest = {}
    for symbol, bid, ask, date, revision in rows:
        if symbol not in newest or (date, revision) > newest[symbol][3:]:
            newest[symbol] = symbol, bid, ask, date, revision
    return 0, [newest[symbol][:4] for symbol in sorted(newest)]


def weights_fault(rows):
    least = 0
    for symbol, weight in rows:
        if symbol > 255:
            return 1
        if not finite(weight):
            return 2
        if symbol < least:
            return 3
        least = symbol + 1
    return 0


def order_fault(order):
    _kind, symbol, shares, price = order
    if symbol > 255:
        return 1
    if not finite(shares) or (price is not None and not finite(price)):
        return 2
    return 0


def impact(costs, budget, price, buying):
    for name, amount in costs:
        if name == "per_share":
            price = price + amount if buying else price - amount
        elif name == "pct_of_value":
            budget = budget * (1.0 - amount)
        else:
            budget = budget - amount
    return budget, price


def charges(costs, quantity, value):
    """What the costs charge on a trade, added in their order."""
    sum_ = 0.0
    for name, amount in costs:
        if name == "per_share":
            sum_ += amount * quantity
        elif name == "pct_of_value":
            sum_ += value * amount
        else:
            sum_ += amount
    return sum_


def meets(order, bid, ask):
    """Does a booked order trade at this row?"""
    kind, price = order[0], order[3]
    if kind in ("mb", "ms"):
        return True
    if price is None:
        return kind in ("ls", "sb")
    if kind == "lb":
        return price >= ask
    if kind == "ls":
        return price <= bid
    if kind == "sb":
        return price <= ask
    return price >= bid


def lot_shares(quotient, lot):
    """The greatest multiple of the lot not above a quotient, with its sign; None where the lot is above 1 and the
    quotient is NaN or too large. Worked out in whole numbers: a multiple of a size below 2^53 is a float."""
    if lot == 1:
        return floor(quotient)
    if not abs(quotient) < TOO_LARGE:
        return None
    return quotient if quotient == 0.0 else float(Fraction(quotient) // lot * lot)


class Model:
    def __init__(self):
        self.build(0, 1, [], [])

    def build(self, log, lot, costs, first):
        """Starts anew; answers the number drawn, or 0."""
        self.log = self.lent = log
        self.lot = lot
        self.costs = list(costs)
        self.cash = 0.0
        self.latest, self.held, self.pending = {}, {}, {}
        self.failed = False
        self.waiting, self.resting = [], []
        self.taken = self.given = 0
        self.trades, self.sums, self.bought = [], {"buy": 0.0, "sell": 0.0}, {}
        self.silent = []
        number = self.build_fault(lot, costs, first)
        self.dead = number != 0
        if not self.dead:
            self.latest = {row[0]: row for row in first}
        return number

    @staticmethod
    def build_fault(lot, costs, first):
        if len(costs) > 16:
            return 14
        if not 1 <= lot <= MOST_LOT:
            return 17
        if any(not finite(amount) for _name, amount in costs):
            return 2
        return table_fault(first)

    def broken(self, lends=False):
        return self.dead or (lends and self.lent != self.log)

    def value(self, symbol):
        """The value of a position, or None."""
        if symbol in self.latest and symbol in self.held:
            return self.latest[symbol][1] * self.held[symbol]
        return None

    def total(self):
        sum_ = self.cash
        for symbol in sorted(self.held):
            value = self.value(symbol)
            if value is not None:
                sum_ += value
        return sum_

    def net_value(self, symbol):
        """What the costs leave of a position's value in a sale, or None."""
        value = self.value(symbol)
        return None if value is None else impact(self.costs, value, 0.0, False)[0]

    def liquidation_value(self):
        sum_ = self.cash
        for symbol in sorted(self.held):
            value = self.net_value(symbol)
            if value is not None:
                sum_ += value
        return sum_

    def basis(self, symbol):
        """The cost basis, or None."""
        quantity, value = self.bought.get(symbol, (0.0, 0.0))
        return None if quantity == 0.0 else div(value, quantity)

    def turnover(self):
        """Document 02, request 4: the bought sum where it is below the sold one, else the sold one."""
        bought, sold = self.sums["buy"], self.sums["sell"]
        return bought if bought < sold else sold

    def rows(self, verb):
        """How many rows a read of one of the broker's lists has."""
        return len({"get_positions": self.held, "get_holdings": self.held, "get_pending_orders": self.pending,
                    "get_quotes": self.latest, "get_trade_costs": self.costs}[verb])

    def symbol_read(self, lends, symbol):
        if self.broken(lends):
            return 16
        return 1 if symbol > 255 else 0

    def cost_call(self, one, other):
        if self.dead:
            return 16
        return 0 if finite(one) and finite(other) else 2

    def list_read(self, verb, room):
        if self.dead:
            return 16
        return 15 if room < self.rows(verb) else 0

    def cash_fault(self, amount, heeds_failed=True):
        if self.dead:
            return 16
        if not finite(amount):
            return 2
        return 4 if self.failed and heeds_failed else 0

    def deposit(self, amount):
        number = self.cash_fault(amount)
        if number == 0:
            self.cash = amount + self.cash
        return number

    def withdraw(self, amount):
        number = self.cash_fault(amount)
        if number == 0 and amount > self.cash:
            return 12
        if number == 0:
            self.cash = self.cash - amount
        return number

    def send_fault(self, order):
        kind, symbol, shares, _price = order
        number = order_fault(order)
        if number:
            return number
        if self.failed:
            return 4
        if symbol not in self.latest:
            return 5
        if kind not in ("mb", "ms"):
            return 6
        if kind == "mb" and not self.cash > shares * self.latest[symbol][2]:
            return 7
        if kind == "ms" and symbol in self.held and not self.held[symbol] >= shares:
            return 8
        return 9 if shares == 0.0 else self.room_fault()

    def room_fault(self):
        if self.taken == self.log:
            return 10
        return 11 if len(self.resting) + len(self.waiting) == BOOK else 0

    def take(self, order):
        self.waiting.append(order)
        self.taken += 1

    def send(self, order):
        if self.dead:
            return 16
        number = self.send_fault(order)
        if number == 0:
            self.take(order)
            symbol, shares = order[1], order[2]
            effect = shares if is_buy(order) else -shares
            old = self.pending.get(symbol)
            self.pending[symbol] = effect if old is None else old + effect
        return number

    def insert(self, order):
        if self.dead:
            return 16
        number = order_fault(order) or self.room_fault()
        if number == 0:
            self.take(order)
        return number

    def send_list(self, room, orders):
        """The refusal's number, and the events: each order's number with the order."""
        if self.dead:
            return 16, []
        if room < len(orders):
            return 15, []
        return 0, [(self.send(order), order) for order in orders]

    def delete(self, number):
        if self.dead:
            return 16
        self.resting = [x for x in self.resting if x[0] != number]
        return 0

    def tick(self, rows):
        """The trades, in book order; then the waiting orders are booked."""
        table = {row[0]: row for row in rows}
        trades, kept = [], []
        for number, order in self.resting:
            row = table.get(order[1])
            if row is not None and meets(order, row[1], row[2]):
                side, price = ("buy", row[2]) if is_buy(order) else ("sell", row[1])
                trades.append((side, order[1], order[2], price * order[2], row[3]))
            else:
                kept.append((number, order))
        sells = [order for order in self.waiting if not is_buy(order)]
        buys = [order for order in self.waiting if is_buy(order)]
        for order in sells + buys:
            kept.append((self.given, order))
            self.given += 1
        self.resting, self.waiting = kept, []
        return trades

    def book(self, trade):
        side, symbol, shares, value, _date = trade
        held = self.held.get(symbol, 0.0)
        pending = self.pending.get(symbol, 0.0)
        if side == "buy":
            self.cash, held, pending = self.cash - value, held + shares, pending - shares
        else:
            self.cash, held, pending = value + self.cash, held - shares, pending + shares
        for kept, amount in ((self.held, held), (self.pending, pending)):
            if amount == 0.0:
                kept.pop(symbol, None)
            else:
                kept[symbol] = amount

    def log_trade(self, trade):
        """The log with the trade, and what is folded from it: the sum of its side, and a symbol's quantity and value."""
        side, symbol, shares, value, _date = trade
        self.trades.append(trade)
        self.sums[side] += value
        quantity, sum_ = self.bought.get(symbol, (0.0, 0.0))
        if side == "buy":
            quantity, sum_ = quantity + shares, sum_ + value
        else:
            quantity, sum_ = quantity - shares, sum_ - value
        self.bought[symbol] = (quantity, 0.0 if quantity == 0.0 else sum_)

    def check(self, tradable, fetched):
        """The number drawn, how many traded, and how many sells a shortfall queued."""
        if self.broken(lends=True):
            return 16, 0, 0
        number = table_fault(tradable) or table_fault(fetched)
        return (number, 0, 0) if number else (0,) + self.unrefused_check(tradable, fetched)

    def unrefused_check(self, tradable, fetched):
        trades = self.tick(tradable)
        for row in fetched:
            self.latest[row[0]] = row
        for trade in trades:
            self.log_trade(trade)
            self.book(trade)
        queued = 0
        if self.cash < 0.0:
            raised, queued = self.sell_off(-self.cash + BUFFER)
            self.failed = self.failed or not raised
        return len(trades), queued

    def sales(self, amount):
        """The orders of a liquidation and what is left; None for orders where it cannot begin."""
        if amount > self.liquidation_value():
            return None, amount
        orders, rest = [], amount
        for symbol in sorted(self.held):
            value = self.value(symbol)
            value = 0.0 if value is None else value
            if value <= rest:
                orders.append(("ms", symbol, self.held[symbol], None))
                rest -= value
                continue
            if symbol not in self.latest:
                self.silent.append("unquoted")
                return orders, NAN
            orders.append(("ms", symbol, div(rest, ceil(self.latest[symbol][1])), None))
            return orders, 0.0
        return orders, rest

    def sell_off(self, amount):
        """A liquidation: whether it raised the amount, and how many sells were taken. Notes in `silent` the
        numbers that no answer shows."""
        orders, rest = self.sales(amount)
        if orders is not None and rest == 0.0:
            drawn = [self.send(order) for order in orders]
            self.silent += [number for number in drawn if number]
            return True, drawn.count(0)
        if not amount > self.cash:
            self.cash = self.cash - amount
        return False, 0

    def liquidate(self, amount):
        number = self.cash_fault(amount, heeds_failed=False)
        if number:
            return number
        return 0 if self.sell_off(amount)[0] else 12

    def shares_for(self, difference, row):
        """The shares that a difference comes to, or None where the lot allows none."""
        if difference < 0.0:
            budget, price = impact(self.costs, -difference, row[1], False)
            shares = lot_shares(div(budget, price), self.lot)
            return None if shares is None else -shares
        budget, price = impact(self.costs, difference, row[2], True)
        return lot_shares(div(budget, price), self.lot)

    def plan(self, weights):
        """The number drawn, and the walk's orders: 13 where there is no value, 18 where the lot allows a row none."""
        total = self.liquidation_value()
        if total == 0.0:
            return 13, []
        sells, buys = [], []
        for symbol, weight in weights:
            value = self.value(symbol)
            difference = total * weight - (0.0 if value is None else value)
            if difference == 0.0:
                break
            if symbol not in self.latest:
                continue
            shares = self.shares_for(difference, self.latest[symbol])
            if shares is None:
                return 18, []
            if shares > 0.0:
                buys.append(("mb", symbol, shares, None))
            elif shares != 0.0:
                sells.append(("ms", symbol, abs(shares), None))
        return 0, sells + buys

    def walk(self, room, weights):
        """The refusal's number, and the orders."""
        if self.dead:
            return 16, []
        if room < len(weights):
            return 15, []
        number = weights_fault(weights)
        return (number, []) if number else self.plan(weights)

    def update(self, room, tradable, fetched, weights):
        """The refusal's number, and the events: each order's number with the order."""
        if self.broken(lends=True):
            return 16, []
        if room < len(weights):
            return 15, []
        number = table_fault(tradable) or table_fault(fetched) or weights_fault(weights)
        if number:
            return number, []
        self.unrefused_check(tradable, fetched)
        number, orders = self.plan(weights)
        return number, [(self.send(order), order) for order in orders]
