"""Short scenarios on the boundaries of document 01's rules, with random numbers in them: each one
stands on a boundary or on the float beside it."""

import amounts
from play import Play
from player import LIST_READS
from scenario import floats

SIDES = ["get_total_value", "get_liquidation_value", "get_cash_balance", "turnover"]


def start(play, cash, rows, costs=(), log=64, lot=None):
    play.new(log, list(costs), rows, lot)
    if cash != 0.0:
        play.amount("deposit", cash)


def row(symbol, bid, ask=None, date=100):
    return symbol, bid, bid if ask is None else ask, date


def beside(rng, x):
    return rng.choice([x, x, floats.up(x), floats.down(x)])


def price(rng):
    return amounts.neat(rng, 10.0 ** rng.uniform(0.0, 3.0))


def hold(play, symbol, shares, rows):
    """Buys and books shares at a low price, so that the holding is exact."""
    play.order("insert", ("mb", symbol, shares, None))
    play.check([], rows)
    play.check([row(symbol, 0.25)], rows)


def sell_all(play, rows):
    play.check(rows, rows)
    play.check(rows, rows)


def examples(rng, play):
    """The fourteen examples of document 01."""
    for ask in (100.0, 99.0):
        start(play, 100.0, [row(3, ask)])
        play.order("send", ("mb", 3, 1.0, None))
    for amount in (100.0, 101.0):
        start(play, 100.0, [])
        play.amount("withdraw", amount)
    for amount in (50.0, 101.0):
        start(play, 100.0, [])
        play.amount("liquidate", amount)
    for kind, limit in (("ls", None), ("sb", 100.0)):
        start(play, 100.0, [row(3, 99.0)])
        play.order("insert", (kind, 3, 1.0, limit))
        sell_all(play, [row(3, 99.0)])
    start(play, 1000.0, [row(0, 5.0), row(1, 5.0), row(2, 5.0)])
    for kind, symbol in (("mb", 0), ("ms", 1), ("ms", 2)):
        play.order("send", (kind, symbol, 1.0, None))
    sell_all(play, [row(0, 5.0), row(1, 5.0), row(2, 5.0)])
    later_examples(play)


def later_examples(play):
    start(play, 1000.0, [row(3, 30.0)])
    play.walk(1, [(3, 0.5)])
    start(play, 10.0, [row(3, 100.0)], [("flat", 10.0)])
    play.walk(1, [(3, 0.5)])
    start(play, 1000.0, [row(1, 10.0), row(3, 30.0)])
    play.walk(2, [(1, 0.0), (3, 0.5)])
    start(play, 1000.0, [row(3, 10.0)])
    for kind, shares, at in (("mb", 10.0, 10.0), ("ms", 10.0, 12.0), ("mb", 5.0, 12.0)):
        play.order("insert", (kind, 3, shares, None))
        play.check([], [])
        play.check([row(3, at)], [])
        play.symbol_read("cost_basis", 3)
    start(play, 0.0, [row(3, 12.5)])
    hold(play, 3, 10.0, [row(3, 12.5)])
    play.amount("liquidate", 26.0)


def cash_and_cost(rng, play):
    """Cash equal to shares times ask, and the floats beside it."""
    ask, shares = price(rng), float(rng.randint(1, 50)) if rng.random() < 0.5 else rng.uniform(0.01, 50.0)
    start(play, beside(rng, shares * ask), [row(3, ask * 0.9, ask)])
    play.order("send", ("mb", 3, shares, None))
    play.order("send", ("mb", 3, floats.down(shares), None))
    play.order("send", ("mb", 3, -shares, None))
    sell_all(play, [row(3, ask)])
    play.symbol_read("cost_basis", 3)


def holding_and_shares(rng, play):
    shares = rng.choice([float(rng.randint(1, 50)), rng.uniform(0.01, 50.0)])
    rows = [row(3, price(rng))]
    start(play, 1e6, rows)
    hold(play, 3, shares, rows)
    play.order("send", ("ms", 3, beside(rng, shares), None))
    play.order("send", ("ms", 3, shares, None))
    play.order("send", ("ms", 3, 0.0, None))
    sell_all(play, rows)
    play.order("send", ("ms", 3, shares, None))
    sell_all(play, rows)


def prices_met(rng, play):
    """The six kinds at prices equal to the bid or the ask, beside them, and without a price."""
    bid, ask = price(rng), price(rng)
    start(play, 1e6, [row(3, bid, ask)])
    for kind in rng.sample(["mb", "ms", "lb", "ls", "sb", "ss"], 6):
        for limit in (None, beside(rng, bid), beside(rng, ask), rng.choice([bid, ask])):
            play.order("insert", (kind, 3, float(rng.randint(1, 5)), limit))
    play.check([row(3, bid, ask)], [])
    play.check([row(3, bid, ask, -7)], [row(3, ask, bid)])
    play.check([row(3, ask, bid)], [])
    play.check([row(4, bid, ask)], [row(3, bid, ask)])


def weights_zero(rng, play):
    """Weights that end the walk: zero first, and a difference of zero at a held symbol."""
    rows = [row(s, float(rng.randint(1, 20))) for s in (1, 3, 5, 9)]
    start(play, float(rng.randint(500, 5000)), rows, rng.choice([[], [], amounts.costs(rng)]))
    hold(play, 3, float(rng.randint(1, 20)), rows)
    total, value = play.model.liquidation_value(), play.model.value(3)
    exact = floats.div(value, total)
    for weight in (exact, floats.up(exact), floats.down(exact)):
        play.walk(3, [(1, 0.25), (3, weight), (9, 0.5)])
    play.walk(9, [(1, rng.choice([0.0, -0.0])), (3, 0.5), (9, 0.25)])
    play.walk(2, [(3, 0.5), (200, 0.0)])
    play.walk(3, [(3, 0.5), (200, 0.5), (201, 0.0)])
    play.update(4, rows, rows, [(1, 0.25), (3, exact), (5, 0.1), (200, 0.3)])
    play.update(3, rows, rows, [(1, 0.25), (3, 0.0), (5, 0.1)])
    sell_all(play, rows)


def back_to_zero(rng, play):
    """Quantities that come back to zero, or nearly: holdings, pending and the cost basis."""
    parts = rng.choice([(0.1, 0.2, 0.3), (1.0, 2.0, 3.0), (0.5, 0.25, 0.75), (1e-300, 1e300, 1e300)])
    rows = [row(3, price(rng))]
    start(play, 1e6, rows)
    for kind, shares in (("mb", parts[0]), ("mb", parts[1]), ("ms", parts[2]), ("mb", 1.0), ("ms", 1.0)):
        play.order(rng.choice(["send", "insert"]), (kind, 3, shares, None))
        play.check(rows, rows)
        if rng.random() < 0.7:
            play.check([row(3, price(rng))], rows)
        play.symbol_read("cost_basis", 3)
        play.symbol_read("get_pending_order", 3)
    sell_all(play, rows)
    play.symbol_read("get_position_qty", 3)


def pending_zero(rng, play):
    """A pending sum of zero stays present; pending falls below zero by direct insertions."""
    rows = [row(3, 10.0), row(4, 20.0)]
    start(play, 10000.0, rows)
    hold(play, 3, 8.0, rows)
    shares = rng.choice([1.0, 8.0, 0.1])
    for kind in rng.sample(["mb", "ms"], 2):
        play.order("send", (kind, 3, shares, None))
    play.symbol_read("get_pending_order", 3)
    play.order("insert", ("mb", 4, 2.0, None))
    sell_all(play, rows)
    play.symbol_read("get_pending_order", 3)
    play.symbol_read("get_pending_order", 4)


def withdrawals(rng, play):
    cash = rng.choice([100.0, price(rng), amounts.positive(rng)])
    start(play, cash, [])
    for amount in rng.sample([beside(rng, cash), floats.up(cash), cash, -cash, 0.0, -0.0, floats.LEAST], 5):
        play.amount("withdraw", amount if floats.finite(amount) else 0.0)
    play.amount("withdraw", play.model.cash if floats.finite(play.model.cash) else 0.0)


def liquidations(rng, play):
    """Amounts equal to the liquidation value, to the first values, to nothing; costs at times."""
    rows = [row(s, price(rng)) for s in (2, 3, 250)]
    start(play, rng.choice([0.0, 100.0, -50.0, 1000.0]), rows, rng.choice([[], amounts.costs(rng)]))
    for symbol in (2, 3, 250):
        hold(play, symbol, rng.choice([4.0, 0.3, -2.0, 10.0]), rows)
    model = play.model
    first = model.value(2) if model.value(2) is not None else 1.0
    both = first + (model.value(3) or 0.0)
    whole = both + (model.value(250) or 0.0)
    total = model.liquidation_value()
    for amount in rng.sample([beside(rng, first), beside(rng, both), beside(rng, whole), beside(rng, total),
                              total, 0.0, -0.0, -1.0, floats.LEAST, model.cash], 4):
        play.amount("liquidate", amount)
        if rng.random() < 0.3:
            sell_all(play, rows)
    sell_all(play, rows)


def shortfalls(rng, play):
    """Cash below zero by much, by a little, or by one bit after a buy; the buffer's boundary."""
    cash, ask = float(rng.randint(2000, 9000)), rng.choice([8.0, 16.0, 10.0])
    rows = [row(3, ask), row(9, 5.0)]
    start(play, cash, rows, rng.choice([[], [], amounts.costs(rng)]))
    shares = floats.floor(cash / ask) - rng.choice([1.0, 100.0])
    play.order("send", ("mb", 3, shares, None))
    play.check(rows, rows)
    jump = rng.choice([cash / shares, floats.up(cash / shares), ask * 1.3, ask * 1.7, ask * 4.0,
                       (cash + 1e-9) / shares, (cash + 1.0) / shares])
    bid = jump
    if rng.random() < 0.4:
        # The value of the position is then just the shortfall and the buffer, less the cash.
        short = jump * shares - cash
        bid = max((2.0 * short + 1000.0) / shares, 0.5)
    after = [row(3, beside(rng, bid), jump), row(9, 5.0)]
    play.check(after, after)
    for call in rng.sample(["deposit", "withdraw", "liquidate"], 3):
        play.amount(call, 10.0)
    play.order("send", ("mb", 9, 1.0, None))
    play.order("insert", ("mb", 9, 1.0, None))
    play.send_list(2, [("ms", 3, 1.0, None), ("lb", 3, 1.0, 2.0)])
    sell_all(play, after)
    play.update(2, after, after, [(3, 0.2), (9, 0.2)])
    sell_all(play, after)


def booking_order(rng, play):
    """Many waiting orders of both sides; their numbers are seen in the book and by deletions."""
    rows = [row(s, 10.0) for s in (1, 2, 3)]
    start(play, 1e6, rows)
    for _ in range(rng.randint(2, 30)):
        kind = rng.choice(["mb", "ms", "lb", "ls", "sb", "ss"])
        play.order("insert", (kind, rng.choice([1, 2, 3]), float(rng.randint(1, 9)), rng.choice([None, 9.0, 11.0])))
    play.delete(rng.randint(0, 5))
    play.check([], rows)
    for _ in range(3):
        play.delete(rng.randint(0, 31))
    play.order("insert", ("ms", 1, 3.0, None))
    sell_all(play, rows[:2])
    sell_all(play, rows)


def added_numbers(rng, play):
    """The list, log and table numbers at their exact limits."""
    rows = [row(s, 10.0) for s in (0, 255)]
    log = rng.randint(0, 3)
    start(play, 1e4, rows, [("flat", 1.0)] * 16, log)
    for _ in range(log):
        play.order(rng.choice(["send", "insert"]), ("mb", 255, 1.0, None))
    play.walk(2, [(0, 0.5), (255, 0.5)])
    play.send_list(2, [("mb", 0, 0.0, None), ("mb", 0, 1e9, None)])
    play.check([], [])
    play.check(rows, rows)
    play.lend(log)
    play.read("turnover")
    for read in SIDES:
        play.read(read)
    rng.choice([lambda: play.order("send", ("mb", 0, 1.0, None)), lambda: play.order("insert", ("sb", 0, 1.0, 2.0)),
                lambda: play.send_list(1, [("mb", 0, 1.0, None)] * 2), lambda: play.walk(0, [(0, 0.5)]),
                lambda: play.lend(log + 1), lambda: play.symbol_read("get_quote", 256),
                lambda: play.check([row(256, 1.0)], []), lambda: play.check([], [row(3, 1.0), row(3, 1.0)]),
                lambda: play.new(0, [("flat", 1.0)] * 17, [])])()
    play.check(rows, rows)
    play.read("turnover")


def own_lists(rng, play):
    """The broker's lists with just the room that they need, then one of them short of a row."""
    rows = [row(s, 10.0) for s in (0, 3, 255)]
    costs = [("per_share", 0.5), ("pct_of_value", 0.01), ("flat", 1.0)] * 5 + [("flat", 2.0)]
    start(play, 1e4, rng.choice([rows, []]), costs[:rng.choice([0, 1, 3, 16])])
    for symbol, shares in ((255, -2.0), (3, 4.0), (0, 0.5)):
        hold(play, symbol, shares, rows)
    play.order("send", ("ms", 3, rng.choice([4.0, 1.0]), None))
    for verb in LIST_READS:
        play.list_read(verb, play.model.rows(verb))
    sell_all(play, rows[:2])
    for verb in LIST_READS:
        play.list_read(verb, play.model.rows(verb) + rng.choice([0, 1]))
    full = [verb for verb in LIST_READS if play.model.rows(verb)]
    verb = rng.choice(full)
    play.list_read(verb, play.model.rows(verb) - 1)


def no_value(rng, play):
    """13: a liquidation value of zero, of a fresh broker or with holdings."""
    rows = [row(3, 10.0)]
    start(play, 0.0, rows)
    if rng.random() < 0.6:
        play.order("insert", ("mb", 3, 5.0, None))
        play.check([], rows)
        play.check(rows, rows)
    rng.choice([lambda: play.walk(1, [(3, 0.5)]), lambda: play.walk(0, []),
                lambda: play.update(1, rows, rows, [(3, 0.5)]), lambda: play.update(0, [], [], [])])()
    play.amount("deposit", 5.0)


def unquoted_stop(rng, play):
    """Liquidations over held symbols that were never fetched."""
    rows = [row(3, 10.0), row(9, 10.0)]
    start(play, rng.choice([0.0, 500.0]), rows)
    hidden = rng.choice([1, 5, 12])
    for symbol in (3, hidden):
        play.order("insert", ("mb", symbol, 4.0, None))
    play.check([], rows)
    play.check([row(s, 10.0) for s in sorted((3, hidden))], rows)
    play.symbol_read("get_position_value", hidden)
    play.symbol_read("get_position_liquidation_value", hidden)
    play.amount("liquidate", rng.choice([20.0, 40.0, 0.0, -1.0, 39.0, 1000.0, floats.LEAST]))
    play.order("send", ("ms", hidden, 1.0, None))
    sell_all(play, rows)


TEMPLATES = [examples, cash_and_cost, holding_and_shares, prices_met, weights_zero, back_to_zero, pending_zero,
             withdrawals, liquidations, shortfalls, booking_order, added_numbers, own_lists, no_value, unquoted_stop]


def scenario(rng):
    play = Play()
    rng.choice(TEMPLATES)(rng, play)
    return play


def fill(rng, play, count):
    """Orders that rest: sales of an unheld symbol, limit orders far from the market."""
    if rng.random() < 0.5:
        play.send_list(1024, [("ms", 3, float(rng.randint(1, 9)), None) for _ in range(count)])
        return
    for _ in range(count):
        play.order("insert", (rng.choice(["lb", "ss"]), rng.choice([3, 4]), 1.0, rng.choice([0.5, 0.25, None])))


def full_book(rng):
    """1,024 orders rest and wait together, with and without one more."""
    play = Play()
    rows = [row(4, 10.0), row(9, 12.0)]
    start(play, 1e6, rows + [row(200, 3.0)], log=rng.choice([1100, 2000, 4096]))
    play.word("quiet")
    play.check([], [row(3, 10.0)])
    first = rng.randint(1, 1023)
    fill(rng, play, first)
    play.check(rows, rows)
    play.word("state")
    fill(rng, play, 1024 - first - rng.choice([0, 0, 2]))
    play.word("state")
    for _ in range(rng.randint(0, 3)):
        play.delete(rng.randint(0, 1024))
        play.order("send", ("ms", 9, 1.0, None))
    play.check(rows, rows)
    play.word("state")
    play.order(rng.choice(["send", "insert"]), ("mb", 9, 2.0, None))
    play.check([row(3, 10.0), row(4, 10.0), row(9, 12.0)], rows)
    play.word("state")
    play.update(2, rows, rows, [(4, 0.2), (9, 0.2)])
    play.word("state")
    play.word("full")
    return play
