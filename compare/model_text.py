"""The text that a program must write for a call, from the plain broker of model.py alone: the answer, and
the eight lines of docs/SCENARIOS.md that say what the broker holds after it."""

from model import charges, impact
from scenario import words
from scenario.floats import text

# No state is written after these.
STATELESS = frozenset(["lend", "floor", "ceil", "correct", "quiet", "full"])
FIGURES = {
    "get_total_value": lambda model: text(model.total()),
    "get_liquidation_value": lambda model: text(model.liquidation_value()),
    "get_cash_balance": lambda model: text(model.cash),
    "turnover": lambda model: text(model.turnover()),
    "get_broker_state": lambda model: state_word(model),
    "executed_trade_count": lambda model: str(len(model.trades)),
}
OF_SYMBOL = {
    "get_quote": lambda model, symbol: optional(model.latest.get(symbol), words.quote),
    "get_position_qty": lambda model, symbol: optional(model.held.get(symbol)),
    "get_pending_order": lambda model, symbol: optional(model.pending.get(symbol)),
    "get_position_value": lambda model, symbol: optional(model.value(symbol)),
    "get_position_liquidation_value": lambda model, symbol: optional(model.net_value(symbol)),
    "cost_basis": lambda model, symbol: optional(model.basis(symbol)),
}
LISTS = {
    "get_positions": lambda model: [str(symbol) for symbol in sorted(model.held)],
    "get_holdings": lambda model: entries(model.held),
    "get_pending_orders": lambda model: entries(model.pending),
    "get_quotes": lambda model: quotes(model.latest),
    "get_trade_costs": lambda model: [words.cost(row) for row in model.costs],
}


def state_word(model):
    return "Failed" if model.failed else "Ready"


def optional(x, write=text):
    return "none" if x is None else write(x)


def entries(amounts):
    """The entries of a map of amounts, by ascending symbol."""
    return ["%d:%s" % (symbol, text(amounts[symbol])) for symbol in sorted(amounts)]


def quotes(latest):
    return [words.quote(latest[symbol]) for symbol in sorted(latest)]


# The answers, without the line's number and verb

def worded(number, word):
    """The word, or `refused` and the number."""
    return "refused %d" % number if number else word


def cash(number, amount):
    return worded(number, "done") + " " + text(amount)


def event(number, order):
    return "%s:%s" % (number or "taken", words.order(order))


def counted(number, rows):
    """How many rows, and each."""
    return worded(number, " ".join([str(len(rows))] + rows))


def events(number, rows):
    return counted(number, [event(*row) for row in rows])


def checked(number, traded, queued):
    return worded(number, "traded %d queued %d" % (traded, queued))


def updated(number, model, rows):
    return worded(number, "total %s %s" % (text(model.total()), events(0, rows)))


def corrected(number, rows):
    return counted(number, [words.quote(row) for row in rows])


def impacted(number, costs, budget, price, side):
    return worded(number, "%s %s" % tuple(map(text, impact(costs, budget, price, side == "buy"))))


def charged(number, costs, quantity, value):
    return worded(number, text(charges(costs, quantity, value)))


# What the broker holds

def titled(title, rows):
    return " ".join(["", title] + rows)


def money(model, turnover):
    return " cash %s state %s total %s liquidation %s turnover %s" % (
        text(model.cash), state_word(model), text(model.total()), text(model.liquidation_value()), turnover)


def bases(model):
    """The basis of each symbol that has traded."""
    return ["%d:%s" % (symbol, optional(model.basis(symbol))) for symbol in sorted(model.bought)]


def booked(resting):
    return ["%d:%s" % (number, words.order(order)) for number, order in resting]


class View:
    """What a run keeps beside the broker: whether a state stands after each call, and how many trades the
    states have shown."""

    def __init__(self):
        self.quiet = False
        self.shown = 0

    def shows(self, verb):
        """Does a state stand after this line? Heeds what the line itself sets."""
        if verb == "new":
            self.shown = 0
        elif verb in ("quiet", "full"):
            self.quiet = verb == "quiet"
        return verb == "state" or not (self.quiet or verb in STATELESS)

    def state(self, model):
        """The lines of state."""
        if model.dead:
            return " refused 16"
        refused = model.broken(lends=True)
        new = [] if refused else [words.trade(row) for row in model.trades[self.shown:]]
        self.shown += len(new)
        return "\n".join([
            money(model, "refused 16" if refused else text(model.turnover())),
            titled("held", entries(model.held)),
            titled("pending", entries(model.pending)),
            titled("latest", quotes(model.latest)),
            titled("basis", ["refused 16"] if refused else bases(model)),
            titled("trades %d" % len(model.trades), new),
            titled("waiting", [words.order(order) for order in model.waiting]),
            titled("resting", booked(model.resting))])
