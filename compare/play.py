"""Writes a scenario, call by call, while a plain broker (model.py) follows it: each line comes with what is
due by document 01, the numbers and the whole text."""

from typing import NamedTuple, Optional

import model_text
from model import Model, corrected
from scenario import floats, lines, words


class Due(NamedTuple):
    """What is due for a line: the numbers that its answer draws, those that a liquidation's orders draw
    unreported, whether the state after it cannot be read from the lent log (16), how large the free count
    of sells may be where it answers one, the text of answer and state, in bytes, and the lot of the broker
    that a `new` asks for."""
    drawn: tuple
    silent: tuple
    unlent: bool
    most: Optional[int]
    text: bytes
    lot: int = 1


class Play:
    """`lines` has the scenario, `due` what is due for each line."""

    def __init__(self):
        self.model = Model()
        self.view = model_text.View()
        self.lines = []
        self.due = []

    def write(self, line, answer, numbers=(), most=None):
        model = self.model
        verb = line.partition(" ")[0]
        text, shows = "%s %s" % (verb, answer), self.view.shows(verb)
        if shows:
            text += "\n" + self.view.state(model)
        drawn = tuple([number for number in numbers if number])
        unlent, lot = shows and model.broken(lends=True), model.lot if verb == "new" else 1
        self.lines.append(line)
        self.due.append(Due(drawn, tuple(model.silent), unlent, most, text.encode(), lot))
        model.silent = []

    def new(self, log, costs, first, lot=None):
        """A builder; without a lot the line has none, and it is 1."""
        number = self.model.build(log, 1 if lot is None else lot, costs, first)
        self.write(lines.new(log, costs, first, lot), model_text.worded(number, "built"), [number])

    def lend(self, log):
        self.model.lent = log
        self.write(lines.lend(log), "lent")

    def amount(self, verb, amount):
        number = getattr(self.model, verb)(amount)
        self.write(lines.amount(verb, amount), model_text.cash(number, amount), [number])

    def order(self, verb, order):
        number = getattr(self.model, verb)(order)
        self.write(lines.order(verb, order), model_text.event(number, order), [number])

    def send_list(self, room, orders):
        number, events = self.model.send_list(room, orders)
        answer = model_text.events(number, events)
        self.write(lines.send_list(room, orders), answer, [number] + [event[0] for event in events])

    def delete(self, number):
        drawn = self.model.delete(number)
        self.write(lines.delete(number), model_text.worded(drawn, "done"), [drawn])

    def check(self, tradable, fetched):
        number, traded, queued = self.model.check(tradable, fetched)
        answer = model_text.checked(number, traded, queued)
        self.write(lines.check(tradable, fetched), answer, [number], None if number else len(self.model.held))

    def walk(self, room, weights):
        number, orders = self.model.walk(room, weights)
        answer = model_text.counted(number, [words.order(order) for order in orders])
        self.write(lines.walk(room, weights), answer, [number])

    def update(self, room, tradable, fetched, weights):
        number, events = self.model.update(room, tradable, fetched, weights)
        answer = model_text.updated(number, self.model, events)
        numbers = [number] + [event[0] for event in events]
        self.write(lines.update(room, tradable, fetched, weights), answer, numbers)

    def read(self, verb):
        number = 16 if self.model.broken(lends=verb == "turnover") else 0
        self.write(lines.read(verb), model_text.worded(number, model_text.FIGURES[verb](self.model)), [number])

    def symbol_read(self, verb, symbol):
        number = self.model.symbol_read(verb == "cost_basis", symbol)
        answer = model_text.worded(number, model_text.OF_SYMBOL[verb](self.model, symbol))
        self.write(lines.read(verb, symbol), answer, [number])

    def list_read(self, verb, room):
        number = self.model.list_read(verb, room)
        self.write(lines.read(verb, room), model_text.counted(number, model_text.LISTS[verb](self.model)), [number])

    def impact(self, budget, price, side):
        number = self.model.cost_call(budget, price)
        answer = model_text.impacted(number, self.model.costs, budget, price, side)
        self.write(lines.figures("trade_impact_total", budget, price, side), answer, [number])

    def charges(self, quantity, value):
        number = self.model.cost_call(quantity, value)
        answer = model_text.charged(number, self.model.costs, quantity, value)
        self.write(lines.figures("calculate_trade_costs", quantity, value), answer, [number])

    def rounding(self, verb, x):
        self.write(lines.amount(verb, x), floats.text({"floor": floats.floor, "ceil": floats.ceil}[verb](x)))

    def correct(self, room, rows):
        """The vendor's rows as one table; the broker has no part in it."""
        number, table = corrected(room, rows)
        self.write(lines.correct(room, rows), model_text.corrected(number, table), [number])

    def word(self, word):
        self.write(word, "shown" if word == "state" else word)
