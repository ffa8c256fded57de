"""What the engine answered to a plan's scenario, day by day: the evening's figures, and what was refused."""
from amounts import money, quantity
from faults import Faults
from scenario.floats import finite, number
from scenario.meanings import MEANINGS
from scenario.words import read_order


class Evening:
    """The end of a trading day: the account's value, its cash, trades so far, and what was paid in and out on that day."""

    def __init__(self, date):
        self.date = date
        self.value = self.cash = self.deposit = self.withdraw = 0.0
        self.trades = 0

    @property
    def flow(self):
        return self.deposit - self.withdraw


class Refusal:
    """What was refused: the day, what it was, the security or nothing, and the number."""

    def __init__(self, date, what, security, drawn):
        self.date, self.what, self.security, self.number = date, what, security, int(drawn)

    @property
    def reason(self):
        return MEANINGS[self.number]


class Answers:
    """The answers of a run, taken one after the other; the lines of the last state are apart."""

    def __init__(self, lines):
        self.lines = [line for line in lines if not line.startswith(" ")]
        self.state = {line.split()[0]: line.split()[1:] for line in lines if line.startswith(" ")}
        self.at = 0

    def next(self, verb):
        """The words of the next answer, which must be this call's."""
        words = self.lines[self.at].split()
        self.at += 1
        if words[1] != verb:
            raise Faults([f"the program's answer to '{verb}' is '{' '.join(words)[:80]}'; build it anew with tools/build.sh engine"])
        return words[2:]


def paid(answers, verb, amount, date, refusals):
    """What a payment moved: the amount, or 0 and a refusal."""
    if not amount:
        return 0.0
    words = answers.next(verb)
    if words[0] == "done":
        return number(words[1])
    refusals.append(Refusal(date, f"{verb} of {money(amount)}", None, words[1]))
    return 0.0


def sides(order):
    kind, symbol, shares, _ = read_order(order)
    return f"{'buy' if kind[1] == 'b' else 'sale'} of {quantity(shares)}", symbol


def events(words):
    """The refused orders among an update's events: (number, order)."""
    for word in words:
        drawn, _, order = word.partition(":")
        if drawn != "taken":
            yield drawn, order


def rebalanced(answers, date, names, refusals):
    """An update's refusals."""
    words = answers.next("update")
    if words[0] == "refused":
        refusals.append(Refusal(date, "rebalancing", None, words[1]))
        return
    for drawn, order in events(words[3:]):
        what, symbol = sides(order)
        refusals.append(Refusal(date, what, names[symbol], drawn))


def checked(answers, date, refusals):
    words = answers.next("check")
    if words[0] == "refused":
        refusals.append(Refusal(date, "check", None, words[1]))


def figure(answers, verb, read):
    """What a read answers; a refused one ends the reading."""
    words = answers.next(verb)
    if words[0] == "refused":
        raise Faults([f"the engine refused '{verb}' with number {words[1]}: {MEANINGS[int(words[1])]}"])
    found = read(words[0])
    if not finite(found):
        raise Faults([f"'{verb}' is answered by {found}: prices or amounts are too large for the engine's floats; write smaller ones"])
    return found


def evening(answers, day, names, refusals):
    """One day of the schedule, as it was answered."""
    found = Evening(day.date)
    found.deposit = paid(answers, "deposit", day.deposit, day.date, refusals)
    found.withdraw = paid(answers, "withdraw", day.withdraw, day.date, refusals)
    if day.rebalance:
        rebalanced(answers, day.date, names, refusals)
    else:
        checked(answers, day.date, refusals)
    found.value = figure(answers, "get_total_value", number)
    found.cash = figure(answers, "get_cash_balance", number)
    found.trades = figure(answers, "executed_trade_count", int)
    return found


class Rehearsal:
    """A run as a sheet needs it: every evening, every refusal, the turnover and the last state."""

    def __init__(self, lines, schedule, symbols):
        answers, self.refusals = Answers(lines), []
        self.names = {symbol: name for name, symbol in symbols.items()}
        answers.next("quiet")
        built = answers.next("new")
        if built != ["built"]:
            raise Faults([f"the engine made no broker: {' '.join(built)}"])
        self.evenings = [evening(answers, day, self.names, self.refusals) for day in schedule]
        self.turnover = figure(answers, "turnover", number)
        answers.next("state")
        self.state = answers.state

    def disagreements(self):
        """What does not hold together in the run: the account's parts and its value, the trades shown and counted."""
        held, bids, last = self.by_symbol("held"), self.by_symbol("latest"), self.evenings[-1]
        added = last.cash
        for symbol, shares in held.items():
            added += bids[symbol] * shares
        if added != last.value:
            yield f"cash and holdings add up to {added!r}, and the value is {last.value!r}"
        if not int(self.state["trades"][0]) == len(self.state["trades"]) - 1 == last.trades:
            yield f"{len(self.state['trades']) - 1} trades are shown, and {last.trades} were counted"

    @property
    def failed(self):
        return "Failed" in self.state["cash"]

    def by_symbol(self, title):
        """A line of the last state by symbol, such as `held 3:FLOAT` or `latest 3:BID:ASK:DATE`: the word behind the symbol."""
        pairs = (word.split(":") for word in self.state[title])
        return {int(pair[0]): None if pair[1] == "none" else number(pair[1]) for pair in pairs}
