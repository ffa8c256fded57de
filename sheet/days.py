"""The scenario of a plan: a trading day's calls, and the securities' numbers."""
import amounts
from scenario import lines, words

# Rows of the log: those of the program, and those with its argument `large`.
LOG, LARGE_LOG = 65536, 1048576
# Answers of a day beside its payments.
READS = ("get_total_value", "get_cash_balance", "executed_trade_count")


def name_order(name):
    """Names that are whole numbers by their size, before the others by their letters."""
    return (0, int(name), name) if name.isdecimal() else (1, 0, name)


def numbers(securities):
    """The symbol of each security: 0, 1, 2 .. in the order of names."""
    return {name: symbol for symbol, name in enumerate(sorted(securities, key=name_order))}


def table(day, rows, symbols):
    """A day's table as words, ascending by symbol, of the securities that have one."""
    found = [(symbols[name], row.bid, row.ask, amounts.whole(day)) for name, row in rows.items() if name in symbols]
    return " ".join(words.quote(row) for row in sorted(found))


def tables(days, symbols):
    """The tables of all days that have a row, as text: (date, words)."""
    made = ((day, table(day, rows, symbols)) for day, rows in days.items())
    return [(day, text) for day, text in made if text]


def log_rows(schedule, securities):
    """A log that the orders of all rebalancings fit in twice, if the program has one: sales for a shortfall of cash come
    beside them."""
    return LOG if 2 * sum(day.rebalance for day in schedule) * securities <= LOG else LARGE_LOG


def day_lines(day, text, mix):
    """A day: payments, then the check or the update on its quotes, then what is read in the evening."""
    if day.deposit:
        yield lines.amount("deposit", day.deposit)
    if day.withdraw:
        yield lines.amount("withdraw", day.withdraw)
    yield f"update {len(mix)} {text} / {text} / {' '.join(map(words.weight, mix))}" if day.rebalance else f"check {text} / {text}"
    yield from READS


def answer_count(schedule):
    """How many lines of a scenario are answered."""
    return 4 + sum(1 + len(READS) + bool(day.deposit) + bool(day.withdraw) for day in schedule)


def scenario(plan, schedule, texts, symbols, weights):
    """The scenario's lines. The first day's quotes are also the broker's first table."""
    mix = sorted((symbols[name], weight) for name, weight in weights.items())
    yield f"# {plan.title}"
    for name, symbol in symbols.items():
        yield f"# name {symbol} {name}"
    yield "quiet"
    lot = [words.lot(plan.lot)] if plan.lot != 1 else []
    yield lines.joined("new", str(log_rows(schedule, len(mix))), lot, [words.cost(row) for row in plan.costs], "/", texts[0])
    for day, text in zip(schedule, texts):
        yield f"# {day.date}"
        yield from day_lines(day, text, mix)
    yield "turnover"
    yield "state"
