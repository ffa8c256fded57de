"""The sheet: month ends, the account, the figures and what was refused, as text; every day, the figures and every refusal as CSV."""
import csv
import io

import figures
from amounts import money, price, quantity

SHOWN_REFUSALS = 12
COSTS_NOTE = ("Costs act on the size of orders and on the values that a sale would leave, as in the engine's rules;\n"
              "they are not taken from cash, so the curve is the account's before costs are paid.")
LOT_NOTE = "Orders for the weights are whole lots of {:,} shares; sales that make up for a shortfall of cash are not."
FAILED_NOTE = "The broker is Failed: a shortfall could not be raised, and no order is taken any more."


def percent(part):
    return "none: too short a time" if part is None else f"{part:.2%}"


def net_paid(evenings):
    """What was paid in less what was paid out, evening by evening."""
    total, found = 0.0, []
    for evening in evenings:
        total += evening.flow
        found.append(total)
    return found


def months(evenings):
    """Value and payments at each month end."""
    yield f"{'month end':<12}{'value':>16}{'paid in, net':>16}{'cash':>16}{'trades':>8}"
    net = dict(zip((evening.date for evening in evenings), net_paid(evenings)))
    for evening in figures.month_ends(evenings):
        columns = (money(amount) for amount in (evening.value, net[evening.date], evening.cash))
        yield f"{evening.date!s:<12}{''.join(f'{column:>16}' for column in columns)}{evening.trades:>8}"


def basis_text(basis):
    return "none" if basis is None else money(basis)


def share(part, whole):
    return f"{part / whole:.1%}" if whole else ""


def account(rehearsal):
    """The holdings of the last evening."""
    held, bids = rehearsal.by_symbol("held"), rehearsal.by_symbol("latest")
    bases, last = rehearsal.by_symbol("basis"), rehearsal.evenings[-1]
    wide = max([len(rehearsal.names[symbol]) for symbol in held] + [20]) + 2
    yield f"{'holding':<{wide}}{'quantity':>14}{'bid':>14}{'value':>16}{'cost basis':>12}{'share':>8}"
    for symbol, shares in held.items():
        value = bids[symbol] * shares
        yield (f"{rehearsal.names[symbol]:<{wide}}{quantity(shares):>14}{price(bids[symbol]):>14}{money(value):>16}"
               f"{basis_text(bases.get(symbol)):>12}{share(value, last.value):>8}")
    yield f"{'cash':<{wide + 28}}{money(last.cash):>16}{share(last.cash, last.value):>20}"


def fall_text(fall):
    return "none" if fall is None else f"{fall.part:.2%}, from {fall.since} to {fall.until}"


def fact_lines(found, currency):
    """The figures of a fact sheet: (name, text)."""
    yield "final value", f"{money(found.value)} {currency} on {found.date}"
    yield "paid in", f"{money(found.paid_in)} {currency}"
    if found.paid_out:
        yield "paid out", f"{money(found.paid_out)} {currency}"
    yield "time-weighted return in all", percent(found.in_all)
    yield "time-weighted return a year", percent(found.a_year)
    yield "volatility a year", percent(found.volatility)
    yield "largest fall", fall_text(found.fall)
    yield "turnover", f"{money(found.turnover)} {currency}, the lesser of bought and sold"
    yield "trades", f"{found.trades:,}"
    yield "refused", f"{found.refused:,}"


def refusal_text(refusal):
    security = f" of {refusal.security}" if refusal.security else ""
    return f"  {refusal.date}  {refusal.what}{security}: {refusal.reason} (number {refusal.number})"


def refusals(found):
    """The first refusals; all of them are in a file."""
    for refusal in found[:SHOWN_REFUSALS]:
        yield refusal_text(refusal)
    if len(found) > SHOWN_REFUSALS:
        yield f"  and {len(found) - SHOWN_REFUSALS:,} more (refused.csv)"


def sheet(plan, rehearsal, found, notes):
    """The sheet as text."""
    evenings = rehearsal.evenings
    parts = [[plan.title, f"rehearsed on closing quotes from {evenings[0].date} to {found.date}, {len(evenings):,} trading days"],
             [f"note: {note}" for note in notes],
             list(months(evenings)), list(account(rehearsal)),
             [f"{name:<30}{text}" for name, text in fact_lines(found, plan.currency)], list(refusals(rehearsal.refusals)),
             [FAILED_NOTE] if rehearsal.failed else [],
             [LOT_NOTE.format(plan.lot)] if plan.lot != 1 else [],
             [COSTS_NOTE]]
    return "\n\n".join("\n".join(part) for part in parts if part) + "\n"


def csv_text(head, rows):
    out = io.StringIO()
    table = csv.writer(out, lineterminator="\n")
    table.writerow(head)
    table.writerows(rows)
    return out.getvalue()


def days_csv(evenings, index):
    """Every evening; floats with all their digits, so that nothing is lost."""
    rows = ([e.date, e.value, e.cash, e.deposit, e.withdraw, e.trades, level] for e, level in zip(evenings, index))
    return csv_text(["date", "value", "cash", "deposit", "withdraw", "trades", "index"], rows)


def part_text(part):
    """A part of 1 for a table; nothing where there is none."""
    return "" if part is None else f"{part:.6f}"


def figures_csv(found):
    """The figures as one row; returns, volatility and the fall are parts of 1."""
    fall = found.fall or figures.Fall(0.0, "", "")
    row = {"last day": found.date, "final value": f"{found.value:.2f}",
           "paid in": f"{found.paid_in:.2f}", "paid out": f"{found.paid_out:.2f}",
           "return in all": part_text(found.in_all), "return a year": part_text(found.a_year),
           "volatility a year": part_text(found.volatility),
           "largest fall": part_text(fall.part), "fall from": fall.since, "fall to": fall.until,
           "turnover": f"{found.turnover:.2f}", "trades": found.trades, "refused": found.refused}
    return csv_text(row, [row.values()])


def refused_csv(found):
    rows = ([r.date, r.what, r.security or "", r.number, r.reason] for r in found)
    return csv_text(["date", "what", "security", "number", "reason"], rows)
