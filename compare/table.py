"""Prints what a comparison counted."""

KINDS = ["new", "lend", "deposit", "withdraw", "liquidate", "send", "insert", "send_list", "delete", "check", "walk",
         "update", "get_quote", "get_position_qty", "get_pending_order", "get_position_value",
         "get_position_liquidation_value", "cost_basis", "get_positions", "get_quotes", "get_holdings",
         "get_pending_orders", "get_trade_costs", "get_total_value", "get_liquidation_value", "get_cash_balance",
         "turnover", "get_broker_state", "executed_trade_count", "trade_impact_total", "calculate_trade_costs", "floor", "ceil",
         "correct", "state", "quiet", "full"]


def numbers_table(title, counter, calls=None):
    """Rows by kind of call, columns by number drawn; `-` is none. Lists draw a number per order."""
    numbers = sorted({number for _verb, number in counter})
    print(title)
    heads = (["calls"] if calls is not None else []) + ["-" if n == 0 else str(n) for n in numbers]
    print("  %-30s" % "" + "".join("%9s" % head for head in heads))
    for kind in KINDS:
        cells = [counter[kind, n] for n in numbers]
        if any(cells) or (calls is not None and calls[kind]):
            cells = ([calls[kind]] if calls is not None else []) + cells
            print("  %-30s" % kind + "".join("%9d" % cell for cell in cells))


def stops_table(stops):
    print("Where comparisons stopped, and why:")
    for (verb, why), count in sorted(stops.items(), key=lambda item: (-item[1], item[0])):
        print("  %7d  %-30s %s" % (count, verb, why))


def depth(tally):
    """How deep the scenarios went."""
    facts = tally.facts
    print("Scenarios: %d; trades logged in them: %d; Failed at the end: %d; unreported refusals in liquidations: %d" %
          (facts["scenarios"], facts["trades"], facts["failed"], facts["silent"]))
    print("By family: " + ", ".join("%s %d" % pair for pair in sorted(tally.scenarios.items())))


def summary(name, tally):
    print("== %s" % name)
    depth(tally)
    print("Calls compared: %d; lines of state compared: %d" % (tally.calls(), tally.state_lines))
    numbers_table("Compared calls, by kind and by number drawn:", tally.met, tally.compared)
    stops_table(tally.stops)
    if tally.beyond:
        numbers_table("From the stops on, compared with document 01's model alone (%d calls, %d lines of state):" %
                      (tally.model_calls(), tally.model_lines), tally.beyond, tally.alone)


def damaged(met, reasons):
    """Damaged lines by the reason for which they are malformed; None counts the well-formed ones."""
    print("== damaged lines\n%d malformed and %d well-formed lines were told apart" % (
        sum(met[why] for why in reasons), met[None]))
    print("By reason: " + ", ".join("%s %d" % (why.decode(), met[why]) for why in reasons))
