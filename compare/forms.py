"""Which lines docs/SCENARIOS.md calls malformed, at which word and for what reason: a form for each call, with its
limits. This reading is made for the comparison alone and shares nothing with the programs."""

import re

REASONS = (b"unknown call", b"too few words", b"too many words", b"not a float", b"not a whole number", b"too large",
           b"not a side", b"not an order", b"not a quote", b"not a vendor quote", b"not a weight", b"not a cost",
           b"too many rows", b"tab", b"carriage return", b"line too long")
LINE = 65535
ROOM = 1024
SYMBOL = 2 ** 32 - 1
WHOLE = 2 ** 64 - 1
REVISION = 2 ** 8 - 1
DATES = range(-2 ** 63, 2 ** 63)
KINDS = (b"mb", b"ms", b"lb", b"ls", b"sb", b"ss")
COSTS = (b"per_share", b"pct_of_value", b"flat")
# The log of the Rust's driver has no rows of its own: any WHOLE is a LOG there.
DRIVER_ROWS = WHOLE

# Each of these says what a word is not, or None where it is what its name says.


def binary64(word):
    return None if re.fullmatch(rb"[0-9a-f]{16}", word) else b"not a float"


def price(word):
    return None if word == b"-" else binary64(word)


def number(word, form, allowed):
    """A number of at most 20 digits, with the sign that the form has."""
    if not re.fullmatch(form, word):
        return b"not a whole number"
    return b"too large" if len(word.lstrip(b"-")) > 20 or int(word) not in allowed else None


def whole(word, most=WHOLE):
    return number(word, rb"[0-9]+", range(most + 1))


def symbol(word):
    return whole(word, SYMBOL)


def date(word):
    return number(word, rb"-?[0-9]+", DATES)


def revision(word):
    return whole(word, REVISION)


def side(word):
    return None if word in (b"buy", b"sell") else b"not a side"


def parts(word, *tests):
    """What the first wrong part of a word is not."""
    said = (test(part) for part, test in zip(word.split(b":"), tests))
    return next((what for what in said if what), None)


def order(word):
    if word.count(b":") != 3 or not word.startswith(tuple(kind + b":" for kind in KINDS)):
        return b"not an order"
    return parts(word[3:], symbol, binary64, price)


def quote(word):
    return parts(word, symbol, binary64, binary64, date) if word.count(b":") == 3 else b"not a quote"


def vendor_quote(word):
    if word.count(b":") != 4:
        return b"not a vendor quote"
    return parts(word, symbol, binary64, binary64, date, revision)


def weight(word):
    return parts(word, symbol, binary64) if word.count(b":") == 1 else b"not a weight"


def cost(word):
    name, colon, amount = word.partition(b":")
    return binary64(amount) if name in COSTS and colon and b":" not in amount else b"not a cost"


def is_lot(word):
    """A word that is taken for a lot where one may stand, whatever its number is."""
    return word.startswith(b"lot:") and word.count(b":") == 1


def lot(word):
    return symbol(word[4:])


# The words after a call's name, a log's length, a room and the lot, which may be left out, among them, and the lists
# between the slashes.
FORMS = {
    b"new": (["log", lot], [(cost, 32), (quote, 512)]),
    b"lend": (["log"], []),
    b"send_list": (["room"], [(order, 1024)]),
    b"check": ([], [(quote, 512), (quote, 512)]),
    b"walk": (["room"], [(weight, 512)]),
    b"update": (["room"], [(quote, 512), (quote, 512), (weight, 512)]),
    b"correct": (["room"], [(vendor_quote, 1100)]),
    b"delete": ([whole], []),
    b"trade_impact_total": ([binary64, binary64, side], []),
    b"calculate_trade_costs": ([binary64, binary64], []),
    **dict.fromkeys([b"deposit", b"withdraw", b"liquidate", b"floor", b"ceil"], ([binary64], [])),
    **dict.fromkeys([b"send", b"insert"], ([order], [])),
    **dict.fromkeys([b"get_positions", b"get_quotes", b"get_holdings", b"get_pending_orders", b"get_trade_costs"],
                    (["room"], [])),
    **dict.fromkeys([b"get_quote", b"get_position_qty", b"get_pending_order", b"get_position_value",
                     b"get_position_liquidation_value", b"cost_basis"], ([symbol], [])),
    **dict.fromkeys([b"get_total_value", b"get_liquidation_value", b"get_cash_balance", b"turnover",
                     b"get_broker_state", b"executed_trade_count", b"state", b"quiet", b"full", b"clock"], ([], [])),
}


def fixed_words(fixed, words):
    """What is wanted before the lists, without the lot where the second of a line's words behind its name is none."""
    return fixed if any(map(is_lot, words[1:2])) else [wanted for wanted in fixed if wanted is not lot]


def wrong_fixed(word, wanted, rows):
    """What a word that stands before the lists of its form is not."""
    if wanted in ("log", "room"):
        return whole(word, rows if wanted == "log" else ROOM)
    return wanted(word)


def wrong_lists(words, lists):
    """The index of the first word that these lists do not want, and why; None where there is none."""
    part = count = 0
    for at, word in enumerate(words):
        if not lists:
            return at, b"too many words"
        row, most = lists[part]
        if word == b"/" and part < len(lists) - 1:
            part, count = part + 1, 0
            continue
        why = b"too many rows" if count == most else row(word)
        if why is not None:
            return at, why
        count += 1
    return (len(words), b"too few words") if part < len(lists) - 1 else None


def wrong_word(words, rows):
    """The same for a line's words and the form of its call."""
    if words[0] not in FORMS:
        return 0, b"unknown call"
    fixed, lists = FORMS[words[0]]
    fixed = fixed_words(fixed, words[1:])
    for at, (word, wanted) in enumerate(zip(words[1:], fixed), 1):
        why = wrong_fixed(word, wanted, rows)
        if why is not None:
            return at, why
    start = 1 + len(fixed)
    if len(words) < start:
        return len(words), b"too few words"
    found = wrong_lists(words[start:], lists)
    return None if found is None else (start + found[0], found[1])


def passed_over(line):
    """A line without a word, and one whose first byte is #, has no answer, unless it is too long."""
    return len(line) <= LINE and (line.strip(b" ") == b"" or line.startswith(b"#"))


def reason(line, rows):
    """Of a line that has an answer, for a program whose log has this many rows: which word is wrong and why, as
    b"2 not a float", or None where the line is not malformed."""
    if len(line) > LINE:
        return b"0 line too long"
    words = [word for word in line.split(b" ") if word]
    found = wrong_word(words, rows)
    if found is None:
        return None
    at, why = found
    word = words[at] if at < len(words) else b""
    space = b"tab" if b"\t" in word else b"carriage return" if b"\r" in word else None
    return b"%d %s" % (at + 1, space or why)


def answered(lines, rows):
    """The lines that have an answer: the number and the line, and the word and reason of a malformed one or None."""
    return [(number, line, reason(line, rows)) for number, line in enumerate(lines, 1) if not passed_over(line)]


def unmet(met):
    """The reasons that are not among these."""
    return [why.decode() for why in REASONS if why not in met]
