"""Damaged lines: takes valid lines, damages bytes or words or stretches them past the limits, and demands that the
engine answers `malformed` with the word and the reason of forms.py to exactly those that forms.py calls so, and
answers the others as the model and the Rust do, which see no malformed line. The Rust's driver, which reads lines
too, is held to forms.py by itself."""

import random
from collections import Counter

import forms
import judge
import programs
import scenarios
from reread import reread
from scenario import lines
from scenario.words import cost, order, quote, vendor_quote, weight

BYTES = b"0123456789abcdefghijklmnopqrstuvwxyz:/-_ #+.ABCDEF\t\r\0\x7f\x80\xff"
GOOD = "3ff0000000000000"
ORDER, QUOTE, WEIGHT, COST = ("mb", 1, 1.0, None), (1, 1.0, 1.0, 5), (1, 1.0), ("flat", 1.0)
VENDOR_QUOTE = QUOTE + (3,)
# A line of each form, so that every text has them all; `clock` has no place in a compared text.
EVERY_FORM = [
    "quiet", lines.new(4, [COST], [QUOTE]), lines.new(4, [COST], [QUOTE], lot=1), lines.lend(4),
    lines.amount("deposit", 1.0), lines.order("send", ORDER), lines.send_list(4, [ORDER, ORDER]), lines.delete(0),
    lines.check([QUOTE], [QUOTE]), lines.walk(4, [WEIGHT]), lines.update(4, [QUOTE], [QUOTE], [WEIGHT]),
    lines.read("get_quote", 1), lines.read("get_quotes", 4), lines.read("turnover"),
    lines.correct(256, []), lines.correct(256, [VENDOR_QUOTE, QUOTE + (4,), (2, 1.0, 1.0, 5, 3)]),
    lines.figures("trade_impact_total", 1.0, 1.0, "buy"), lines.figures("calculate_trade_costs", 1.0, 1.0)]
# One malformed line for each reason; limits() has those of too many rows and of a line that is too long.
EVERY_REASON = [line.encode() for line in (
    "buy", "deposit", "clock 1", "deposit 1.0", "delete -1", "lend 18446744073709551616",
    "trade_impact_total %s %s hold" % (GOOD, GOOD), "send mb:1:%s" % GOOD, "check 1:%s /" % GOOD,
    "correct 256 1:%s:%s:5" % (GOOD, GOOD), "walk 4 1", "new 4 pct:%s /" % GOOD, "state\t", "state\r")]


def bent(rng, line):
    """A line with a few bytes changed, dropped, doubled, swapped or put in."""
    data = bytearray(line)
    for _ in range(rng.choice([1, 1, 1, 2, 3])):
        at = rng.randrange(len(data)) if data else 0
        choice = rng.randrange(7)
        if choice == 0 and data:
            data[at] = rng.choice(BYTES)
        elif choice == 1 and data:
            del data[at]
        elif choice == 2:
            data.insert(at, rng.choice(BYTES))
        elif choice == 3 and len(data) > 1:
            other = rng.randrange(len(data))
            data[at], data[other] = data[other], data[at]
        elif choice == 4 and data:
            data[at] ^= 1 << rng.randrange(8)
        elif choice == 5:
            del data[at:]
        else:
            data[at:at] = data[at:at + rng.randint(1, 20)]
    return bytes(data).replace(b"\n", b" ")


def reworded(rng, line):
    """A line with a word dropped, doubled, moved or exchanged for another sort of word."""
    words = line.split(b" ")
    at = rng.randrange(len(words))
    choice = rng.randrange(4)
    if choice == 0:
        del words[at]
    elif choice == 1:
        words.insert(at, words[at])
    elif choice == 2:
        words.insert(rng.randrange(len(words)), words.pop(at))
    else:
        words[at] = rng.choice(ODD_WORDS)
    return (b" " * rng.choice([1, 1, 1, 2])).join(words)


def reparted(rng, line):
    """A line with parts of a word, between its colons, dropped, doubled or exchanged for other sorts of parts."""
    words = line.split(b" ")
    at = rng.randrange(len(words))
    parts = words[at].split(b":")
    for _ in range(rng.choice([1, 1, 2])):
        which = rng.randrange(len(parts))
        choice = rng.randrange(8)
        if choice == 0 and len(parts) > 1:
            del parts[which]
        elif choice == 1:
            parts.insert(which, parts[which])
        else:
            parts[which] = rng.choice(ODD_PARTS)
    words[at] = b":".join(parts)
    return b" ".join(words)


def respaced(rng, line):
    """A line with a tab or a carriage return for a space, or at a word's end."""
    mark = rng.choice([b"\t", b"\r", b"\r", b"\t\r", b"\r\t"])
    if rng.random() < 0.3:
        return line.replace(b" ", mark, rng.choice([1, 1, -1]))
    words = line.split(b" ")
    words[rng.randrange(len(words))] += mark
    return b" ".join(words)


ODD_PARTS = [part.encode() for part in (
    "", "-", "x", "0", "-0", "-1", "+1", "--1", "0x1", "1e5", "mb", "xx", "MB", "flat", "pct", "lot", GOOD,
    GOOD.upper(), GOOD[1:], GOOD + "0", "255", "256", "4294967295", "4294967296", "9223372036854775807",
    "9223372036854775808", "-9223372036854775808", "-9223372036854775809", "18446744073709551615", "18446744073709551616",
    "99999999999999999999", "00000000000000000000", "000000000000000000001", "-00000000000000000001",
    "-000000000000000000001")]
ODD_WORDS = ODD_PARTS + [word.encode() for word in (
    "/", "1024", "1025", "65536", "65537", "1048576", "1048577", "buy", "sell", "Buy", "nan", "none", "1:%s" % GOOD,
    "1:%s:%s:5" % (GOOD, GOOD), "1:%s:%s:5:3" % (GOOD, GOOD), "mb:1:%s:-" % GOOD, "flat:%s" % GOOD,
    "per_share:%s" % GOOD, "lot:5", "lot:1000001", "lot:", "lot:1:1")]


def damaged(rng, line):
    """A line as it is, or damaged once or twice."""
    for _ in range(rng.choices((0, 1, 2), (18, 62, 20))[0]):
        line = rng.choices((bent, reworded, reparted, respaced), (10, 6, 4, 2))[0](rng, line)
    return line


def full_lists(rng):
    """Lines with as many rows in a list as there may be, and with a word more in it: a row, or another."""
    for head, row, most, rest in (
            ("send_list 1024", order(ORDER), 1024, ""), ("walk 1024", weight(WEIGHT), 512, ""),
            ("new 4", cost(COST), 32, " /"), ("new 4 /", quote(QUOTE), 512, ""),
            ("new 4 lot:1", cost(COST), 32, " /"), ("new 4 lot:1 /", quote(QUOTE), 512, ""),
            ("check", quote(QUOTE), 512, " /"), ("check /", quote(QUOTE), 512, ""),
            ("update 1024", quote(QUOTE), 512, " / /"), ("update 1024 /", quote(QUOTE), 512, " /"),
            ("update 1024 / /", weight(WEIGHT), 512, ""), ("correct 1024", vendor_quote(VENDOR_QUOTE), 1100, "")):
        other = rng.choice(["/", "x", row + "\t", row + "\r", row + " x"])
        for more in ("", " " + row, " " + other):
            yield head + (" " + row) * most + more + rest


def vendor_parts():
    """Lines with a vendor's quote in which each part is exchanged for each odd one, and with parts too few and too many."""
    parts = vendor_quote(VENDOR_QUOTE).split(":")
    for at in range(len(parts)):
        for odd in ODD_PARTS:
            yield "correct 256 " + ":".join(parts[:at] + [odd.decode()] + parts[at + 1:])
    for count in range(1, 8):
        yield "correct 256 " + ":".join((parts + parts)[:count])


def long_lines():
    """Lines of as many bytes as there may be, and of more; each is filled up with its last byte."""
    for start in ("state ", "# ", "  ", "deposit\tx", "x"):
        for length in (forms.LINE, forms.LINE + 1, 70000):
            yield start.ljust(length, start[-1])


def limits(rng):
    """Lines at the limits, and past them."""
    rooms = ("send_list %d", "walk %d", "update %d / /", "get_positions %d", "get_quotes %d", "get_holdings %d",
             "get_pending_orders %d", "get_trade_costs %d", "correct %d")
    texts = [line % room for line in rooms for room in (forms.ROOM, forms.ROOM + 1)]
    sizes = ["new 4 lot:%d /" % lot for lot in (2 ** 32 - 1, 2 ** 32)]
    return [line.encode() for line in [*texts, *sizes, *vendor_parts(), *full_lists(rng), *long_lines()]]


def texts(seed):
    """Texts of damaged lines without end, made of the lines of random scenarios."""
    rng = random.Random(seed)
    source = scenarios.scenarios(seed)
    while True:
        valid = list(EVERY_FORM)
        while len(valid) < 500:
            valid += [line for line in next(source)[1].lines if len(line) < 4000]
        yield damaged_text(rng, valid, 4000)


def damaged_text(rng, valid, count):
    """Lines, most of them damaged; a state follows now and then."""
    out = [damaged(rng, rng.choice(valid).encode()) for _ in range(count)] + EVERY_REASON + limits(rng)
    rng.shuffle(out)
    return out


def well_formed(given, rows):
    """The lines that are to be answered otherwise than by `malformed`, as text."""
    return [line.decode() for _number, line, why in forms.answered(given, rows) if why is None]


def answers(program, given):
    return judge.blocks(programs.answers(program, b"\n".join(given)))


def held(found, blocks, judged):
    """Holds a program's answers to the lines that were found, those to well-formed lines by `judged`. How many lines
    were malformed for each reason, and well-formed (None); what is wrong at the first wrong answer, or None."""
    met, blocks = Counter(), iter(blocks)
    for number, line, why in found:
        try:
            text = judge.said(next(blocks, b""), number)
            if why is None:
                judged(number, line, text)
            elif text != b"malformed " + why:
                raise judge.Difference("`malformed %s` is due, there is %r" % (why.decode(), text[:100]))
        except judge.Difference as difference:
            return met, "damaged line %d, %r: %s" % (number, line[:300], difference)
        met[why and why.partition(b" ")[2]] += 1
    extra = next(blocks, None)
    return met, None if extra is None else "there is an answer to no line: %r" % extra[:100]


def check(engine, oracle, given, rows):
    """Holds the engine's malformed lines to forms.py and judges its other answers like those of any scenario. The
    Rust's driver is given a comment in each malformed line's place."""
    found = forms.answered(given, rows)
    kept = [b"#"] * len(given)
    for number, line, why in found:
        if why is None:
            kept[number - 1] = line
    due, other = iter(reread(well_formed(given, rows)).due), iter(answers(oracle, kept))
    judging = judge.Judge(judge.Tally())

    def judged(number, line, text):
        judging.line(line.decode(), next(due), text, judge.said(next(other, b""), number))

    return held(found, answers(engine, given), judged)


def check_driver(oracle, given):
    """Holds the Rust's driver to forms.py; what it answers to well-formed lines is not looked at."""

    def judged(_number, _line, text):
        if text.startswith(b"malformed"):
            raise judge.Difference("it is well-formed, there is %r" % text[:100])

    return held(forms.answered(given, forms.DRIVER_ROWS), answers(oracle, given), judged)
