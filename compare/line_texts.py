"""Texts of quote lines, good and damaged, by kind, and the recorded ones. Each has the number that it draws by how it was made: 0
where it draws none, None where only reading it tells."""

import os
import random
import re

from scenario import floats

RECORDED = os.path.join(os.path.dirname(os.path.abspath(__file__)), "quote-lines.txt")
ROOM = 65536
FILLING = b"\n", b"0", b",", b"7,-1,3ff0000000000000,4000000000000000\n", b"256,0,3ff0000000000000,4000000000000000\n"
BYTES = b"0123456789abcdefABCDEFgx,,,--+ \n\n\r\t\0.;:_\"\x2f\x3a\x40\x60\x7f\x80\xff"
SPACES = [b" ", b"\t", b"\r", b"\0"]
MARK = b"\xef\xbb\xbf"
ODD = [b"\x0b", b"\x0c", b"+", b"-", b"_", b"'", b"\"", b".", b"\x80", b"\xa0", b"\xff", MARK, b"\xd9\xa0", b"\xef\xbc\x91"]
# Dates that 64 bits do not hold.
BEYOND = [2**63, 2**63 + 1, -2**63 - 1, -2**63 - 2, 2**64 - 1, 2**64, -2**64, 10**19, -10**19, 2**65, 2**128, -2**128]
# The bits of the infinity: those below it are finite, those from 1 on above zero. The sign is 2**63.
INFINITY, SIGN = 0x7ff0000000000000, 2**63


# ---- good tables

def bits(rng):
    """The bits of a float that is finite and above zero."""
    limit = rng.choice([1, 2, 2**52 - 1, 2**52, 2**52 + 1, INFINITY - 1, INFINITY - 2])
    subnormal = rng.randrange(1, 2**52) >> rng.randrange(52) or 1
    power = rng.choice([1 << rng.randrange(63), rng.randrange(1, 0x7ff) << 52])
    near_one = 0x3ff0000000000000 + rng.randrange(-2**50, 2**50)
    return rng.choice([rng.randrange(1, INFINITY), limit, subnormal, power, near_one])


def price(rng):
    """A float that is finite and above zero."""
    return floats.of_bits(bits(rng))


def date(rng):
    """A date of any length, the limits of 64 bits and the powers of ten among them."""
    power = 10 ** rng.randrange(19)
    limit = rng.choice([0, 1, 2**31, 2**32, 2**53 + 1, 2**63 - 1])
    size = rng.choice([rng.randrange(2**63), rng.randrange(power), power, power - 1, limit])
    return rng.choice([size, size, -size, -size, -2**63])


def some_rows(rng, least=0):
    """Rows by ascending symbol, at least so many; few of them as a rule."""
    few, many = [0, 1, 1, 2, 2, 3, 3, 4, 5, 8, 13], [rng.randrange(257), 255, 256]
    count = max(least, rng.choice(few if rng.random() < 0.9 else many))
    return [(symbol, date(rng), price(rng), price(rng)) for symbol in sorted(rng.sample(range(256), count))]


def fields(row):
    """The four fields of a row's line."""
    symbol, when, bid, ask = row
    return [b"%d" % symbol, b"%d" % when, floats.text(bid).encode(), floats.text(ask).encode()]


def line(row):
    return b",".join(fields(row)) + b"\n"


def joined(lines):
    return b"".join(lines)


def good(rng):
    return joined(line(row) for row in some_rows(rng)), 0


def full(rng):
    """All 256 symbols; the longest lines now and then."""
    longest = rng.random() < 0.3
    return joined(line((symbol, -2**63 if longest else date(rng), price(rng), price(rng))) for symbol in range(256)), 0


# ---- one line that is not of the form, among good ones

def spoiled(rng, change):
    """A good table with the fields of one line changed."""
    rows = some_rows(rng, 1)
    lines = [line(row) for row in rows]
    at = rng.randrange(len(rows))
    lines[at] = b",".join(change(rng, fields(rows[at]))) + b"\n"
    return joined(lines), 19


def unsigned(text):
    return text.lstrip(b"-")


def signed(text, digits):
    """The digits, behind the minus of `text` where it has one."""
    return b"-" + digits if text.startswith(b"-") else digits


def spare_zeros(rng, parts):
    at = rng.randrange(2)
    parts[at] = signed(parts[at], b"0" * rng.choice([1, 1, 1, 2, 20]) + unsigned(parts[at]))
    return parts


def odd_signs(rng, parts):
    """Minus zero, a plus, two signs, a sign at the symbol or behind the digits."""
    at = rng.choice([0, 1, 1, 1])
    digits = unsigned(parts[at])
    odd = [b"-0", b"-00", b"+0", b"-", b"+", b"+" + digits, b"--" + digits, b"+-" + digits, b"-+" + digits, digits + b"-"]
    parts[at] = rng.choice(odd + ([b"-" + digits] if at == 0 else []))
    return parts


def spaces(rng, parts):
    """A space, or another byte that a reader may pass over, before a field or behind it."""
    at, space = rng.randrange(4), rng.choice(SPACES)
    parts[at] = rng.choice([space + parts[at], parts[at] + space])
    return parts


def odd_bytes(rng, parts):
    """Some other byte more before a field, in it or behind it."""
    at = rng.randrange(4)
    place = rng.choice([0, len(parts[at]), rng.randrange(len(parts[at]) + 1)])
    # A minus before a date may well make another date.
    odd = rng.choice([byte for byte in ODD if (at, byte) != (1, b"-")])
    parts[at] = parts[at][:place] + odd + parts[at][place:]
    return parts


def other_numbers(rng, parts):
    """A symbol or a date in a form that others read, or none."""
    at = rng.randrange(2)
    text = parts[at]
    parts[at] = rng.choice([
        text + b".0", text + b".", text + b"e0", text + b"u", text + b"a", text[:-1] + b"a", b"0x" + text,
        text[:1] + b"," + text[1:], b"", b"", b"f", b"/", b":", b"one"])
    return parts


def upper_case(rng, parts):
    """Upper-case digits; a letter is put there where the field has none."""
    at = rng.choice([2, 3])
    text = bytearray(parts[at])
    place = rng.randrange(3, 16)
    text[place] = rng.choice(b"abcdef")
    one = text[:place] + text[place:place + 1].upper() + text[place + 1:]
    parts[at] = bytes(rng.choice([text.upper(), one]))
    return parts


def other_lengths(rng, parts):
    """15 or 17 digits, and other numbers of them than 16, the value kept where that can be."""
    at = rng.choice([2, 3])
    text = parts[at]
    parts[at] = rng.choice([text[1:], text[:-1], b"0" + text, text + b"0", text[:8], text + text, b"", text.lstrip(b"0")[:15],
                            b"0x" + text, b"0x" + text[2:], b"0" * 16 + text, b"1" + text])
    return parts


def other_letters(rng, parts):
    """16 bytes that are not all digits."""
    at = rng.choice([2, 3])
    place = rng.randrange(16)
    odd = bytes([rng.choice(b"gGxX/:@`\0\x80\xff -+.lOoz")])
    parts[at] = parts[at][:place] + odd + parts[at][place + 1:]
    return parts


def other_fields(rng, parts):
    """Fields more or fewer, and other marks between them."""
    at = rng.randrange(4)
    one, before, behind = parts[at], parts[:at], parts[at + 1:]
    return rng.choice([
        parts + [b""], [b""] + parts, parts + [b"0"], parts + parts[3:], before + behind, before + [one, one] + behind,
        before + [b"", one] + behind, before + [b""] + behind, before + [b"\"" + one + b"\""] + behind,
        parts[:2] + [parts[2] + parts[3]], [parts[0] + parts[1]] + parts[2:], parts[:1] + parts[2:] + parts[1:2],
        [b";".join(parts)], [b" ".join(parts)], [b"\t".join(parts)], [b"\0".join(parts)], [], [b",,,"]])


def dates_beyond(rng, parts):
    """A date that 64 bits do not hold; many wrap to one that they hold."""
    when = int(parts[1])
    wrapped = rng.choice([when + 2**64, when - 2**64, when + rng.randrange(1, 9) * 2**rng.choice([64, 96, 128])])
    first, digits = b"%d" % rng.randrange(1, 10), rng.choice([20, 21, 30, 400, 5000])
    parts[1] = rng.choice([b"%d" % rng.choice(BEYOND), b"%d" % rng.choice(BEYOND), b"%d" % wrapped,
                           signed(parts[1], first + rng.choice([b"0", first]) * digits)])
    return parts


def broken_newlines(rng):
    """Newlines that are missing, doubled or others."""
    lines = [line(row) for row in some_rows(rng, 1)]
    at = rng.randrange(len(lines))
    text = lines[at]
    end = rng.choice([b"\r\n", b"\n\r", b"\r", b"\n\n", b",\n", b"\0\n", b" \n", b"\x0b", b"\\n", b"\n\0"])
    odd = rng.choice([text[:-1] + end, text[:-1] + end, text[:-1] + end, b"\n" + text, b" \n" + text,
                      text.replace(b",", b"\n", 1), text.replace(b",", b",\n", 1), text[:20] + b"\n" + text[20:]])
    return joined(lines[:at] + [odd] + lines[at + 1:]), 19


def around(rng):
    """A good text with something before it or behind it."""
    text = joined(line(row) for row in some_rows(rng, 1))
    odd = rng.choice(SPACES + [MARK, MARK, b"\n", b"\x1a", b"#\n", b"symbol,date,bid,ask\n", b"\0\n", b"19\n", b",,,\n"])
    return rng.choice([odd + text, text + odd]), 19


def no_last_newline(rng):
    """The last line without its newline, whatever else it is."""
    rows = some_rows(rng, 1)
    lines = [line(row) for row in rows]
    last = rng.choice([fields(rows[-1]), above(rng, fields(rows[-1])), no_price(rng, fields(rows[-1])), fields(rows[0])])
    return joined(lines[:-1] + [b",".join(last)]), 19


# ---- lines of the form that draw 1, 2 or 3

def above(rng, parts):
    """A symbol above 255; many wrap to the one that stood there."""
    wrapped = int(parts[0]) + rng.randrange(1, 5) * 2 ** rng.choice([8, 8, 16, 31, 32, 32, 63, 64, 64, 96, 128])
    digits = rng.choice([4, 10, 19, 20, 21, 40, 300, 5000])
    parts[0] = rng.choice([b"%d" % wrapped, b"%d" % wrapped, b"%d" % rng.choice([256, 257, 260, 999, 1000, 2**31, 2**63, 10**20]),
                           b"9" + b"0" * digits, b"1" + b"0" * digits + parts[0]])
    return parts


def no_price(rng, parts):
    """A bid or an ask, or both, that is zero, negative, infinite or NaN, by any of the patterns."""
    nan = INFINITY + rng.choice([1, 2**51 - 1, 2**51, 2**51 + 1, 2**52 - 1, rng.randrange(1, 2**52)])
    pattern = rng.choice([0, SIGN, SIGN + 1, SIGN + bits(rng), INFINITY, SIGN + INFINITY, nan, nan, SIGN + nan, SIGN + nan])
    for at in rng.choice([[2], [3], [2, 3]]):
        parts[at] = b"%016x" % pattern
    return parts


def symbols_above(rng):
    return spoiled(rng, above)[0], 1


def prices_refused(rng):
    return spoiled(rng, no_price)[0], 2


def not_ascending(rng):
    """A row at or below the one before it, though it may be above others or above them as text."""
    rows = some_rows(rng, 2)
    at = rng.randrange(1, len(rows))
    before = rows[at - 1][0]
    lower = rng.choice([before, before, rng.randrange(before + 1), max(before - 1, 0), min(before, 9), 0])
    rows[at] = (lower,) + rows[at][1:]
    return joined(line(row) for row in rows), 3


def other_orders(rng):
    """The lines of a good table in another order: the reverse, by their text, two of them exchanged, one twice."""
    rows = some_rows(rng, 3)
    one, other = rng.sample(range(len(rows)), 2)
    swapped = list(rows)
    swapped[one], swapped[other] = rows[other], rows[one]
    order = rng.choice([rows[::-1], sorted(rows, key=line), swapped, rows[:one + 1] + rows[one:]])
    return joined(line(row) for row in order), None


# ---- more than one fault

def form_fault(rng, parts):
    """A fault of the form that leaves the rest of the line as it is."""
    at, text = rng.choice([
        (0, b"0" + parts[0]), (0, parts[0] + b" "), (1, b"+1"), (1, b"-0"), (1, b"01"), (1, b""), (1, b"%d" % rng.choice(BEYOND)),
        (3, parts[3] + b"0"), (3, parts[3][1:]), (3, parts[3][:15] + b"F"), (3, parts[3] + b"\r"), (3, parts[3] + b",")])
    parts[at] = text
    return parts


FAULTS = {19: form_fault, 1: above, 2: no_price}
TOGETHER = [(19, 1), (19, 2), (19, 3), (1, 2), (2, 3), (19, 1, 2), (19, 2, 3)]


def faulty(rng, rows, at, numbers):
    """The line of the row at a place, changed so that it has these faults."""
    symbol, when, bid, ask = rows[at]
    if 3 in numbers:
        symbol = rng.randrange(rows[at - 1][0] + 1)
    parts = fields((symbol, when, bid, ask))
    # The form last, so that nothing is put in its place.
    for number in reversed([number for number in numbers if number != 3]):
        parts = FAULTS[number](rng, parts)
    return b",".join(parts) + b"\n"


def two_in_a_line(rng):
    rows = some_rows(rng, 2)
    at, numbers = rng.randrange(1, len(rows)), rng.choice(TOGETHER)
    lines = [line(row) for row in rows]
    lines[at] = faulty(rng, rows, at, numbers)
    return joined(lines), numbers[0]


def two_lines(rng):
    """Two lines with a fault each: the first decides."""
    rows = some_rows(rng, 3)
    one, other = sorted(rng.sample(range(1, len(rows)), 2))
    lines = [line(row) for row in rows]
    first, second = rng.sample([19, 1, 2, 3], 2)
    lines[one], lines[other] = faulty(rng, rows, one, (first,)), faulty(rng, rows, other, (second,))
    return joined(lines), first


def more_lines(rng):
    """Lines behind a table of all symbols: the first of them draws a number by itself."""
    rows = [(symbol, date(rng), price(rng), price(rng)) for symbol in range(256)]
    extra = (rng.choice([0, 254, 255]), date(rng), price(rng), price(rng))
    number = rng.choice([3, 3, 1, 2, 19])
    lines = [line(row) for row in rows] + [faulty(rng, rows + [extra], 256, (number,))]
    return joined(lines + [line(extra)] * rng.choice([0, 0, 1, 44, 500])), number


# ---- bytes and sizes

def bent(rng):
    """A few bytes changed, dropped, doubled, swapped or put in."""
    data = bytearray(joined(line(row) for row in some_rows(rng, 1)))
    for _ in range(rng.choice([1, 1, 1, 2, 3])):
        at, choice = rng.randrange(len(data)), rng.randrange(7)
        if choice == 0:
            data[at] = rng.choice(BYTES)
        elif choice == 1 and len(data) > 1:
            del data[at]
        elif choice == 2:
            data.insert(at, rng.choice(BYTES))
        elif choice == 3:
            data.insert(at, data[at])
        elif choice == 4:
            other = rng.randrange(len(data))
            data[at], data[other] = data[other], data[at]
        elif choice == 5:
            data[at] ^= 1 << rng.randrange(8)
        elif at + 1 < len(data):
            data[at], data[at + 1] = data[at + 1], data[at]
    return bytes(data), None


def cut(rng):
    """The first bytes of a good text, or its last ones."""
    text = joined(line(row) for row in some_rows(rng, 1))
    at = rng.randrange(len(text) + 1)
    return rng.choice([text[:at], text[at:]]), None


def long_numbers(rng):
    """A line that is good but for a symbol, or a date, of so many digits that the input is at 65,536 bytes, or past them."""
    size, symbol = rng.choice([ROOM - 1, ROOM, ROOM, ROOM + 1, ROOM + 2]), rng.random() < 0.7
    parts = fields((7, 1, price(rng), price(rng)))
    at = 0 if symbol else 1
    parts[at] = b"1" + rng.choice(b"0019").to_bytes(1, "big") * (size - len(b",".join(parts)) - 2) + parts[at]
    return b",".join(parts) + b"\n", 20 if size > ROOM else 1 if symbol else 19


def sizes(rng):
    """A good table and what fills it up to a size about 65,536 bytes, or far above."""
    size = rng.choice([ROOM - 1, ROOM, ROOM, ROOM + 1, ROOM + 1, ROOM + 2, 70000, 131072, 131073, 400000])
    filling = rng.choice(FILLING + (None,))
    table = joined(line(row) for row in some_rows(rng, 1))
    filling = table if filling is None else filling
    text = table + filling * (size // len(filling) + 1)
    return text[:size], 20 if size > ROOM else None


def of_form(change):
    """A kind whose texts have one line not of the form."""
    return lambda rng: spoiled(rng, change)


# By name: what makes a text. Those that come more than once are made more often.
KINDS = [
    ("good tables", good), ("good tables", good), ("good tables", good), ("good tables", good), ("all 256 symbols", full),
    ("spare zeros", of_form(spare_zeros)), ("signs", of_form(odd_signs)), ("spaces", of_form(spaces)),
    ("a byte more", of_form(odd_bytes)),
    ("other forms of numbers", of_form(other_numbers)), ("upper case", of_form(upper_case)),
    ("15, 17 and other numbers of digits", of_form(other_lengths)), ("bytes that are no digits", of_form(other_letters)),
    ("fields more or fewer", of_form(other_fields)), ("dates beyond 64 bits", of_form(dates_beyond)),
    ("newlines", broken_newlines), ("no last newline", no_last_newline), ("before or behind a text", around),
    ("symbols above 255", symbols_above), ("symbols above 255", symbols_above),
    ("prices refused", prices_refused), ("prices refused", prices_refused),
    ("rows that do not ascend", not_ascending), ("other orders of lines", other_orders),
    ("two faults in a line", two_in_a_line), ("two faults in a line", two_in_a_line), ("two lines with a fault", two_lines),
    ("257 lines and more", more_lines), ("bytes bent", bent), ("bytes bent", bent), ("bytes bent", bent),
    ("a part of a text", cut), ("long numbers", long_numbers), ("sizes", sizes)]


def texts(seed):
    """Texts without end, the kinds by turns: the kind, the text, and the number that it draws, or None."""
    rng = random.Random(seed)
    while True:
        for name, make in KINDS:
            yield (name,) + make(rng)


# ---- the recorded texts

def spelled_out(text):
    """A recorded text as it is read: the repeats first, then the escapes."""
    text = re.sub(rb"\{(.)\*(\d+)\}", lambda found: found.group(1) * int(found.group(2)), text)
    return re.sub(rb"\\(n|r|0|x..)", lambda found: found.group().decode("unicode_escape").encode("latin-1"), text)


def recorded():
    """The line, the text and the number drawn of each recorded text."""
    with open(RECORDED, "rb") as file:
        for at, line in enumerate(file.read().splitlines(), 1):
            answer, _space, text = line.partition(b" ")
            if answer and not answer.startswith(b"#"):
                yield at, spelled_out(text), 0 if answer == b"same" else int(answer)
