"""The picture of an account over time: its value and what was paid in, day by day."""
import datetime

import svg

VALUE, PAID_IN = "#1f5fa8", "#c8641e"
MOST_DATES = 8
# Amounts from here on are told in millions, so that they fit beside the axis.
LARGE = 10_000_000


class Scale:
    """From days and amounts to places in the picture."""

    def __init__(self, dates, amounts):
        self.first, self.last, self.amounts = dates[0], dates[-1], svg.Ends(amounts)
        self.days = max((self.last - self.first).days, 1)

    def part(self, date):
        return (date - self.first).days / self.days

    def x(self, date):
        return svg.across(self.part(date))

    def y(self, amount):
        return svg.up(self.amounts.part(amount))


def starts(first, last, months):
    """The first days of every so many months between two days."""
    count = first.year * 12 + first.month - 1
    count += -count % months
    while True:
        date = datetime.date(count // 12, count % 12 + 1, 1)
        if date > last:
            return
        if date >= first:
            yield date
        count += months


def ticks(first, last):
    """Days to name on the axis, at most eight: days, weeks, months, quarters, years, or every few years. (date, words)."""
    span = (last - first).days
    for step in (1, 2, 7, 14):
        if span // step < MOST_DATES:
            dates = [first + datetime.timedelta(days=n) for n in range(0, span + 1, step)]
            return [(date, f"{date.day} {date:%b %Y}") for date in dates]
    for months in (1, 3, 6, 12, 24, 60, 120, 240):
        dates = list(starts(first, last, months))
        if len(dates) <= MOST_DATES:
            return [(date, f"{date:%B %Y}" if months < 12 else f"{date.year}") for date in dates]
    return [(date, f"{date.year}") for date in (first, last)]


def axes(scale, currency):
    ends = scale.amounts
    unit, name = (1_000_000, f"million {currency}") if ends.high - ends.low >= LARGE else (1, currency)
    for amount in ends.places():
        yield from svg.upright_mark(ends.part(amount), f"{amount // unit:,}", amount == 0)
    for date, words in ticks(scale.first, scale.last):
        yield from svg.level_mark(scale.part(date), words, 12)
    yield from svg.axis_names("date", name)


def curve(scale, points, colour, steps=False):
    """A line through (date, amount) points; steps keep the level until the next day."""
    places, last = [], None
    for date, amount in points:
        x, y = scale.x(date), scale.y(amount)
        if steps and last is not None and y != last:
            places.append(f"{x:.1f},{last:.1f}")
        places.append(f"{x:.1f},{y:.1f}")
        last = y
    return f'<polyline points="{" ".join(places)}" fill="none" stroke="{colour}" stroke-width="1.8" stroke-linejoin="round"/>'


def legend(names):
    for at, (colour, name) in enumerate(names):
        x = svg.LEFT + 14 + 190 * at
        yield svg.line(x, svg.TOP - 10, x + 28, svg.TOP - 10, colour, 3)
        yield svg.text(x + 36, svg.TOP - 6, name, anchor="start")


def end_labels(scale, value, paid_in):
    """The last amounts beside the lines' ends, kept apart where the lines meet."""
    at_value, at_paid, x = scale.y(value), scale.y(paid_in), svg.across(1) + 8
    if abs(at_value - at_paid) < 16:
        at_value = at_paid - 16 if at_value <= at_paid else at_paid + 16
    yield svg.text(x, at_value + 4, f"{value:,.0f}", anchor="start", colour=VALUE)
    yield svg.text(x, at_paid + 4, f"{paid_in:,.0f}", anchor="start", colour=PAID_IN)


def written(date):
    return f"{date.day} {date:%B %Y}"


def drawn(title, currency, evenings, net):
    """The value of the account and what was paid in, less what was paid out."""
    dates = [evening.date for evening in evenings]
    values = [evening.value for evening in evenings]
    scale = Scale(dates, values + net)
    return svg.frame(title, f"rehearsed on closing quotes, {written(dates[0])} to {written(dates[-1])}", [
        *axes(scale, currency),
        curve(scale, zip(dates, net), PAID_IN, steps=True), curve(scale, zip(dates, values), VALUE),
        *legend([(VALUE, "value of the account"), (PAID_IN, "paid in, net")]), *end_labels(scale, values[-1], net[-1])])
