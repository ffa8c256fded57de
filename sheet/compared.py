"""The picture of many mixes: their returns over their volatility."""
import html

import svg

COLOUR = "#1f5fa8"
# The axes are in hundredths of a percent.
WHOLE = 10000


class Point:
    """A mix: its name, its volatility and its return, parts of 1."""

    def __init__(self, name, volatility, rate):
        self.name, self.volatility, self.rate = name, volatility, rate


class Spread:
    """From mixes to places in the picture."""

    def __init__(self, points):
        self.level = svg.Ends([point.volatility * WHOLE for point in points])
        self.upright = svg.Ends([point.rate * WHOLE for point in points])

    def x(self, point):
        return svg.across(self.level.part(point.volatility * WHOLE))

    def y(self, point):
        return svg.up(self.upright.part(point.rate * WHOLE))


def axes(spread, rate_name):
    for amount in spread.upright.places():
        yield from svg.upright_mark(spread.upright.part(amount), f"{amount / 100:g}%", amount == 0)
    for amount in spread.level.places():
        yield from svg.level_mark(spread.level.part(amount), f"{amount / 100:g}%")
    yield from svg.axis_names("volatility a year", rate_name)


def dot(spread, point):
    """A mix; its name is shown where the pointer rests on it."""
    words = f"{point.name}: return {point.rate:.2%}, volatility {point.volatility:.2%}"
    return (f'<circle cx="{spread.x(point):.1f}" cy="{spread.y(point):.1f}" r="3.5" fill="{COLOUR}" fill-opacity="0.6">'
            f"<title>{html.escape(words)}</title></circle>")


def named(spread, point):
    """A mix's name beside its dot, on the side that has more room."""
    is_right = spread.x(point) > svg.across(0.5)
    return svg.text(spread.x(point) + (-8 if is_right else 8), spread.y(point) - 6, point.name, 12, "end" if is_right else "start")


def drawn(points, rate_name):
    """Mixes side by side; the highest return is named."""
    spread, best = Spread(points), sorted(points, key=lambda point: point.rate)[-1:]
    return svg.frame(f"{len(points):,} mixes", f"time-weighted {rate_name} over volatility", [
        *axes(spread, rate_name), *(dot(spread, point) for point in points), *(named(spread, point) for point in best)])
