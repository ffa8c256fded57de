"""What the pictures have in common, as SVG: the frame, words and lines, round ends of an axis."""
import html
import math

WIDTH, HEIGHT = 960, 540
LEFT, RIGHT, TOP, BOTTOM = 90, 120, 84, 64
GRID, INK, FAINT = "#e3e3e3", "#222222", "#666666"


def text(x, y, words, size=13, anchor="middle", colour=INK, more=""):
    return f'<text x="{x:.1f}" y="{y:.1f}" font-size="{size}" text-anchor="{anchor}" fill="{colour}"{more}>{html.escape(words)}</text>'


def line(x1, y1, x2, y2, colour, width=1):
    return f'<line x1="{x1:.1f}" y1="{y1:.1f}" x2="{x2:.1f}" y2="{y2:.1f}" stroke="{colour}" stroke-width="{width}"/>'


def frame(title, subtitle, parts):
    """The whole picture; a long title is written smaller."""
    head = [
        f'<svg xmlns="http://www.w3.org/2000/svg" width="{WIDTH}" height="{HEIGHT}" viewBox="0 0 {WIDTH} {HEIGHT}"',
        ' font-family="Helvetica, Arial, sans-serif">',
        f'<rect width="{WIDTH}" height="{HEIGHT}" fill="white"/>',
        text(LEFT, 30, title, max(8, min(20, 1500 // len(title))), "start"), text(LEFT, 52, subtitle, 13, "start", FAINT),
    ]
    return "\n".join([*head, *parts, "</svg>"]) + "\n"


class Ends:
    """The whole numbers at which an axis begins and ends, zero between them, and the round distance of its steps, a dozen at most."""

    def __init__(self, amounts):
        low, high = min([0, *amounts]), max([0, *amounts])
        self.step = 1
        while (high - low) / self.step > 10:
            self.step = self.step * 5 // 2 if str(self.step)[0] == "2" else self.step * 2
        self.low, self.high = math.floor(low / self.step) * self.step, (math.floor(high / self.step) + 1) * self.step

    def places(self):
        return range(self.low, self.high + 1, self.step)

    def part(self, amount):
        """How far an amount is on the way from end to end."""
        return (amount - self.low) / (self.high - self.low)


def across(part):
    return LEFT + part * (WIDTH - LEFT - RIGHT)


def up(part):
    return HEIGHT - BOTTOM - part * (HEIGHT - TOP - BOTTOM)


def level_mark(part, words, size=13):
    """A place on the level axis and its words."""
    return [line(across(part), up(0), across(part), up(0) + 6, INK), text(across(part), up(0) + 22, words, size)]


def upright_mark(part, words, is_zero):
    """A place on the upright axis and its words, with a line across the picture."""
    return [line(LEFT, up(part), WIDTH - RIGHT, up(part), INK if is_zero else GRID), text(LEFT - 8, up(part) + 4, words, anchor="end")]


def axis_names(level, upright):
    """What the axes show."""
    middle = (TOP + HEIGHT - BOTTOM) / 2
    return [text((LEFT + WIDTH - RIGHT) / 2, HEIGHT - 14, level, colour=FAINT),
            text(18, middle, upright, colour=FAINT, more=f' transform="rotate(-90 18 {middle:.1f})"')]
