"""A scenario's calls and the answers of a run, taken apart."""


def money(x):
    """An amount for the reader, with two digits and thousands apart."""
    return f"{x:,.2f}"


def calls(scenario):
    """The lines of a scenario that are answered: (line number, words)."""
    for at, line in enumerate(scenario.splitlines(), 1):
        if line.split() and not line.startswith("#"):
            yield at, line.split()


class Answer:
    """What one call answered, and what the broker held after it where that was written."""

    def __init__(self, at, call, words):
        self.at, self.call, self.words = at, call, words
        self.holds = {}

    def state(self):
        """Ready or Failed; nothing where what the broker holds was not written."""
        words = self.holds.get("cash", [])
        return words[words.index("state") + 1] if words else None


def answered(text):
    """The answers of a run, by line number."""
    found, last = {}, None
    for line in text.splitlines():
        words = line.split()
        if line.startswith(" "):
            last.holds[words[0]] = words[1:]
        else:
            last = Answer(int(words[0]), words[1], words[2:])
            found[last.at] = last
    return found
