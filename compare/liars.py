"""Lying engines, to try the comparison with: each is a filter over a good engine's text, and the comparison must
refuse it. `honest` is the filter that changes nothing, which must pass.

liars.py NAME ENGINE: answers the scenario on standard input as that liar does."""

import os
import sys

ROOT = os.path.dirname(os.path.dirname(os.path.abspath(__file__)))
# Nothing is written beside the sources; tools/ has the shared package.
sys.dont_write_bytecode = True
sys.path.insert(0, os.path.join(ROOT, "tools"))

import judge
import programs
from scenario import floats

# How many calls each liar is tried on.
CALLS = 12000
HONEST = "honest"


class Block:
    """A line's answer: its number, verb and answer, the state after it, and whether an added number is in it."""

    def __init__(self, text):
        self.answer, _end, self.state = text.decode().partition("\n")
        self.number, self.verb = self.answer.split(" ")[:2]
        numbers = judge.drawn(self.verb, self.answer.partition(" ")[2].encode())
        self.added = any(number in judge.ADDED for number in numbers)

    def text(self):
        return self.answer + "\n" + (self.state + "\n" if self.state else "")


def honest(blocks):
    yield from blocks


def hides(blocks):
    hidden = False
    for block in blocks:
        hidden = block.verb == "delete" or (hidden and block.verb != "new")
        if hidden and block.state:
            block.state = " refused 16"
        yield block


def charges(blocks):
    for block in blocks:
        words = block.state.split(" ")
        if block.added and words[1:2] == ["cash"]:
            words[2] = floats.text(floats.number(words[2]) - 1.0)
            block.state = " ".join(words)
        yield block


def freezes(blocks):
    """The state that is shown on and on has no trades after their count, as one that shows none anew."""
    frozen = None
    for block in blocks:
        if block.verb == "new":
            frozen = None
        if frozen is not None and block.verb == "check" and " traded " in block.answer:
            block.answer = block.number + " check traded 0 queued 0"
        if frozen is not None and block.state:
            block.state = frozen
        elif block.added and block.state:
            frozen = "\n".join(" ".join(line.split(" ")[:3]) if line.startswith(" trades ") else line
                               for line in block.state.split("\n"))
        yield block


# By name: what the engine does, and the filter.
LIARS = {
    HONEST: ("answers as the good engine does", honest),
    "hides": ("from a deletion to the next `new`, shows ` refused 16` in place of what the broker holds", hides),
    "charges": ("takes 1.0 from the cash for each call that draws an added number", charges),
    "freezes": ("draws the right numbers, and after an added one trades nothing and shows the same state "
                "until the next `new`", freezes),
}


def command(name, engine):
    """The words that start a liar over this engine."""
    return [sys.executable, "-B", os.path.abspath(__file__), name, engine]


def main(name, engine):
    said = judge.blocks(programs.answers(engine, sys.stdin.buffer.read()))
    blocks = LIARS[name][1](Block(text) for text in said)
    sys.stdout.write("".join(block.text() for block in blocks))


if __name__ == "__main__":
    main(*sys.argv[1:])
