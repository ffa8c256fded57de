"""Compares what the engine, the Rust and the plain broker of model.py say to the same lines. The engine's
answer and state must be the model's on every line. They must be the Rust's, and the model's the Rust's, as far
as demand 2 of the project goes: until an added number is due, the Rust panics or a `new` has another lot than 1,
and again from the next `new`. Where that is, the line, the model and the Rust say; nothing that the engine says
decides what is compared. A call on no broker is compared with the Rust's driver wherever it stands, and stops
nothing, whatever it draws."""

import re
from collections import Counter

ADDED = frozenset([1, 2, 3, 10, 11, 14, 15, 16, 17, 18])
PANICS = frozenset([5, 6, 13])
BLOCK = re.compile(rb"\n(?=[0-9])")
EVENTS_AT = {"send": 1, "insert": 1, "send_list": 2, "update": 4}
QUEUED = re.compile(rb"(check traded [0-9]+ queued )(0|[1-9][0-9]*)(?=\n|\Z)")
# Words to the program that are no calls of the engine: compared, but not counted as calls.
SETTINGS = frozenset(["lend", "state", "quiet", "full"])
# Calls on no broker, which the Rust's driver answers by itself, also where the Rust has panicked.
BROKERLESS = frozenset(["correct"])


class Difference(Exception):
    """What is wrong at a line."""


class Fault(Exception):
    """The place of the first difference in a run of lines, and what it is."""

    def __init__(self, at, what):
        super().__init__(what)
        self.at, self.what = at, what


def blocks(output):
    """An answer and what the broker holds after it, for each line; none where the last line has no end."""
    return BLOCK.split(output[:-1]) if output.endswith(b"\n") else []


def said(block, number):
    """A block without its line's number, which it must begin with."""
    head = b"%d " % number
    if not block.startswith(head):
        raise Difference("line %d is not answered in its place" % number)
    return block[len(head):]


def drawn(verb, text):
    """The numbers of an answer, those of its events too."""
    words = text.split(b"\n", 1)[0].split(b" ")
    if len(words) > 2 and words[1] == b"refused":
        return (int(words[2]),)
    at = EVENTS_AT.get(verb)
    if at is None:
        return ()
    return tuple([int(word[:word.index(b":")]) for word in words[at:] if not word.startswith(b"taken:")])


def as_due(text, due):
    """Is this what is due? The count of sells queued is free, up to the held symbols."""
    if text == due.text or due.most is None:
        return text == due.text
    found = QUEUED.match(text)
    if found is None or int(found.group(2)) > due.most:
        return False
    return found.group(1) + QUEUED.match(due.text).group(2) + text[found.end():] == due.text


def calls_in(counter):
    """The calls among these words of lines."""
    return sum(count for verb, count in counter.items() if verb not in SETTINGS)


class Tally:
    """What was compared, and where comparisons with the Rust stopped."""

    def __init__(self):
        self.compared = Counter()
        self.met = Counter()
        self.beyond = Counter()
        self.stops = Counter()
        self.alone = Counter()
        self.state_lines = 0
        self.model_lines = 0
        self.scenarios = Counter()
        self.facts = Counter()

    def calls(self):
        """How many calls were compared with the Rust."""
        return calls_in(self.compared)

    def model_calls(self):
        """How many were compared with the model alone."""
        return calls_in(self.alone)


class Judge:
    """Goes through a run of lines; `stopped` says why the Rust has no say until the next `new`."""

    def __init__(self, tally):
        self.tally = tally
        self.stopped = None

    def line(self, text, due, engine, oracle):
        """Raises Difference where what is said at this line is not as it must be."""
        verb = text.split(None, 1)[0]
        self.numbers(verb, due, engine)
        if verb == "new":
            self.stopped = None
        if self.stopped is None and verb not in BROKERLESS:
            self.stopped = self.reason(verb, due, oracle)
        if self.stopped is None or verb in BROKERLESS:
            self.agree(due, engine, oracle)
            self.tally.compared[verb] += 1
            self.tally.state_lines += engine.count(b"\n")
            self.count(self.tally.met, verb, due.drawn)
        else:
            self.as_model(due, engine)
            self.tally.alone[verb] += 1
            self.tally.model_lines += engine.count(b"\n")
            self.count(self.tally.beyond, verb, due.drawn)

    @staticmethod
    def numbers(verb, due, engine):
        """The engine's numbers are those of document 01, on every line."""
        try:
            numbers = drawn(verb, engine)
        except ValueError:
            raise Difference("the engine's answer cannot be read")
        if numbers != due.drawn:
            raise Difference("drew %s; by document 01 it draws %s" % (list(numbers), list(due.drawn)))

    @staticmethod
    def agree(due, engine, oracle):
        """The three say the same, byte by byte."""
        if engine == oracle == due.text:
            return
        if engine == oracle:
            raise Difference("the model differs from the engine and from the Rust")
        if engine == due.text:
            raise Difference("the Rust differs from the engine and from the model")
        also = "; the model differs from both" if oracle != due.text else ", which the model equals"
        raise Difference("the engine differs from the Rust" + also)

    def as_model(self, due, engine):
        """The engine says what is due, where the Rust has no say."""
        if not as_due(engine, due):
            raise Difference("the engine differs from the model (the Rust has no say since: %s)" % self.stopped)

    @staticmethod
    def count(counter, verb, numbers):
        for number in numbers or (0,):
            counter[verb, number] += 1

    def reason(self, verb, due, oracle):
        """Why the comparison with the Rust stops at this line, or None."""
        panicked = oracle.split(b" ", 2)[1:2] == [b"panic"]
        added = [n for n in due.drawn if n in ADDED]
        hidden = [n for n in due.silent if n in ADDED]
        if added or due.unlent:
            why = "added number %d" % (added[0] if added else 16)
        elif hidden:
            why = "added number %d, unreported in a liquidation" % hidden[0]
        elif due.lot != 1:
            why = "a lot above 1, which the Rust does not have"
        else:
            why = self.panic_reason(due.drawn, due.silent, panicked)
        if why is not None:
            self.tally.stops[verb, why] += 1
        return why

    @staticmethod
    def panic_reason(numbers, silent, panicked):
        """The Rust panics exactly where 5, 6 or 13 is drawn, or an unquoted holding is liquidated."""
        known = [n for n in numbers if n in PANICS]
        if "unquoted" in silent:
            why = "panic: the liquidation stops at an unquoted holding"
        elif 5 in silent:
            why = "panic: the liquidation sells an unquoted holding"
        else:
            why = "panic: %d" % known[0] if known else None
        if panicked and why is None:
            raise Difference("the Rust panics where no number says so")
        if why is not None and not panicked:
            raise Difference("the Rust does not panic where it must (%s)" % why)
        return why


def judge_lines(judging, lines, due, engine, oracle, start=0):
    """Judges blocks that answer these lines, the first of which is numbered `start` + 1."""
    for at, line in enumerate(lines):
        try:
            number = start + at + 1
            judging.line(line, due[at], said(engine[at], number), said(oracle[at], number))
        except Difference as difference:
            raise Fault(at, str(difference))
