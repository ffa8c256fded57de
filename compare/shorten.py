"""Cuts a scenario that shows a difference down to few lines, and writes it to target/compare/."""

import os

import judge
import programs
from reread import reread


def fault(lines, engine, oracle):
    """The first difference in these lines: its place and what it is, or None."""
    text = ("\n".join(lines) + "\n").encode()
    try:
        one = judge.blocks(programs.answers(engine, text))
        other = judge.blocks(programs.answers(oracle, text))
    except programs.Crash as crash:
        return len(lines) - 1, str(crash)
    if len(one) != len(lines) or len(other) != len(lines):
        return len(lines) - 1, "%d lines were answered by %d and %d" % (len(lines), len(one), len(other))
    try:
        judge.judge_lines(judge.Judge(judge.Tally()), lines, reread(lines).due, one, other)
    except judge.Fault as found:
        return found.at, found.what
    return None


def shorter(lines, engine, oracle, most=400):
    """Drops lines, in halves at first, while a difference remains."""
    found = fault(lines, engine, oracle)
    if found is None:
        return lines
    lines = lines[:found[0] + 1]
    size, tries = max(len(lines) // 2, 1), 0
    while tries < most:
        at, dropped = 0, False
        while at < len(lines) and tries < most:
            rest = lines[:at] + lines[at + size:]
            tries += 1
            found = fault(rest, engine, oracle) if rest else None
            if found is not None:
                lines, dropped = rest[:found[0] + 1], True
            else:
                at += size
        if size == 1 and not dropped:
            break
        size = max(size // 2, 1)
    return lines


def written(folder, name, content):
    os.makedirs(folder, exist_ok=True)
    path = os.path.join(folder, name)
    with open(path, "wb") as out:
        out.write(content)
    return path


def said(program, text):
    try:
        return programs.answers(program, text)
    except programs.Crash as crash:
        return str(crash).encode()


def by_model(lines):
    """What is due by the model, as a program would write it."""
    due = reread(lines).due
    return b"".join(b"%d %s\n" % (number, one.text) for number, one in enumerate(due, 1))


def report(folder, name, lines, engine, oracle):
    """Writes the shortened scenario with the answers of both programs and of the model; says what and where."""
    lines = shorter(lines, engine, oracle)
    found = fault(lines, engine, oracle)
    text = ("\n".join(lines) + "\n").encode()
    path = written(folder, name + ".txt", text)
    written(folder, name + ".engine", said(engine, text))
    written(folder, name + ".oracle", said(oracle, text))
    written(folder, name + ".model", by_model(lines))
    what = "it is gone when run alone" if found is None else "line %d: %s" % (found[0] + 1, found[1])
    return "%s (%d lines): %s" % (path, len(lines), what)
