"""Checks the meant differences: each file of compare/differences/ has a scenario, what the Rust answers
to it and what the engine answers, and both must still answer so.

A file has sections that begin with `== scenario`, `== bent` or `== unchanged` (a build of the Rust) and
`== engine`. In a scenario `1024 times LINE` stands for as many lines. In an answer a line `...` stands for
any number of lines, and ` ...` at a line's end for any rest. Where a build has more than one section its
answer is not settled: it must be one of them. What the engine answers is also judged, line by line and with
nothing left out, beside the bent Rust and the model."""

import os
import re

import programs
import shorten

FOLDER = os.path.join(os.path.dirname(os.path.abspath(__file__)), "differences")


def names():
    return sorted(name for name in os.listdir(FOLDER) if name.endswith(".txt"))


def count():
    return len(names())


def sections(name):
    """The title and the lines of each section, in order."""
    found = []
    with open(os.path.join(FOLDER, name), encoding="utf-8") as text:
        for line in text.read().splitlines():
            if line.startswith("== "):
                found.append((line[3:], []))
            elif found:
                found[-1][1].append(line)
    return found


def spelled_out(lines):
    """The scenario with each `N times LINE` as N lines."""
    out = []
    for line in lines:
        many = re.fullmatch(r"(\d+) times (.*)", line)
        out += [many.group(2)] * int(many.group(1)) if many else [line]
    return out


def pattern(lines):
    parts = []
    for line in lines:
        if line == "...":
            parts.append(r"(?:[^\n]*\n)*")
        elif line.endswith(" ..."):
            parts.append(re.escape(line[:-4]) + r" [^\n]*\n")
        else:
            parts.append(re.escape(line) + r"\n")
    return re.compile("".join(parts))


def check_file(name, paths):
    """What is not as written."""
    found = sections(name)
    lines = spelled_out(dict(found)["scenario"])
    text = ("\n".join(lines) + "\n").encode()
    fault = shorten.fault(lines, paths["engine"], paths["bent"])
    faults = [] if fault is None else ["differences/%s: line %d: %s" % (name, fault[0] + 1, fault[1])]
    for title in ("bent", "unchanged", "engine"):
        allowed = [pattern(lines) for head, lines in found if head == title]
        if not allowed:
            continue
        said = programs.answers(paths[title], text).decode()
        if not any(one.fullmatch(said) for one in allowed):
            faults.append("differences/%s: the %s answers otherwise:\n%s" % (name, title, said[-2000:]))
    return faults


def check(given):
    """What is not as written, over all the files."""
    paths = {"bent": given.oracle, "unchanged": given.unchanged, "engine": given.engine}
    return [fault for name in names() for fault in check_file(name, paths)]
