#!/usr/bin/env python3
"""Puts the statements that docs/PROOFS.md prints anew from the definitions and proofs; with --check, says whether they are the same.

A printed statement is the block behind a line of PROOFS.md that starts with one of the titles below.
"""
import os
import sys

ROOT = os.path.dirname(os.path.dirname(os.path.abspath(__file__)))
PAGE = os.path.join(ROOT, "docs", "PROOFS.md")
DEMAND = "crates/ledger/specs/Demand.antt"
CLAIM = "crates/orders/specs/Claim.antt"
FURTHER = "crates/ledger/specs/Consequences.antt"
LINES = "crates/lines/specs/Claims.antt"
CORRECTIONS = "crates/corrections/specs/Claims.antt"


def lines_of(path):
    with open(os.path.join(ROOT, path), encoding="utf-8") as file:
        return file.read().split("\n")


def indent(line):
    return len(line) - len(line.lstrip())


def item(path, start):
    """The item whose first line starts so, with its comment and its clauses, moved to the left edge."""
    lines = lines_of(path)
    first = next(k for k, line in enumerate(lines) if line.lstrip().startswith(start))
    edge = indent(lines[first])
    clause = start.split()[-1] + " "
    last = first + 1
    while last < len(lines) and lines[last].strip() and (indent(lines[last]) > edge or lines[last].lstrip().startswith(clause)):
        last += 1
    while lines[first - 1].strip().startswith("-- ") and not lines[first - 1].strip().startswith("-- ----"):
        first -= 1
    return "\n".join(line[edge:] for line in lines[first:last])


def signature(path, start):
    """The line that declares a theorem."""
    return next(line.strip() for line in lines_of(path) if line.lstrip().startswith(start))


def block(*items):
    return ["    " + line if line else "" for line in "\n\n".join(items).split("\n")]


def statements():
    records = lambda path, *names: block(*[item(path, "pub record " + name) for name in names])
    return {
        "The theorem, in `crates/ledger/proofs/Demand.antt`": block(signature("crates/ledger/proofs/Demand.antt", "pub demand-3")),
        "What it proves, in `crates/ledger/specs/Demand.antt`": records(DEMAND, "Buildable", "Compared", "Demand3"),
        "The claim about orders, in `crates/orders/specs/Claim.antt`": records(CLAIM, "Lived"),
        "What it is written with, in the same file": records(CLAIM, "CanTrade", "FirstTrade", "Life", "BookedBy", "Placed", "TradedAs", "OneRowEach"),
        "Two consequences, in `crates/ledger/specs/Consequences.antt`": block(
            item(FURTHER, "pub record NeverAtOnce"), item(FURTHER, "abbrev pub NoTwoRows")
        ),
        "The theorems about quote lines, in `crates/lines/specs/Claims.antt`": block(
            item(LINES, "pub record Said"),
            item(LINES, "abbrev pub LineForm"),
            item(LINES, "pub record HeldRow"),
            *[item(LINES, "abbrev pub " + name) for name in ("Held", "ReadsText", "OneText", "SameText", "TextFits")],
        ),
        "The request's sentences, in `crates/corrections/specs/Claims.antt`": block(
            *[item(CORRECTIONS, "pub record " + name) for name in ("Among", "ShownIn", "GivenAs", "Corrects")],
            item(CORRECTIONS, "pub data Reordered"),
            item(CORRECTIONS, "pub record CorrectsQuotes"),
        ),
    }


def refreshed(page, printed):
    out = []
    at = 0
    while at < len(page):
        out.append(page[at])
        title = next((t for t in printed if page[at].startswith(t)), None)
        at += 1
        if title is None:
            continue
        while at < len(page) and (not page[at].strip() or page[at].startswith("    ")):
            at += 1
        out += [""] + printed.pop(title) + [""]
    if printed:
        sys.exit("docs/PROOFS.md has no line that starts with: " + "; ".join(printed))
    return "\n".join(out)


def main():
    with open(PAGE, encoding="utf-8") as file:
        old = file.read()
    new = refreshed(old.split("\n"), statements())
    if "--check" in sys.argv[1:]:
        sys.exit(None if new == old else "docs/PROOFS.md prints other statements than those of the crates")
    with open(PAGE, "w", encoding="utf-8") as file:
        file.write(new)


main()
