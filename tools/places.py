#!/usr/bin/env python3
"""Counts the places of docs/DESIGN-PASS.md in src/, point by point.

usage: tools/places.py [--list] [POINT ..]      at the top of the repository

It goes by text: a line that it counts is a place to look at. --list prints each place. tests/ and out/ are left out.
"""

import glob
import itertools
import os
import re
import sys

FN = re.compile(r"^( *)((?:pub(?:\([a-z]+\))? )?(?:extern \"C\" )?fn )(\w+)", re.M)


def files():
    return sorted(f for f in glob.glob("crates/*/src/**/*.rt", recursive=True))


def code_of(text):
    """The text without comments and ghost lines."""
    text = re.sub(r"//[^\n]*", "", text)
    return re.sub(r"(?m)^ *ghost use[^\n]*\n", "", text)


def closing(text, at):
    """Where the bracket that opens at `at` closes."""
    pairs = {"(": ")", "{": "}", "[": "]"}
    depth = 0
    for i in range(at, len(text)):
        if text[i] in pairs:
            depth += 1
        elif text[i] in pairs.values():
            depth -= 1
            if depth == 0:
                return i
    return len(text)


class Function:
    def __init__(self, file, text, match):
        self.file = file
        self.name = match.group(3)
        start = text.index("(", match.end())
        end = closing(text, start)
        self.params = [p.strip() for p in split(text[start + 1 : end]) if p.strip()]
        at = end + 1
        clauses = []
        while at < len(text) and text[at] not in "{;":
            clause = re.compile(r"(requires|ensures)[^{;]*\{").match(text, at)
            if clause:
                stop = closing(text, clause.end() - 1)
                clauses.append((clause.group(1), " ".join(text[clause.end() : stop].split())))
                at = stop + 1
                continue
            at = closing(text, at) + 1 if text[at] == "[" else at + 1
        self.answer = " ".join(text[end + 1 : at].split("requires")[0].split("ensures")[0].split())
        self.clauses = clauses
        self.body = text[at : closing(text, at) + 1] if at < len(text) and text[at] == "{" else ""

    def where(self):
        return f"{self.file}: {self.name}"


def split(params):
    """Parameters, at the commas that stand in no bracket."""
    out, depth, last = [], 0, 0
    for i, c in enumerate(params):
        if c in "([{<":
            depth += 1
        elif c in ")]}>" and params[i - 1 : i + 1] != "->":
            depth -= 1
        elif c == "," and depth == 0:
            out.append(params[last:i])
            last = i + 1
    out.append(params[last:])
    return out


def functions():
    for file in files():
        text = code_of(open(file).read())
        for match in FN.finditer(text):
            yield Function(file, text, match)


def types(kind):
    """The name and the body of each struct, or of each enum."""
    for file in files():
        text = code_of(open(file).read())
        for match in re.finditer(kind + r" (\w+)(?:<[^>]*>)? \{", text):
            body = text[match.end() : closing(text, match.end() - 1)]
            yield file, match.group(1), [p.strip() for p in split(body) if p.strip()]


def optional_enums():
    """Enums of one variant with a value, the others bare: the shape of an Option or a Result."""
    for file, name, variants in types("enum"):
        bare = [v for v in variants if "(" not in v and "{" not in v]
        if len(variants) - len(bare) == 1 and bare:
            yield f"{file}: enum {name}"


def flags():
    """Fields that are a flag, or flags, in a struct that has other fields."""
    for file, name, fields in types("struct"):
        for field in fields:
            if re.search(r": (bool$|\[bool;)", field) and len(fields) > 1:
                yield f"{file}: struct {name}: {field}"


def numbers():
    """Numbers for refusals: fields and parameters `fault: u32`, and functions that answer one."""
    for file, name, fields in types("struct"):
        for field in fields:
            if re.search(r"\bfault: u32$", field):
                yield f"{file}: struct {name}: {field}"
    for f in functions():
        for p in f.params:
            if re.search(r"\b(fault|number): u32$", p):
                yield f"{f.where()}: {p}"
        if f.answer.endswith("-> u32") and re.search(r"fault|first|number", f.name):
            yield f"{f.where()} {f.answer}"


def shape(text):
    """The text with its types, numbers and names replaced by their order of first use."""
    seen = {}

    def word(match):
        w = match.group(0)
        if w in KEPT:
            return w
        return seen.setdefault(w, f"w{len(seen)}")

    text = re.sub(r'b?"[^"]*"|b?\'[^\']*\'', "0", text)
    return " ".join(re.sub(r"\w+", word, text).split())


KEPT = set("fn let mut if else while for in loop match return break struct enum self Self bool true false as pub".split())


def twins():
    """Functions that are equal but for names, types and constants, and types with the same fields or variants; the first of
    each group is no twin."""
    groups = {}
    for f in functions():
        if f.body.count("\n") >= 4:
            groups.setdefault(shape(", ".join(f.params) + f.answer + f.body), []).append(f.where())
    for file, name, fields in list(types("struct")) + list(types("enum")):
        names = tuple(re.sub(r"[:(].*|pub(\([a-z]+\))? ", "", f, flags=re.S).strip() for f in fields)
        if len(names) > 1:
            groups.setdefault(names, []).append(f"{file}: type {name}")
    for group in groups.values():
        for other in group[1:]:
            yield f"{other} like {group[0]}"


def counted_loops():
    """`while` loops whose body counts an index up or down by hand."""
    for f in functions():
        for match in re.finditer(r"\bwhile ([^{]*)\{|\bloop \{", f.body):
            body = f.body[match.end() : closing(f.body, match.end() - 1)]
            if re.search(r"\b(\w+) = \1 [+-] 1;|\b(\w+) [+-]= 1;|\b(i|at) = \w+;", body):
                yield f"{f.where()}: {match.group(0)[:-1].strip()}"


def by_hand():
    """Equality, order, copying, conversion and printing by hand: functions that match a value to flags, words or
    another kind, that compare field by field, or that print through a buffer."""
    for f in functions():
        body = " ".join(f.body.split())
        if re.fullmatch(r"\{ (let \w+ = [\w.]+; )?match \w+ \{ .*(=> (true|false), ?){2}\} \}", body):
            yield f"{f.where()}: a match to flags"
        elif body.count("==") + body.count("!=") >= 3 and f.answer.endswith("-> bool"):
            yield f"{f.where()}: field by field"
        elif any("[u8; 65536]" in p for p in f.params):
            yield f"{f.where()}: prints through a buffer"


def together():
    """Three and more parameters that travel together through three and more functions, and a fact of a value in three
    and more contracts."""
    trios = {}
    for f in functions():
        params = sorted(" ".join(p.split()) for p in f.params if "self" not in p)
        for trio in itertools.combinations(params, 3):
            trios.setdefault(trio, set()).add(f.where())
    groups = {}
    for trio, where in trios.items():
        if len(where) >= 3:
            groups.setdefault(frozenset(where), set()).update(trio)
    for where, params in groups.items():
        yield f"{len(where)} functions: " + "; ".join(sorted(params))
    facts = {}
    for f in functions():
        for kind, clause in f.clauses:
            if kind == "requires":
                facts.setdefault(clause, set()).add(f.where())
    for clause, where in facts.items():
        if len(where) >= 3:
            yield f"{len(where)} functions: requires {clause}"


def buffers():
    """Arrays with a count beside them, in a struct or as parameters, and arrays of one length side by side."""
    for file, name, fields in types("struct"):
        arrays = [f for f in fields if re.search(r": \[", f)]
        counts = [f for f in fields if re.search(r"\b(count|filled|at|kept|first|second|third|sent|resting): usize$", f)]
        lengths = [re.search(r"; (\w+)\]$", f).group(1) for f in arrays if re.search(r"; (\w+)\]$", f)]
        if arrays and counts:
            yield f"{file}: struct {name}: an array and {', '.join(counts)}"
        if len(lengths) != len(set(lengths)):
            yield f"{file}: struct {name}: arrays of one length"
    for f in functions():
        if any(re.search(r": (&(mut )?)?\[\w+; \w+\]$", p) for p in f.params):
            if any(re.search(r"\b(n|count|at|rows|resting|filled): usize$", p) for p in f.params):
                yield f"{f.where()}: an array and a count"


def switches():
    """Switches on which step to run: a parameter of an own kind, or a flag, that is matched or tested in the body."""
    kinds = {name for _, name, variants in types("enum") if all("(" not in v for v in variants)}
    for f in functions():
        for p in f.params:
            match = re.fullmatch(r"(\w+): (\w+)", p)
            if match and (match.group(2) in kinds or match.group(2) == "bool"):
                if re.search(r"\b(match|if) !?" + match.group(1) + r"\b", f.body):
                    yield f"{f.where()}: {p}"


def answers():
    """Files of answers by hand."""
    for file in sorted(glob.glob("crates/*/proofs/**/Answers.antt", recursive=True)):
        yield f"{file}: {sum(1 for _ in open(file))} lines"


POINTS = {
    "1a": optional_enums,
    "1b": flags,
    "1c": numbers,
    "2": twins,
    "3": counted_loops,
    "4": by_hand,
    "5": together,
    "6": buffers,
    "7": switches,
    "8": answers,
}


def main():
    asked = sys.argv[1:]
    listing = "--list" in asked
    names = [a for a in asked if a != "--list"] or list(POINTS)
    for name in names:
        places = list(POINTS[name]())
        print(f"{name:3} {len(places):4}  {' '.join(POINTS[name].__doc__.split())}")
        if listing:
            for place in places:
                print("       ", place)


if __name__ == "__main__":
    if not os.path.isdir("crates"):
        sys.exit("run it at the top of the repository")
    main()
