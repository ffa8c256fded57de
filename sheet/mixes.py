"""mixes.py FOLDER QUOTES PLAN WEIGHTS..: the list of a sweep's mixes, FOLDER/mixes.txt, with a line for each, tabs between its parts.

A folder that has a sweep of other mixes, quotes or plan is refused, so that a resumed sweep joins what belongs together.
"""
import hashlib
import os
import sys

import output
from faults import Faults, of_file, refuse
from table import bytes_of, text_of


class Mix:
    """A mix of a sweep: its name, the files of its weights, of the quotes made ready and of the plan, its sheet's folder, and the file
    of what its run told."""

    def __init__(self, name, weights, ready, plan, sheet, told):
        self.name, self.weights, self.ready, self.plan, self.sheet, self.told = name, weights, ready, plan, sheet, told

    def line(self):
        return "\t".join([self.name, self.weights, self.ready, self.plan, self.sheet, self.told])


def made(folder, plan, weights):
    """A mix has the name of its file, without what stands behind the last point."""
    name, folder = os.path.splitext(os.path.basename(weights))[0], os.path.abspath(folder)
    sheet = os.path.join(folder, "sheets", name)
    return Mix(name, os.path.abspath(weights), os.path.join(folder, "quotes.ready"), os.path.abspath(plan), sheet, sheet + ".told")


def read(folder):
    """The mixes of a sweep's list."""
    return [Mix(*line.split("\t")) for line in text_of(os.path.join(folder, "mixes.txt")).splitlines()]


def faults(mixes):
    """What keeps mixes from a list: a name that comes twice, or one that no line can have."""
    seen = {}
    for mix in mixes:
        first = seen.setdefault(mix.name, mix)
        if first is not mix:
            yield of_file(mix.weights, f"has the name of {first.weights}", "give the files different names")
        if not mix.line().replace("\t", "").isprintable() or mix.line().count("\t") != 5:
            yield of_file(mix.weights, "has a name, or is in a folder, with characters that are not printable", "rename it")


def sums(paths):
    """A line for each file, with the sum of what it has."""
    return "".join(f"{hashlib.sha256(bytes_of(path)).hexdigest()}  {os.path.abspath(path)}\n" for path in paths)


def listed(folder, quotes, plan, paths):
    """Writes the list, and the sums of all that the sweep is made from."""
    mixes = [made(folder, plan, path) for path in paths]
    refuse(list(faults(mixes)))
    inputs, kept = sums([quotes, plan, *paths]), os.path.join(folder, "inputs.txt")
    if os.path.exists(kept) and text_of(kept) != inputs:
        raise Faults([of_file(folder, "has a sweep of other mixes, quotes or plan", "name another folder, or remove this one")])
    output.write(folder, {"inputs.txt": inputs, "mixes.txt": "".join(mix.line() + "\n" for mix in mixes)})


def main(folder, quotes, plan, *paths):
    try:
        listed(folder, quotes, plan, paths)
    except Faults as found:
        sys.exit(str(found))


if __name__ == "__main__":
    main(*sys.argv[1:])
