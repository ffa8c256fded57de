"""joined.py FOLDER: the figures of many sheets as one table (FOLDER/mixes.csv) and one picture (FOLDER/mixes.svg).

The mixes are those of the sweep's list (mixes.py). A mix without a sheet is named on standard error with what was told of it, and the
others stand; the status is then 1.
"""
import csv
import io
import os
import sys

import compared
import mixes
import output
import report
from faults import Faults
from table import text_of


def figures_of(mix):
    """The figures of a mix by name, as its sheet has them, or None where there is no sheet."""
    path = os.path.join(mix.sheet, "figures.csv")
    return next(csv.DictReader(io.StringIO(text_of(path)))) if os.path.exists(path) else None


def why(mix):
    """The first line of what a mix without a sheet told."""
    told = text_of(mix.told).splitlines() if os.path.exists(mix.told) else []
    return told[0] if told else "it was not run"


def drawn(made):
    """The picture: return a year, or in all where some mix has none for a year."""
    rate = "return a year" if all(found["return a year"] for found in made.values()) else "return in all"
    points = [compared.Point(name, float(found["volatility a year"] or 0), float(found[rate])) for name, found in made.items()]
    return compared.drawn(points, rate)


def joined(folder):
    """Writes table and picture; answers the status."""
    listed = mixes.read(folder)
    found = {mix.name: figures_of(mix) for mix in listed}
    made = {name: row for name, row in found.items() if row}
    head, rows = ["mix", *next(iter(made.values()), {})], ([name, *row.values()] for name, row in made.items())
    output.write(folder, {"mixes.csv": report.csv_text(head, rows), "mixes.svg": drawn(made)})
    print(f"{len(made)} of {len(listed)} mixes: {folder}/mixes.csv, {folder}/mixes.svg")
    missing = [mix for mix in listed if not found[mix.name]]
    for mix in missing:
        print(f"no sheet of {mix.name}: {why(mix)}", file=sys.stderr)
    return 1 if missing else 0


def main(folder):
    try:
        sys.exit(joined(folder))
    except Faults as faults:
        sys.exit(str(faults))


if __name__ == "__main__":
    main(*sys.argv[1:])
