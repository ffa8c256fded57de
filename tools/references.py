"""Lists names of docs/ that do not stand where a page says: FILE:LINE: NAME.

A definition is named with its file, as `drawn` (market/Faults) or in a table's last column; the name must be defined in
crates/market/specs/Faults.antt. A theorem is named with its whole file, as `line-form` in `crates/lines/proofs/Forms.antt`. A function is named by its module or type, as `UistBroker::check`; some file of crates/*/src must have
it; those of DIFFERENCES.md are the Rust's. Pages that tell what names were before are left out. Exits with 1 where it lists something.
"""
import pathlib
import re
import sys

ROOT = pathlib.Path(__file__).resolve().parent.parent
NAMES = r"(?:`[^`]+`(?:, | and |; )?)+"
BRACKET = re.compile(rf"({NAMES}) \(([a-z_]+/[A-Z]\w*)\)")
ROW = re.compile(rf"\| ({NAMES}) \| .* \| ((?:[a-z_]+/[A-Z]\w*(?:, )?)+) \|$")
WHOLE = re.compile(rf"({NAMES}) (?:\(|in )`(crates/[\w/]+\.antt)`")
FUNCTION = re.compile(r"`(?:\w+::)+(\w+)`")
BEFORE = {"PORT.md", "DESIGN-PASS.md"}


def text_of(*paths):
    return "".join(path.read_text() for path in paths if path.exists())


def definitions(places):
    """The text of the files that `market/Faults, rules/Sends` names."""
    parts = (place.split("/") for place in places.split(", "))
    return text_of(*(ROOT / "crates" / crate / "specs" / f"{file}.antt" for crate, file in parts))


def is_defined(name, text):
    """Does a line introduce the name, or the operator `◌name◌`?"""
    return re.search(rf"^\s*(?:(?:abbrev|unfoldable|record|data|pub)\s+)*◌?{re.escape(name)}◌?(?=[\s:(])", text, re.M) is not None


def plain(name):
    """Of `.field`, `over k l` and `Ledger.run`, the name that is defined: `x draws n` is an operator."""
    words = name.split()
    return (words[1] if words[1:2] == ["draws"] else words[0]).split(".")[-1]


def missing_definitions(line):
    for names, places in BRACKET.findall(line) + ROW.findall(line):
        text = definitions(places)
        yield from (name for name in re.findall(r"`([^`]+)`", names) if not is_defined(plain(name), text))


def missing_theorems(line):
    """The names with a whole file behind them that it does not have; the file's own name is its topic."""
    for names, path in WHOLE.findall(line):
        text, topic = text_of(ROOT / path), pathlib.Path(path).stem
        names = (name for name in re.findall(r"`([^`]+)`", names) if "/" not in name and name != topic)
        yield from (name for name in names if not is_defined(name, text))


def missing_functions(page, line, functions):
    return [name for name in FUNCTION.findall(line) if name not in functions and page.name != "DIFFERENCES.md"]


def main():
    sources = "\n".join(path.read_text() for path in ROOT.glob("crates/*/src/*.rt"))
    functions, count = set(re.findall(r"\b(?:fn|mod|struct|enum|const) (\w+)", sources)), 0
    for page in sorted((ROOT / "docs").glob("*.md")):
        if page.name in BEFORE:
            continue
        for at, line in enumerate(page.read_text().split("\n"), 1):
            for name in [*missing_definitions(line), *missing_theorems(line), *missing_functions(page, line, functions)]:
                print(f"{page.relative_to(ROOT)}:{at}: {name}")
                count += 1
    print(f"{count} not where a page says", file=sys.stderr)
    return 1 if count else 0


if __name__ == "__main__":
    sys.exit(main())
