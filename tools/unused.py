"""Lists imported names that their file does not use, or brings in twice, for the .rt and .antt files of crates/.

    tools/unused.py [CRATE...]    one line for each name: FILE:LINE: NAME

It reads text and no grammar: a name counts as used where it stands anywhere outside imports, comments,
strings, fields (`.name`) and the later parts of a path. So a local variable of the same name hides an
unused import; no used import is listed. Exits with 1 where it lists something.
"""
import pathlib
import re
import sys

ROOT = pathlib.Path(__file__).resolve().parent.parent / "crates"
# An import: whether it is for others too, its path, and the names of its list or the one name of the whole.
ANTT_USE = re.compile(r"^[ \t]*(?P<public>pub )?use (?P<path>[^\s{]+?)(?:\.\{(?P<names>[^}]*)\}| as (?P<whole>\S+))?[ \t]*$", re.M)
GHOST_USE = re.compile(r"^\s*ghost use (?P<path>[^\s{;]+?)(?:\.\{(?P<names>[^}]*)\}| as (?P<whole>[^\s;]+))?;", re.M)
RUST_USE = re.compile(r"^\s*(?P<public>pub(?:\(crate\))? )?use (?P<path>[\w:]+?)(?:::\{(?P<names>[^}]*)\})?(?: as (?P<whole>\w+))?;", re.M)
# Traits of std and of crate market, which are used by their methods.
TRAITS = ("Read", "Write", "BufRead", "Row")
STRING = re.compile(r'"(?:[^"\\\n]|\\.)*"')


def blanked(text, pattern):
    """The text with each match as spaces, so that places stay the same."""
    return pattern.sub(lambda m: re.sub(r"[^\n]", " ", m.group(0)), text)


def line_of(text, place):
    return text.count("\n", 0, place) + 1


def listed(names):
    """The names that a list in braces brings in: of `a as b` it is b."""
    for one in names.split(","):
        words = one.split()
        if words:
            yield words[-1]


def antt_tokens(text):
    """The words of antt text, each as the first part of its path; a field (`.name`) is none."""
    found = set()
    for word in re.split(r"[\s(){};,]+", text):
        if word and not word.startswith("."):
            found.add(word)
            found.add(word.split(".")[0])
            found.add(word.rstrip("."))
    return found


def is_used(name, tokens):
    """Is the name, or the operator `◌name◌` by its parts, among the words?"""
    if name in tokens:
        return True
    parts = [p for p in name.split("◌") if p]
    return "◌" in name and all(part_used(p, tokens) for p in parts)


def part_used(part, tokens):
    """A part of an operator: alone, or with a `◌` beside it, as in `(◌≤ n)`."""
    return any(t in tokens for t in (part, "◌" + part, part + "◌", "◌" + part + "◌"))


def brought(m):
    """The names that an import brings in: those of its list, or the whole module's."""
    last = re.split(r"\.|::", m.group("path"))[-1]
    if m.group("names") is not None:
        # `self` in a list brings in the module itself.
        return [last if name == "self" else name for name in listed(m.group("names"))]
    return [m.group("whole") or last]


def unused(text, imports, used):
    """(line, name) of each name that these imports bring in and `used` does not find, or that stood in an import of the same form
    before. What a `pub use` brings in is for others."""
    seen = set()
    for m in imports:
        if m.groupdict().get("public"):
            continue
        for name in brought(m):
            one = (m.group("path"), m.group("names") is None, name)
            if one in seen or not used(name):
                yield line_of(text, m.start("path")), name
            seen.add(one)


def unused_antt(text):
    """(line, name) of each unused import of an .antt file."""
    code = blanked(blanked(text, STRING), re.compile(r"(?<!\S)--.*"))
    tokens = antt_tokens(blanked(code, ANTT_USE))
    return unused(text, ANTT_USE.finditer(code), lambda name: is_used(name, tokens))


def rust_used(name, code):
    """A type by its name; a module or a function only before `::`, `(` or `{`. Of a trait no word need stand there."""
    if name in TRAITS:
        return True
    if name[0].isupper():
        return re.search(r"(?<![.\w])%s\b" % re.escape(name), code) is not None
    return re.search(r"(?<![.\w:])(?<!fn )%s\s*(?:::|\(|\{)" % re.escape(name), code) is not None


def unused_rt(text):
    """(line, name) of each unused import of an .rt file."""
    code = blanked(blanked(text, STRING), re.compile(r"//.*"))
    body = blanked(blanked(code, GHOST_USE), RUST_USE)
    tokens = antt_tokens(body)
    yield from unused(text, GHOST_USE.finditer(code), lambda name: is_used(name, tokens))
    yield from unused(text, RUST_USE.finditer(code), lambda name: rust_used(name, body))


def files(crates):
    for crate in crates or sorted(p.name for p in ROOT.iterdir() if p.is_dir()):
        for part in ("src", "specs", "proofs"):
            yield from sorted(p for p in (ROOT / crate / part).rglob("*") if p.suffix in (".rt", ".antt"))


def main():
    count = 0
    for path in files(sys.argv[1:]):
        find = unused_rt if path.suffix == ".rt" else unused_antt
        for line, name in find(path.read_text()):
            print("%s:%d: %s" % (path.relative_to(ROOT.parent), line, name))
            count += 1
    print("%d unused" % count, file=sys.stderr)
    return 1 if count else 0


if __name__ == "__main__":
    sys.exit(main())
