"""Quotes made ready once for many mixes: each day's table as the scenario's words, and the securities' numbers. A mix takes its own
out of them, under its own numbers, so that its scenario is the one that its quotes alone would give."""
import amounts
import table
from faults import Faults, of_file

HEAD = "# quotes made ready: a line for each security's number, then a line for each day"


def text(texts, symbols):
    """The file: `# name SYMBOL NAME` lines, then `DATE QUOTE ..` lines."""
    names = [f"# name {symbol} {name}" for name, symbol in symbols.items()]
    return "\n".join([HEAD, *names, *(f"{day} {words}" for day, words in texts)]) + "\n"


def read(path):
    """The texts and symbols of such a file."""
    lines = table.text_of(path).splitlines()
    if not lines or lines[0] != HEAD:
        raise Faults([of_file(path, "is not a file of quotes made ready", "make one with --prepare")])
    names = (line.split(" ", 3) for line in lines if line.startswith("# name "))
    symbols = {name: int(symbol) for _, _, symbol, name in names}
    rows = (line.partition(" ") for line in lines if not line.startswith("#"))
    return [(amounts.date(day), words) for day, _, words in rows], symbols


def renumbered(words, numbers):
    """A table's words for the symbols that have a new number, under it."""
    parts = (word.partition(":") for word in words.split(" "))
    return " ".join(f"{numbers[symbol]}:{rest}" for symbol, _, rest in parts if symbol in numbers)


def of_mix(texts, symbols, mix):
    """The tables of the mix's securities, under the mix's numbers; days without a quote of them go."""
    if symbols == mix:
        return texts
    numbers = {str(symbols[name]): symbol for name, symbol in mix.items()}
    made = ((day, renumbered(words, numbers)) for day, words in texts)
    return [(day, words) for day, words in made if words]
