"""float.py WORD..: the scenario's FLOAT of each decimal number, and the decimal number of each FLOAT (16 hexadecimal digits)."""
import re
import sys

from scenario.floats import number, text


def told(word):
    if re.fullmatch(r"[0-9a-f]{16}", word):
        return f"{word} {number(word)!r}"
    try:
        return f"{word} {text(float(word))}"
    except ValueError:
        sys.exit(f"'{word}' is neither a decimal number nor 16 hexadecimal digits of small letters")


if __name__ == "__main__":
    if len(sys.argv) < 2:
        sys.exit(__doc__)
    print("\n".join(map(told, sys.argv[1:])))
