"""explain.py SCENARIO ANSWERS: say in a sentence what each call of a scenario answered.

A comment `# expect WORDS` says how the next call's answer must begin, and `# expect WORDS, nothing changed` that the broker holds
after it what it held before. Ends with a status other than 0 where an answer is otherwise or missing.
"""
import pathlib
import sys

import meanings
from answers import answered, calls


def expectations(scenario):
    """By line number: the comments before a call, how its answer begins, and whether nothing changes."""
    found, said, begins, same = {}, [], "", False
    for at, line in enumerate(scenario.splitlines(), 1):
        if line.startswith("# expect "):
            begins, _, rest = line[len("# expect "):].partition(", ")
            same = rest == "nothing changed"
        elif line.startswith("#"):
            said = said + [line[1:].strip()] if line[1:].strip() else []
        elif line.split():
            found[at] = (said, begins, same)
            said, begins, same = [], "", False
    return found


def held(answer):
    """What the broker holds, without the trades that are shown only once."""
    return {name: rest[:1] if name == "trades" else rest for name, rest in answer.holds.items()}


def explain(call, answer, before, expected):
    """Print one call; answer whether it went as expected. `before` is the last answer with what the broker held, if there was one."""
    (at, (name, *rest)), (said, begins, same) = call, expected
    if said:
        print("\n" + "\n".join(said))
    if answer is None or answer.call not in (name, "malformed"):
        print(f"  line {at}: {name} is not answered")
        return False
    if answer.call == "malformed":
        word, *reason = answer.words
        print(f"  line {at:>2}: {name}\n           Malformed at word {word}: {' '.join(reason)}.")
        return begins.startswith("malformed")
    became_failed = before is not None and (before.state(), answer.state()) == ("Ready", "Failed")
    unchanged = before is not None and answer.holds != {} and held(before) == held(answer)
    print(f"  line {at:>2}: {meanings.asked(name, rest)}")
    print(f"           {meanings.answered(name, answer.words)}."
          + (" Nothing changed." if same and unchanged else "")
          + (" The shortfall cannot be raised: the broker is Failed from here on." if became_failed else ""))
    for line in meanings.row_lines(name, answer.words):
        print(f"             {line}")
    right = " ".join(answer.words).startswith(begins) and (unchanged or not same)
    if not right:
        print(f"           NOT AS EXPECTED: {begins}{', nothing changed' if same else ''}")
    return right


def main(scenario_path, answers_path):
    scenario = pathlib.Path(scenario_path).read_text()
    answers = answered(pathlib.Path(answers_path).read_text())
    expected, before, wrong = expectations(scenario), None, 0
    for call in calls(scenario):
        answer = answers.get(call[0])
        wrong += not explain(call, answer, before, expected[call[0]])
        before = answer if answer and answer.holds else before
    print(f"\n{len(expected)} answers, {wrong} not as expected")
    sys.exit(1 if wrong or len(answers) != len(expected) else 0)


if __name__ == "__main__":
    main(*sys.argv[1:])
