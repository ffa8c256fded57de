"""A fact sheet from closing quotes, weights and a plan.

The scenario is kept, so that it can be read and run by hand: FOLDER/scenario.txt, its answers in answers.txt. The sheet is printed and
kept in sheet.txt, every day in days.csv, the figures in figures.csv, every refusal in refused.csv, the picture in curve.svg.
"""
import argparse
import os
import signal
import sys

ROOT = os.path.dirname(os.path.dirname(os.path.abspath(__file__)))
# tools/ has the package of the scenario's text.
sys.path.insert(0, os.path.join(ROOT, "tools"))

import days
import engine
import figures
import output
import picture
import plan
import prepared
import quotes
import report
import weights
from faults import Faults
from reading import Rehearsal


def version():
    with open(os.path.join(ROOT, "VERSION"), encoding="utf-8") as file:
        return file.read().strip()


def arguments(words):
    parser = argparse.ArgumentParser(prog="sheet.sh", description=__doc__, formatter_class=argparse.RawDescriptionHelpFormatter)
    parser.add_argument("--version", action="version", version=version())
    parser.add_argument("--quotes", metavar="CSV", help="date, security, bid, ask; or quote lines")
    parser.add_argument("--prepared", metavar="FILE", help="quotes made ready, in place of --quotes")
    parser.add_argument("--prepare", metavar="FILE", help="make the quotes ready for the securities of all the weights given, and end")
    parser.add_argument("--weights", metavar="CSV", nargs="+", required=True, help="security, weight; several with --prepare")
    parser.add_argument("--plan", metavar="FILE", help="lines of name = value; the options below come after it")
    parser.add_argument("--to", metavar="FOLDER", default="rehearsal", help="where the sheet is written (default: rehearsal)")
    parser.add_argument("--no-scenario", action="store_true", help="leave scenario.txt and answers.txt out")
    for name, (_, form) in plan.NAMES.items():
        parser.add_argument("--" + name.replace("_", "-"), metavar="VALUE", action="append" if name == "cost" else "store", help=form)
    found = parser.parse_args(words)
    if bool(found.quotes) == bool(found.prepared):
        parser.error("give one of --quotes and --prepared")
    if len(found.weights) > 1 and not found.prepare:
        parser.error("several weights go with --prepare; for many sheets use examples/sweep.sh")
    return found


def from_options(found):
    """The plan's pairs that stand among the options."""
    faults, pairs = [], []
    for name, (read, form) in plan.NAMES.items():
        given = getattr(found, name)
        for word in given if isinstance(given, list) else [given] if given is not None else []:
            pairs.append((name, read(word)))
            if read(word) is None:
                faults.append(f"--{name.replace('_', '-')}: '{word}' is no value of it; write {form}")
    if faults:
        raise Faults(faults)
    return pairs


def mix_of(path, quoted):
    """A mix and what is to be said about it; securities of weight 0 are left out."""
    given, lines = weights.read(path)
    said = list(weights.warnings(path, given))
    mix = {name: weight for name, weight in given.items() if weight}
    weights.check(path, mix, lines, quoted)
    return mix, said


def quoted_in(by_day):
    return {name for rows in by_day.values() for name in rows}


def made_ready(found):
    """The texts of the days, the symbols, the mix, and what is to be said."""
    if found.prepared:
        texts, numbers = prepared.read(found.prepared)
        mix, said = mix_of(found.weights[0], numbers)
        symbols = days.numbers(mix)
        return prepared.of_mix(texts, numbers, symbols), symbols, mix, said
    by_day = quotes.read(found.quotes)
    mix, said = mix_of(found.weights[0], quoted_in(by_day))
    symbols = days.numbers(mix)
    return days.tables(by_day, symbols), symbols, mix, [*quotes.crossed(found.quotes, by_day), *said]


def securities(path, quoted):
    """What a mix names; nothing where its file is bad, which its own run says."""
    try:
        return set(mix_of(path, quoted)[0])
    except Faults:
        return set()


def prepare(found):
    """Writes the quotes of every security that one of the mixes names."""
    by_day = quotes.read(found.quotes)
    quoted = quoted_in(by_day)
    symbols = days.numbers(set().union(*(securities(path, quoted) for path in found.weights)))
    for note in quotes.crossed(found.quotes, by_day):
        print(f"note: {note}", file=sys.stderr)
    folder, name = os.path.split(os.path.abspath(found.prepare))
    output.write(folder, {name: prepared.text(days.tables(by_day, symbols), symbols)})


def rehearsed(program, scenario, schedule, symbols, large):
    """The answers of a run, as lines and as a rehearsal."""
    answers = engine.run(program, scenario, large, days.answer_count(schedule))
    try:
        rehearsal = Rehearsal(answers, schedule, symbols)
        wrong = list(rehearsal.disagreements())
    except (ValueError, LookupError):
        wrong = ["they are not of the form of docs/SCENARIOS.md"]
    if wrong:
        raise Faults([f"{program}: its answers are wrong, {fault}; build it anew with tools/build.sh engine" for fault in wrong])
    return answers, rehearsal


def rehearse(found, program):
    """One sheet: reads, makes the scenario, runs it and writes the files; answers their texts by name."""
    chosen = plan.made([*(plan.read(found.plan) if found.plan else []), *from_options(found)])
    texts, symbols, mix, said = made_ready(found)
    schedule = plan.schedule(chosen, [day for day, _ in texts])
    scenario = "\n".join(days.scenario(chosen, schedule, [text for _, text in texts], symbols, mix)) + "\n"
    large = days.log_rows(schedule, len(mix)) > days.LOG
    answers, rehearsal = rehearsed(program, scenario, schedule, symbols, large)
    facts = figures.Figures(rehearsal.evenings, rehearsal.turnover, len(rehearsal.refusals))
    files = {"sheet.txt": report.sheet(chosen, rehearsal, facts, said),
             "curve.svg": picture.drawn(chosen.title, chosen.currency, rehearsal.evenings, report.net_paid(rehearsal.evenings)),
             "days.csv": report.days_csv(rehearsal.evenings, facts.index), "figures.csv": report.figures_csv(facts),
             "refused.csv": report.refused_csv(rehearsal.refusals)}
    if not found.no_scenario:
        files.update({"scenario.txt": scenario, "answers.txt": "\n".join(answers) + "\n"})
    output.write(found.to, files)
    return files


def stopped(*_):
    raise KeyboardInterrupt


def tell(text, folder):
    """Prints; a reader that has gone has seen enough, and one that can't take it is a fault."""
    try:
        print(text, flush=True)
    except OSError as error:
        # What is still in the buffer has nowhere to go.
        os.dup2(os.open(os.devnull, os.O_WRONLY), sys.stdout.fileno())
        if not isinstance(error, BrokenPipeError):
            sys.exit(f"standard output can't be written ({error.strerror}); the sheet is in {folder}")


def main(words):
    signal.signal(signal.SIGTERM, stopped)
    if sys.stdout is not None:
        sys.stdout.reconfigure(errors="replace")
    found = arguments(words)
    program = os.environ.get("REHEARSE") or os.path.join(ROOT, "target", "bin", "rehearse")
    try:
        if found.prepare:
            prepare(found)
        else:
            files = rehearse(found, program)
            tell(f"{files['sheet.txt']}\nwritten to {found.to}: {', '.join(files)}", found.to)
    except Faults as faults:
        sys.exit(f"{faults}\n{len(faults.sentences)} to correct; nothing was written")
    except KeyboardInterrupt:
        sys.exit("stopped")


if __name__ == "__main__":
    main(sys.argv[1:])
