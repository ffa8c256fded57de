"""The benchmark's table as markdown, and what stands below it."""
import platform
from statistics import median

from scenarios import SCENARIOS, WHOLE

WHOLE_HEADS = ["lines of a whole run", "lines", "Rattle", "Rust as published", "bent Rust", "Rattle / published", "Rattle / bent"]
HEADS = ["call", "symbols", "Rattle", "Rust as published", "Rust mended", "bent Rust", "bent and mended",
         "published / Rattle", "mended / Rattle", "Rattle per symbol"]


def figure(x):
    """Two or three digits that matter, whole above 100."""
    return f"{x:,.0f}" if x >= 100 else f"{x:.1f}" if x >= 10 else f"{x:.2f}" if x >= 0.1 else f"{x:.2g}"


def ratio(runs, engine):
    """The median over the rounds of the ratio within a round."""
    return figure(median(r[engine].per_call() / r["rehearse"].per_call() for r in runs))


def row(name, runs):
    what, symbols, _ = SCENARIOS[name]
    each = {engine: median(r[engine].per_call() for r in runs) for engine in runs[0]}
    times = [figure(each[e]) for e in ("rehearse", "unchanged", "mended", "bent", "bent_mended")]
    per_symbol = figure(each["rehearse"] / symbols) if what == "update" else ""
    return [what, str(symbols or ""), *times, ratio(runs, "unchanged"), ratio(runs, "mended"), per_symbol]


def whole_row(name, runs):
    what, lines, _ = WHOLE[name]
    times = [figure(median(r[engine].processor for r in runs) * 1e6 / lines) for engine in ("rehearse", "unchanged", "bent")]
    ratios = [figure(median(r["rehearse"].processor / r[engine].processor for r in runs)) for engine in ("unchanged", "bent")]
    return [what, f"{lines:,}", *times, *ratios]


def page(heads, rows):
    cells = [heads, ["---"] + ["---:"] * (len(heads) - 1)] + rows
    return "".join("| " + " | ".join(row) + " |\n" for row in cells) if rows else ""


def markdown(found):
    calls = page(HEADS, [row(name, runs) for name, runs in found.items() if name in SCENARIOS])
    whole = page(WHOLE_HEADS, [whole_row(name, runs) for name, runs in found.items() if name in WHOLE])
    return "\n".join(filter(None, (calls, whole)))


def processor():
    with open("/proc/cpuinfo") as lines:
        names = [line.split(":")[1].strip() for line in lines if line.startswith("model name")]
    return names[0] if names else platform.machine()


def differing(found, engine, part):
    """The scenarios in which that part of an engine's answers is not the Rattle program's in some round."""
    names = [name for name, runs in found.items() if any(part(r[engine]) != part(r["rehearse"]) for r in runs)]
    return ", ".join(names) or "none"


def waited(found):
    return max(run.off_processor() for runs in found.values() for by_engine in runs for run in by_engine.values())


def notes(found, rattle):
    """What was compared, and where the Rust with random maps differs."""
    rounds = len(next(iter(found.values())))
    text = (f"µs of processor time a call, or a line; the median of {rounds} rounds, ratios within a round. Processor: {processor()}. Rattle: {rattle}.\n"
            f"An engine waited for a processor during up to {waited(found):.0%} of a run.\n"
            "Every answer and the final state of the bent Rust, mended or not, equal the Rattle program's, bit for bit, in every run.\n")
    for engine, title in (("unchanged", "as published"), ("mended", "mended")):
        bits = differing(found, engine, lambda run: run.digest)
        more = differing(found, engine, lambda run: run.unordered)
        text += (f"The Rust {title} walks its maps in random order. The order or the last bits of an answer differ in: {bits}. "
                 f"The final holdings, bases or trades, order apart, differ in: {more}.\n")
    return text


def rounds(found):
    """Every single figure, as CSV."""
    text = "scenario,round,engine,calls,microseconds,seconds_of_run,processor_seconds\n"
    for name, runs in found.items():
        for number, by_engine in enumerate(runs, 1):
            for engine, run in sorted(by_engine.items()):
                text += f"{name},{number},{engine},{run.calls},{run.microseconds},{run.seconds:.3f},{run.processor:.3f}\n"
    return text
