"""How the program ends where a run cannot go on (docs/SCENARIOS.md, "How a run ends"): each end is brought about and held to what is
told there. The Rust's driver has no part in it."""

import os
import resource
import select
import subprocess
import sys
import tempfile

GIVEN = b"quiet\nfloor 3ff8000000000000\nfloor x\n"
ANSWERS = b"1 quiet quiet\n2 floor 3ff0000000000000\n3 malformed 2 not a float\n"
SMALL, LARGE = 4000, 40000
RECORDED = os.path.join(os.path.dirname(os.path.dirname(os.path.abspath(__file__))), "crates", "rehearse")
SECONDS = 60


def limited(kilobytes):
    """What sets the stack's limit in a program that is about to start; nothing where no limit is asked for."""
    def limit():
        hard = resource.getrlimit(resource.RLIMIT_STACK)[1]
        resource.setrlimit(resource.RLIMIT_STACK, (kilobytes * 1024, hard))
    return limit if kilobytes else None


def run(words, given=None, out=subprocess.PIPE, stack=None):
    """What a program writes and tells, and its status."""
    source = {"stdin": given} if given is not None else {"input": GIVEN}
    done = subprocess.run(words, stdout=out, stderr=subprocess.PIPE, timeout=SECONDS, preexec_fn=limited(stack), **source)
    return done.stdout or b"", done.stderr, done.returncode


def from_folder(engine):
    with tempfile.TemporaryDirectory() as folder:
        place = os.open(folder, os.O_RDONLY)
        try:
            return run([engine], given=place)
        finally:
            os.close(place)


def to_full_disk(*words):
    with open("/dev/full", "wb") as full:
        return run(words, out=full)


def over_pipe(engine):
    """A line at a time, each sent when the one before it is answered."""
    with subprocess.Popen([engine], stdin=subprocess.PIPE, stdout=subprocess.PIPE, stderr=subprocess.PIPE) as program:
        said = b""
        for line in GIVEN.splitlines(keepends=True):
            program.stdin.write(line)
            program.stdin.flush()
            if not select.select([program.stdout], [], [], SECONDS)[0]:
                program.kill()
                break
            said += os.read(program.stdout.fileno(), 65536)
        program.stdin.close()
        return said + program.stdout.read(), program.stderr.read(), program.wait()


def to_gone_reader(engine):
    """More answers than a pipe holds, to a reader that goes after the first."""
    with tempfile.TemporaryFile() as given:
        given.write(GIVEN * 100000)
        given.seek(0)
        with subprocess.Popen([engine], stdin=given, stdout=subprocess.PIPE, stderr=subprocess.PIPE) as program:
            first = program.stdout.readline()
            program.stdout.close()
            status = program.wait(SECONDS)
            return first, program.stderr.read(), status


def recorded(engine, stack):
    """The recorded scenarios, which need more stack than a few lines do."""
    with open(os.path.join(RECORDED, "stdin"), "rb") as given:
        return run([engine], given=given, stack=stack)


def recorded_answers():
    with open(os.path.join(RECORDED, "stdout"), "rb") as answers:
        return answers.read()


def stack_told(limit, need):
    return b"rehearse: the stack's limit is %d KB, and this run needs %d KB: ulimit -s %d\n" % (limit, need, need)


FULL = b"rehearse: standard output: No space left on device\n"
GONE = b"rehearse: standard output: Broken pipe\n"
# what is tried: how, what is written, what is told
ENDS = {
    "a folder as the input": (from_folder, b"", b"rehearse: standard input: Is a directory\n"),
    "a disk that is full": (to_full_disk, b"", FULL),
    "`--help`, and a disk that is full": (lambda e: to_full_disk(e, "--help"), b"", FULL),
    "a line at a time over a pipe": (over_pipe, ANSWERS, b""),
    "a reader that goes": (to_gone_reader, ANSWERS.splitlines(keepends=True)[0], GONE),
    "a stack of 4,096 KB": (lambda e: run([e], stack=4096), ANSWERS, b""),
    "a stack that is just large enough": (lambda e: run([e], stack=SMALL), ANSWERS, b""),
    "the recorded scenarios in such a stack": (lambda e: recorded(e, SMALL), recorded_answers(), b""),
    "a stack that is too small": (lambda e: run([e], stack=2048), b"", stack_told(2048, SMALL)),
    "`large`, and a stack just large enough": (lambda e: run([e, "large"], stack=LARGE), ANSWERS, b""),
    "`large`, and a stack that is too small": (lambda e: run([e, "large"], stack=8192), b"", stack_told(8192, LARGE)),
    "an unknown argument": (lambda e: run([e, "huge"]), b"",
                            b"rehearse: `huge` is no argument (`large` is one, and `--help`)\n"),
    "two arguments": (lambda e: run([e, "large", "large"]), b"", b"rehearse: one argument at most\n"),
}


def check(engine):
    """The ends that are not as written."""
    faults = []
    for name, (tried, written, told) in ENDS.items():
        try:
            found = tried(engine)
        except subprocess.TimeoutExpired:
            found = "nothing for %d seconds" % SECONDS
        if found != (written, told, 0):
            faults.append("%s: %r is due, there is %r" % (name, (written, told, 0), found))
    help_said = run([engine, "--help"])
    if not help_said[0].startswith(b"rehearse [large] < scenario") or help_said[1:] != (b"", 0):
        faults.append("--help: there is %r" % (help_said,))
    return faults


def count():
    return len(ENDS) + 1


def main():
    """Alone, of the built program, or of the one that REHEARSE names."""
    faults = check(os.environ.get("REHEARSE", "target/bin/rehearse"))
    print(*faults, f"{count()} ends were tried, {len(faults)} are not as written", sep="\n")
    return 1 if faults else 0


if __name__ == "__main__":
    sys.exit(main())
