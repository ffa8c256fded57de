"""The program, run on a scenario: answers as they come, progress on a terminal, and what went wrong in a sentence."""
import resource
import signal
import subprocess
import tempfile

import stops
from faults import Faults
from progress import Progress

# The stack that `large` needs, in bytes.
LARGE_STACK = 100000 * 1024


def raise_stack():
    """The stack of the program's `large` log, where the machine allows it."""
    _, most = resource.getrlimit(resource.RLIMIT_STACK)
    if most == resource.RLIM_INFINITY or most >= LARGE_STACK:
        resource.setrlimit(resource.RLIMIT_STACK, (LARGE_STACK, most))


def start(program, large, given, said):
    """The program with these files as standard input and standard error."""
    def prepare():
        stops.let_through()
        if large:
            raise_stack()

    try:
        return subprocess.Popen([program] + (["large"] if large else []), stdin=given, stdout=subprocess.PIPE, stderr=said,
                                encoding="utf-8", errors="replace", preexec_fn=prepare)
    except OSError as error:
        raise Faults([f"{program}: can't be started ({error.strerror}); build it with tools/build.sh engine"])


def lines_of(process, progress):
    """The lines that come, until the process ends."""
    found = []
    try:
        for line in process.stdout:
            found.append(line.rstrip("\n"))
            progress.at(len(found))
    finally:
        progress.over()
    process.stdout.close()
    process.wait()
    return found


def ran(program, large, given, said, total):
    """What the program writes, and the status that it ends with. Stopped, it leaves no process behind."""
    process = None
    try:
        with stops.held():
            process = start(program, large, given, said)
        return lines_of(process, Progress("rehearsing", total)), process.returncode
    except BaseException:
        if process is not None:
            process.kill()
            process.wait()
        raise


def ending(status):
    """How a process ended, in words."""
    return f"status {status}" if status >= 0 else f"signal {signal.Signals(-status).name}"


def given_and_said(program, text, large, total):
    """A run over files: what the program writes, its status, and what it says on standard error."""
    with tempfile.TemporaryFile() as given, tempfile.TemporaryFile() as said:
        given.write(text.encode())
        given.seek(0)
        answers, status = ran(program, large, given, said, total)
        said.seek(0)
        return answers, status, " ".join(said.read().decode(errors="replace").split())


def run(program, text, large, total):
    """The lines that the program writes for a scenario with so many answers. A run is complete where they are all there and nothing
    was said on standard error; any other is a fault."""
    try:
        answers, status, told = given_and_said(program, text, large, total)
    except OSError as error:
        raise Faults([f"a temporary file can't be written ({error.strerror}); make room for it, or name another place by TMPDIR"])
    count = sum(not line.startswith(" ") for line in answers)
    if status or told or count != total:
        said = f": {told}" if told else ""
        raise Faults([f"{program}: {count:,} of {total:,} lines were answered, and it ended with {ending(status)}{said}; "
                      "build it anew with tools/build.sh engine, and see that memory and stack are enough"])
    return answers
