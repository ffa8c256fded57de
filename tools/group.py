"""A command and all that it starts, as one session, whatever groups it has: it ends where this process is told to stop, or where its
caller is gone."""
import glob
import os
import selectors
import signal
import subprocess
import sys
import time

# Seconds without news after which a command is taken to be at work, and between two looks at the caller.
PATIENCE = 0.5
# Seconds that the processes of a session have to end by themselves.
GRACE = 2.0
# The status of a run that was stopped, as shells have it.
STOPPED = 130
# The signals to stop that came so far.
ASKED = []


def listen():
    """From here on a signal to stop is kept; one that is ignored stays ignored."""
    for one in (signal.SIGINT, signal.SIGTERM, signal.SIGHUP):
        if signal.getsignal(one) != signal.SIG_IGN:
            signal.signal(one, lambda number, _: ASKED.append(number))


def members(session):
    """The processes of a session that have not ended: their state and session stand behind the name, which is in brackets."""
    found = set()
    for path in glob.glob("/proc/[0-9]*/stat"):
        try:
            with open(path, encoding="utf-8", errors="replace") as file:
                fields = file.read().rpartition(")")[2].split()
        except OSError:
            continue
        if fields[3] == str(session) and fields[0] not in "ZX":
            found.add(int(path.split("/")[2]))
    return found


def send(number, processes):
    for process in processes:
        try:
            os.kill(process, number)
        except ProcessLookupError:
            pass


def end(process):
    """Ends what is still there of a session: each process is asked once, and those that stay are killed."""
    asked, until = set(), time.monotonic() + GRACE
    while time.monotonic() < until and (left := members(process.pid)):
        send(signal.SIGTERM, left - asked)
        asked |= left
        time.sleep(0.02)
    send(signal.SIGKILL, members(process.pid))
    process.wait()


def pieces(process):
    """What a command writes, piece by piece: nothing (b"") where it was silent for a while, until it ends."""
    with selectors.DefaultSelector() as waiting:
        waiting.register(process.stdout, selectors.EVENT_READ)
        while True:
            if not waiting.select(PATIENCE):
                yield b""
                continue
            piece = os.read(process.stdout.fileno(), 65536)
            if not piece:
                return
            yield piece


def run(command, heard, folder=None):
    """Runs a command, in a folder if one is named; `heard` gets what it writes, and b"" after a silence. Answers its status."""
    listen()
    caller = os.getppid()
    process = subprocess.Popen(command, stdin=subprocess.DEVNULL, stdout=subprocess.PIPE, stderr=subprocess.STDOUT,
                               cwd=folder, start_new_session=True)
    try:
        for piece in pieces(process):
            if ASKED or os.getppid() != caller:
                print("stopped", file=sys.stderr)
                sys.exit(STOPPED)
            heard(piece)
        return process.wait()
    finally:
        end(process)


def pass_on(piece):
    """What is heard goes to standard error."""
    sys.stderr.buffer.write(piece)
    sys.stderr.flush()
