"""Runs the compared programs on a text of scenarios."""

import subprocess


class Crash(Exception):
    """A program ended otherwise than with status 0."""


def answers(program, text, limit=600):
    """What a program, a path or the words of a command, writes to standard output for this input, in bytes."""
    words = [program] if isinstance(program, str) else program
    try:
        done = subprocess.run(words, input=text, stdout=subprocess.PIPE, stderr=subprocess.PIPE, timeout=limit)
    except subprocess.TimeoutExpired:
        raise Crash("%s took more than %d seconds" % (program, limit))
    if done.returncode != 0:
        said = done.stderr.decode("utf-8", "replace").strip().splitlines()[-3:]
        raise Crash("%s ended with status %d: %s" % (program, done.returncode, " | ".join(said)))
    return done.stdout
