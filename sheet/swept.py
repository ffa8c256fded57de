"""swept.py FOLDER COMMAND..: runs a sweep's command, GNU parallel, and shows on a terminal how far its mixes are, by its log. Told to
stop, it ends the command and all its jobs."""
import os
import sys

# tools/ has the running of a command with all that it starts.
sys.path.insert(0, os.path.join(os.path.dirname(os.path.dirname(os.path.abspath(__file__))), "tools"))

import group
import mixes
from progress import Progress
from table import bytes_of


def done(folder):
    """How many mixes the log has; it starts with a line of names."""
    log = os.path.join(folder, "joblog")
    return max(bytes_of(log).count(b"\n") - 1, 0) if os.path.exists(log) else 0


def main(folder, *command):
    progress = Progress("sweeping", len(mixes.read(folder)))

    def heard(piece):
        group.pass_on(piece)
        progress.at(done(folder))

    try:
        sys.exit(group.run(command, heard))
    finally:
        progress.over()


if __name__ == "__main__":
    main(*sys.argv[1:])
