"""How far a long piece of work is: a line on a terminal, nothing in a pipe."""
import sys


class Progress:
    def __init__(self, name, total, stream=None):
        self.name, self.total, self.stream, self.shown = name, total, stream or sys.stderr, -1
        self.live = self.stream.isatty()

    def at(self, done):
        part = min(done * 100 // self.total, 100) if self.live else -1
        if part != self.shown:
            self.shown = part
            self.stream.write(f"\r{self.name}: {part} %")
            self.stream.flush()

    def over(self):
        """The line goes."""
        if self.shown >= 0:
            self.stream.write("\r\033[K")
            self.stream.flush()


def told(name, rows):
    """The rows, one after the other, with their progress."""
    progress = Progress(name, len(rows))
    try:
        for done, row in enumerate(rows):
            progress.at(done)
            yield row
    finally:
        progress.over()
