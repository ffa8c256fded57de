"""Mistakes in what a user gave: each with its file, its line, the cause and what to do. All of them are told, not the first alone."""


class Faults(Exception):
    """What stops a rehearsal before anything is written: a list of sentences."""

    def __init__(self, sentences):
        super().__init__("\n".join(sentences))
        self.sentences = sentences


def at(path, line, cause, remedy):
    return f"{path}, line {line}: {cause}; {remedy}"


def of_file(path, cause, remedy):
    return f"{path}: {cause}; {remedy}"


def refuse(sentences):
    """Ends the reading where something was found."""
    if sentences:
        raise Faults(sentences)
