"""Files written whole or not at all: each is first written beside its place, and all are put there once every one is complete."""
import errno
import os

import stops
from faults import Faults, of_file


def write_parts(folder, texts, parts):
    """Writes every text beside its place, and notes where."""
    for name, text in texts.items():
        if os.path.isdir(os.path.join(folder, name)):
            raise IsADirectoryError(errno.EISDIR, os.strerror(errno.EISDIR), os.path.join(folder, name))
        parts.append(os.path.join(folder, f".{name}.part"))
        with open(parts[-1], "w", encoding="utf-8", newline="") as file:
            file.write(text)


def put(folder, names, parts):
    """Puts every part in its place; a signal to stop waits until all are there."""
    with stops.held():
        for name, part in zip(names, parts):
            os.replace(part, os.path.join(folder, name))


def take_back(folder, parts, made):
    """Removes what stands beside the places, and the folder where it was made for this."""
    for part in parts:
        if os.path.exists(part):
            os.remove(part)
    if made and os.path.isdir(folder) and not os.listdir(folder):
        os.rmdir(folder)


def write(folder, texts):
    """Puts each text into its file of the folder; where one can't be written, or the work is stopped, none is."""
    made, parts = not os.path.exists(folder), []
    try:
        os.makedirs(folder, exist_ok=True)
        write_parts(folder, texts, parts)
        put(folder, texts, parts)
    except OSError as error:
        take_back(folder, parts, made)
        cause = f"can't be written ({error.strerror})"
        raise Faults([of_file(error.filename or folder, cause, "check the folder, its rights and the disk")])
    except BaseException:
        take_back(folder, parts, made)
        raise
