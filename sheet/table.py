"""CSV files as people have them: rows with their line numbers, by the names of a header or by place."""
import csv
import io

from faults import Faults, at, of_file


def bytes_of(path):
    try:
        with open(path, "rb") as file:
            return file.read()
    except OSError as error:
        raise Faults([of_file(path, f"can't be read ({error.strerror})", "check the name and the rights")])


def text_of(path):
    """A file's text: UTF-8, with a byte order mark or not."""
    content = bytes_of(path)
    try:
        return content.decode("utf-8-sig")
    except UnicodeDecodeError as error:
        raise Faults([at(path, content[: error.start].count(b"\n") + 1, "is not UTF-8 text", "save the file as text in UTF-8")])


def delimiter(first):
    """Commas, or semicolons as spreadsheets write them where the comma is a decimal point."""
    return ";" if ";" in first and "," not in first else ","


def places(path, columns, line, head):
    """The place of each column by a header, which names all of them; None where the first line is no header."""
    names = [cell.lower() for cell in head]
    absent = [column for column in columns if column not in names]
    if len(absent) == len(columns):
        return None
    if absent:
        cause = f"the header has no column {' and no column '.join(absent)}"
        raise Faults([at(path, line, cause, f"name the columns {', '.join(columns)}")])
    return [names.index(column) for column in columns]


def cells_of(path):
    """The lines of a file that are not blank: (number, stripped cells). A cell in quotation marks may have several lines; the first
    counts."""
    text = text_of(path)
    reader, line = csv.reader(io.StringIO(text, newline=""), delimiter=delimiter(text.partition("\n")[0])), 1
    try:
        for row in reader:
            cells = [cell.strip() for cell in row]
            if any(cells):
                yield line, cells
            line = reader.line_num + 1
    except csv.Error as error:
        raise Faults([at(path, line, f"is no line of a CSV ({error})", "look for a quotation mark that is not closed")])


def rows(path, columns):
    """The rows of a file as (line, cells in the order of `columns`); short rows have None for cells."""
    lines = list(cells_of(path))
    named = places(path, columns, *lines[0]) if lines else None
    order = named or list(range(len(columns)))
    last = max(order)
    found = [(line, [cells[place] for place in order] if len(cells) > last else None) for line, cells in lines[1 if named else 0:]]
    if not found:
        raise Faults([of_file(path, "has no rows", f"give one line each with {', '.join(columns)}")])
    return found
