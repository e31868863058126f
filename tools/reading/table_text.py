"""The text of a table: its bytes as UTF-8, cut into lines, and a line into cells. One line is one record."""
import codecs
import csv
import re

from wrong import Wrong

UTF16 = (codecs.BOM_UTF16_LE, codecs.BOM_UTF16_BE)
LINE_END = re.compile(r"\r\n|\r|\n")


def text_of(data):
    """The text of a table's bytes, or what is wrong with them."""
    if data.startswith(UTF16) or b"\0" in data[:4]:
        raise Wrong("line 1: the table is UTF-16 or UTF-32 text: save it as UTF-8")
    try:
        text = data.decode("utf-8-sig")
    except UnicodeDecodeError as error:
        line, column = place(data[:error.start].decode("utf-8-sig"))
        raise Wrong(f"line {line}, column {column}: the byte {data[error.start]:02x} is not UTF-8; the table looks like Latin-1 "
                    "(Windows): save it as UTF-8") from None
    if "\0" in text:
        line, column = place(text[:text.index("\0")])
        raise Wrong(f"line {line}, column {column}: a zero byte; this is no text")
    return text


def place(front):
    """The line, and the cell in it, where a text that has come this far stands."""
    lines = LINE_END.split(front)
    return len(lines), lines[-1].count(",") + 1


def numbered(text):
    """The lines with their numbers, from 1."""
    return list(enumerate(LINE_END.split(text), 1))


def cells_of(number, line):
    """The cells of a line."""
    if '"' not in line:
        return line.split(",")
    try:
        return next(csv.reader([line], strict=True))
    except csv.Error as error:
        what = "a quote is opened and not closed on this line" if "end of data" in str(error) else f"a quote inside a cell ({error})"
        raise Wrong(f"line {number}: {what}") from None


def blank(cells):
    return not any(cell.strip() for cell in cells)


def separator_hint(line):
    """A hint where a line looks as if cells were separated by something else than commas."""
    for mark, name in ((";", "';'"), ("\t", "tabs")):
        if line.count(mark) > line.count(",") or (mark in line and "," not in line):
            return f"; cells look separated by {name}: separate them by commas, and write 1.5, not 1,5"
    return ""


def width_hint(cells, width, axes):
    """A hint where a line has not as many cells as the head."""
    if len(cells) > width and blank(cells[width:]):
        return "; trailing commas: take them away"
    if len(cells) == width + axes:
        return "; commas as decimal marks? Write 1.5, not 1,5"
    return ""
