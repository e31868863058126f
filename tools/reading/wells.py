"""Reads a table of wells: settings, a head, and one well a line. Every complaint has its line."""
import array
import math
import re
from collections import namedtuple

from reading.settings import NAMES, Setting, refusal, value_of
from reading.table_text import blank, cells_of, numbered, separator_hint, text_of, width_hint
from wrong import Wrong, read_bytes

AXES = ["x", "y", "z"]
NUMBER = re.compile(r"[+-]?([0-9]+\.?[0-9]*|\.[0-9]+)([eE][+-]?[0-9]+)?")
NOT_FINITE = re.compile(r"[+-]?(nan|inf|infinity)", re.IGNORECASE)
CONTROL = re.compile("[\0-\x1f\x7f-\x9f\ufffe\uffff]")
MOST_CELL = 400

# Where the cells of a head stand: the names' column or None, the axes' columns, the width, and the columns passed over.
Head = namedtuple("Head", "names axes width passed")


class Table:
    """Settings as given, the dimension, the wells' coordinates one after the other, their names or None, and their lines."""

    def __init__(self, settings, head):
        self.settings, self.passed = settings, head.passed
        self.dimension = len(head.axes)
        self.coordinates, self.lines = array.array("d"), array.array("q")
        self.names = None if head.names is None else []

    def __len__(self):
        return len(self.lines)

    def point(self, row):
        return tuple(self.coordinates[row * self.dimension:(row + 1) * self.dimension])


def read(path, limits, columns=None):
    """The table of a file. columns: the names of the columns to read instead of well, x, y, z (the first may be '-')."""
    return parse(text_of(read_bytes(path)), limits, columns)


def parse(text, limits, columns=None):
    lines = numbered(text)
    settings, head, at = before_wells(lines, columns)
    table = Table(settings, head)
    first_line = {}
    for number, line in lines[at:]:
        cells = cells_of(number, line)
        if not blank(cells):
            add(table, head, number, line, cells, limits, first_line)
    if not table.lines:
        raise Wrong(f"line {lines[-1][0]}: the table ends without a well {refusal(6)}")
    return table


def before_wells(lines, columns):
    """The settings, the head, and the index of the line after it."""
    settings = {}
    for at, (number, line) in enumerate(lines):
        if line.lstrip().startswith("#"):
            continue
        cells = cells_of(number, line)
        if blank(cells):
            continue
        name = cells[0].strip().lower()
        if name not in NAMES:
            return settings, head_of(number, line, cells, columns), at + 1
        if len(cells) != 2:
            raise Wrong(f"line {number}: a setting is its name and its value, as in 'leaf,2'" + width_hint(cells, 2, 1))
        if name in settings:
            raise Wrong(f"line {number}: the {NAMES[name]} is given twice, here and in {settings[name].where}")
        where = f"line {number}, column 2"
        settings[name] = Setting(value_of(name, cells[1], where), where)
    raise Wrong(f"line {lines[-1][0]}: the table ends without a head such as 'well,x,y', and without wells {refusal(6)}")


def head_of(number, line, cells, columns):
    """The columns that the head names."""
    names = [cell.strip().lower() for cell in cells]
    hint = separator_hint(line)
    if hint:
        raise Wrong(f"line {number}: {names[0]!r} is neither a setting nor a head{hint}")
    if names[-1] == "" and not blank(cells[:1]):
        raise Wrong(f"line {number}: the head ends in a comma: take trailing commas away")
    twice = next((name for i, name in enumerate(names) if name in names[:i]), None)
    if twice is not None:
        raise Wrong(f"line {number}, column {len(names) - names[::-1].index(twice)}: the head names {twice!r} twice")
    if columns is not None:
        return chosen_head(number, names, columns)
    for i, name in enumerate(names):
        if name not in AXES and name != "well":
            raise Wrong(f"line {number}, column {i + 1}: {cells[i].strip()!r}{neither(cells)}")
    axes = [name for name in AXES if name in names]
    if axes != AXES[:len(axes)] or not axes:
        raise Wrong(f"line {number}: the head has the axes {', '.join(axes) or 'none'}, and has to have x, or x and y, or x, y and z "
                    f"{refusal(1)}")
    return Head(names.index("well") if "well" in names else None, [names.index(a) for a in axes], len(names), [])


def neither(cells):
    """What to say of a line that should be a setting or a head."""
    if any(NUMBER.fullmatch(cell.strip()) for cell in cells[1:] or cells):
        return " is neither a setting (leaf, neighbours, factor, coarse) nor a head; if this is a well, there is no head row: put " \
               "one such as 'well,x,y' above it"
    return " is neither a setting (leaf, neighbours, factor, coarse) nor a column of the head (well, x, y, z)"


def chosen_head(number, names, columns):
    """The columns that were asked for: the wells' names first ('-' for none), then one to three axes."""
    wanted = [column.strip().lower() for column in columns]
    for column in wanted[1:] + wanted[:1] * (wanted[0] != "-"):
        if column not in names:
            raise Wrong(f"line {number}: the head has no column {column!r}; it has {', '.join(names)}")
    passed = [name for name in names if name not in wanted]
    return Head(None if wanted[0] == "-" else names.index(wanted[0]), [names.index(c) for c in wanted[1:]], len(names), passed)


def add(table, head, number, line, cells, limits, first_line):
    """Adds the well of a line."""
    if cells[0].strip().lower() in NAMES:
        raise Wrong(f"line {number}: the setting {cells[0].strip()!r} stands after the head: settings stand before it")
    if len(cells) != head.width:
        hint = separator_hint(line) or width_hint(cells, head.width, len(head.axes))
        raise Wrong(f"line {number}: {len(cells)} {'cell' if len(cells) == 1 else 'cells'}, where the head has {head.width}{hint}")
    if len(table.lines) == limits.wells:
        raise Wrong(f"line {number}: one well more than {limits.wells}, the most there can be {refusal(limits.wells_refusal)}"
                    + ("; tools/field.py takes more" if limits.wells_refusal == 17 else ""))
    if head.names is not None:
        table.names.append(name_of(cells[head.names].strip(), number, head.names + 1, first_line))
    for axis, column in zip(AXES, head.axes):
        table.coordinates.append(coordinate(cells[column].strip(), axis, number, column + 1))
    table.lines.append(number)


def name_of(name, number, column, first_line):
    """A well's name, which no other well has."""
    if not name:
        raise Wrong(f"line {number}, column {column}: the well has no name")
    if CONTROL.search(name) or len(name) > MOST_CELL:
        raise Wrong(f"line {number}, column {column}: the well's name is too long or holds a control character")
    if name in first_line:
        raise Wrong(f"line {number}, column {column}: the well {name!r} stands in line {first_line[name]} already")
    first_line[name] = number
    return name


def coordinate(text, axis, number, column):
    """A coordinate: a finite number."""
    where = f"line {number}, column {column}"
    if NUMBER.fullmatch(text) and len(text) <= MOST_CELL:
        value = float(text)
        if math.isfinite(value):
            return value
        raise Wrong(f"{where}: {axis} is {text!r}, too large for a 64-bit number {refusal(10)}")
    if not text:
        raise Wrong(f"{where}: {axis} is missing {refusal(7)}")
    if NOT_FINITE.fullmatch(text):
        raise Wrong(f"{where}: {axis} is {text!r}, which is not finite {refusal(10)}")
    shown = text if len(text) <= 40 else text[:40] + ".."
    raise Wrong(f"{where}: {axis} is {shown!r}, which is no number{number_hint(text)}")


def number_hint(text):
    if ";" in text:
        return "; cells look separated by ';': separate them by commas, and write 1.5, not 1,5"
    if re.fullmatch(r"[+-]?[0-9]+,[0-9]+", text):
        return "; write 1.5, not 1,5"
    if text.startswith("#"):
        return "; comments stand before the head only"
    return ""
