"""The coordinates that a caller brings: tested for shape, and copied once at most."""
import array
import ctypes
import numbers
import reprlib

from . import lent
from .settings import size


class Coordinates:
    """Coordinates as the library reads them. `kept` holds the memory that `c` stands in."""

    def __init__(self, c, length, dimension, kept=None):
        self.c, self.length, self.dimension, self.kept = c, length, dimension, kept

    @property
    def rows(self):
        return self.length // self.dimension if self.dimension else 0


def coordinates(points, dimension=None):
    """The points' coordinates: rows of numbers, or numbers alone (one axis, or `dimension` axes in a flat list)."""
    if dimension is not None:
        dimension = size("dimension", dimension)
    if lent.numpy is not None and hasattr(points, "__array__"):
        return from_numpy(lent.numpy, points, dimension)
    if isinstance(points, (array.array, memoryview)):
        view = memoryview(points)
        if view.format == "d" and view.c_contiguous:
            return from_buffer(view, view.shape, dimension)
    return from_rows(points, dimension)


def from_numpy(numpy, points, dimension):
    """An array of 64-bit floats in row order is lent as it is; any other is copied once."""
    if numpy.ma.is_masked(points):
        raise ValueError("points has masked entries: fill them or leave them out")
    given = numpy.asarray(points)
    if given.dtype.kind not in "fiu":
        raise TypeError(f"points has the type {given.dtype}, and has to hold numbers")
    dimension = dimension_of(given.shape, dimension)
    flat = numpy.require(given, numpy.float64, ["C", "A"])
    return Coordinates(flat.ctypes.data_as(ctypes.POINTER(ctypes.c_double)), flat.size, dimension, flat)


def from_buffer(view, shape, dimension):
    """A buffer of 64-bit floats: lent as it is where ctypes can reach it, otherwise copied once."""
    dimension, length = dimension_of(shape, dimension), view.nbytes // view.itemsize
    if length == 0:
        return Coordinates((ctypes.c_double * 1)(), 0, dimension)
    kind = ctypes.c_double * length
    return Coordinates(kind.from_buffer_copy(view) if view.readonly else kind.from_buffer(view), length, dimension, view)


def dimension_of(shape, dimension):
    """The dimension of points of this shape."""
    if len(shape) == 2:
        if dimension not in (None, shape[1]):
            raise ValueError(f"points has {shape[1]} columns, where the dimension is given as {dimension}")
        return shape[1]
    if len(shape) != 1:
        raise ValueError(f"points has the shape {tuple(shape)}, and has to be a table of rows or a flat list")
    return 1 if dimension is None else dimension


def from_rows(points, dimension):
    """Rows of numbers, or numbers alone: copied once."""
    if isinstance(points, (str, bytes, bytearray, dict, set)) or not hasattr(points, "__iter__"):
        raise TypeError(f"points is {reprlib.repr(points)}, and has to be a list of rows or of numbers")
    rows = points if hasattr(points, "__len__") else list(points)
    flat = array.array("d")
    if len(rows) == 0 or isinstance(rows[0], numbers.Real):
        flat.extend(number(cell, i) for i, cell in enumerate(rows))
        return from_buffer(memoryview(flat), (len(flat),), dimension)
    width = len(cells_of(rows[0], 0))
    for i, row in enumerate(rows):
        cells = cells_of(row, i)
        if len(cells) != width:
            raise ValueError(f"points[{i}] has {len(cells)} coordinates, where points[0] has {width}")
        flat.extend(number(cell, i) for cell in cells)
    return from_buffer(memoryview(flat), (len(rows), width), dimension)


def cells_of(row, i):
    if isinstance(row, (str, bytes, bytearray, dict, set)) or not hasattr(row, "__len__"):
        raise TypeError(f"points[{i}] is {reprlib.repr(row)}, and has to be a row of numbers")
    return row


def number(cell, i):
    """A coordinate as a 64-bit float."""
    if isinstance(cell, bool) or not isinstance(cell, numbers.Real):
        raise TypeError(f"points[{i}] holds {reprlib.repr(cell)}, which is no number")
    try:
        return float(cell)
    except OverflowError:
        raise ValueError(f"points[{i}] holds a number outside the range of a 64-bit float") from None
