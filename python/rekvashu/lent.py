"""Lists that are lent to the library. What is read from them is numpy's where it is there, otherwise plain lists."""
import ctypes
import mmap

try:
    import numpy
except ImportError:
    numpy = None

# Room is not set aside for pages before they are touched.
MAPPED = mmap.MAP_PRIVATE | mmap.MAP_ANONYMOUS | getattr(mmap, "MAP_NORESERVE", 0) if hasattr(mmap, "MAP_PRIVATE") else 0
FORMATS = {ctypes.c_size_t: "N", ctypes.c_double: "d"}


class Lent:
    """A list of zeros for the library to write. It is mapped, not allocated: a page that is not touched costs nothing."""

    def __init__(self, kind, entries):
        self.kind, self.entries = kind, entries
        try:
            self.pages = mmap.mmap(-1, max(1, entries) * ctypes.sizeof(kind), flags=MAPPED)
        except (OSError, OverflowError, ValueError):
            raise MemoryError(f"there is no memory for a list of {entries} entries") from None
        self.c = (kind * max(1, entries)).from_buffer(self.pages)

    def cut(self, count):
        """The first entries, as a view that can't be written."""
        view = memoryview(self.pages).toreadonly()[:count * ctypes.sizeof(self.kind)]
        if numpy is None:
            return Plain(view.cast(FORMATS[self.kind]))
        return numpy.frombuffer(view, dtype=numpy.intp if self.kind is ctypes.c_size_t else numpy.float64, count=count)


class Plain:
    """A view where there is no numpy: a stretch of it is a plain list."""

    def __init__(self, view):
        self.view = view

    def __len__(self):
        return len(self.view)

    def __getitem__(self, which):
        return self.view[which].tolist() if isinstance(which, slice) else self.view[which]
