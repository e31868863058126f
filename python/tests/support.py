"""What the tests share: the library under test, the two kinds of arrays, and the plain model of the paper."""
import contextlib
import functools
import os
import sys

from linked_library import ROOT, need_library  # noqa: F401

sys.path[:0] = [os.path.join(ROOT, "python"), os.path.join(ROOT, "tools")]

from rekvashu import lent

NUMPY = lent.numpy


@contextlib.contextmanager
def arrays(numpy):
    """Arrays as they come with this numpy, or without any (None)."""
    kept, lent.numpy = lent.numpy, numpy
    try:
        yield
    finally:
        lent.numpy = kept


def both(test):
    """Runs a test without numpy, and with it where it is there."""
    @functools.wraps(test)
    def run(self):
        for numpy in [None] + ([NUMPY] if NUMPY else []):
            with self.subTest(arrays="numpy" if numpy else "plain lists"), arrays(numpy):
                test(self)
    return run


def plain(view):
    """Numbers of a view, as a plain list."""
    return view.tolist() if hasattr(view, "tolist") else view


def table(rows):
    """Rows as a caller has them: an array where there is numpy, otherwise lists."""
    return rows if lent.numpy is None else lent.numpy.array(rows)
