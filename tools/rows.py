"""Rows of a level or a leaf, as plain numbers, whether they come from a printout or from the library."""


def rows_of(view):
    return view.tolist() if hasattr(view, "tolist") else view
