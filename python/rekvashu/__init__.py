"""The proved tree construction of Rekvashu, for Python.

    import rekvashu
    tree = rekvashu.build([[0.0, 1.0], [2.0, 3.0], [4.0, 1.5]], leaf=1, neighbours=1, factor=2, coarse=1)
    for level in tree.levels:
        for leaf in level.leaves:
            print(leaf.own, leaf.borrowed, leaf.box, leaf.cover, leaf.depth)

A tree that was built keeps its cuts: `level.cuts` has them from the root downwards. `rekvashu.build(.., engine="depth-first")` builds the
same tree with the same cuts by another engine.

`rekvashu.Table(capacity, dimension)` is a table of wells that is edited between builds: `table.add(point)` answers with the well's slot,
`table.retire(slot)` frees it, `table.build(..)` builds over the live slots, and `table.close()` closes the gaps and gives a list from old
slot to new.

`tree.to_bytes()` gives a tree as the bytes of a file, and `rekvashu.load(points, data, ..)` takes them for the same points and settings.

The shared library is made by python/make_shared.sh. Arrays are numpy's where numpy is there, otherwise plain lists.
"""
from .calls import Sample, build, build_sizes, level_size, library_version, load, quotas, row_test, sample, square_root
from .library import LibraryError
from .refusals import Refusal
from .table import Table
from .tree import Leaf, Level, Node, Tree
from .version import VERSION as __version__

__all__ = ["build", "build_sizes", "level_size", "library_version", "load", "quotas", "row_test", "sample", "square_root", "LibraryError",
           "Refusal", "Leaf", "Level", "Node", "Sample", "Table", "Tree", "__version__"]
