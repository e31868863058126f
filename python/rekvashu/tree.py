"""A tree as it stands in the lent lists: levels, leaves, and the wells of each. Nothing is copied until it is asked for."""
from collections import namedtuple
from collections.abc import Sequence

from . import layout

Node = namedtuple("Node", "depth axis plane leaf")
Node.__doc__ = """A node of a level's cut record, `depth` cuts below the root.

A cut has an axis, from 0, and a plane, the coordinate of the right row that came first in its order; its leaf is None. A leaf has its
number in the level, and neither axis nor plane. Rows below the plane are to the left of the cut and rows above it to the right; rows on
the plane are shared out by their numbers, so such a row may be on either side."""


class Packed:
    """The lent lists of a tree, cut to the counts, and the counts of its levels; and the lists as they were lent."""

    def __init__(self, dimension, lists, slot):
        levels = slot[layout.SLOT_LEVELS]
        self.dimension, self.slot = dimension, slot
        self.lent = {name: lists[name] for name in layout.TREE_LISTS}
        self.rows = [slot[layout.SLOT_ROWS + t] for t in range(levels)]
        self.leaves = [slot[layout.SLOT_DOMAINS + t] for t in range(levels)]
        points, domains = sum(self.rows), sum(self.leaves)
        self.level_points = lists["level_points"].cut(points)
        self.internals = lists["internals"].cut(points)
        self.domains = lists["domains"].cut(layout.ROW_NUMBERS * domains)
        self.boxes = lists["boxes"].cut(layout.row_floats(dimension) * domains)
        self.borrowed = lists["borrowed"].cut(self.borrowed_end(domains - 1))
        # the nodes of each level's record; the coarse level has none, and no level of a tree that was loaded
        self.recorded, self.nodes = "cuts" in lists, [0] * levels
        if self.recorded:
            self.nodes[:-1] = [layout.record_nodes(leaves) for leaves in self.leaves[:-1]]
            self.cuts, self.planes = lists["cuts"].cut(sum(self.nodes)), lists["planes"].cut(sum(self.nodes))

    def numbers(self, domain, first, last):
        """Numbers of a domain row."""
        at = layout.ROW_NUMBERS * domain
        return [int(x) for x in self.domains[at + first:at + last + 1]]

    def borrowed_end(self, domain):
        start, count = self.numbers(domain, layout.COLUMN_BORROWED_START, layout.COLUMN_BORROWED_COUNT)
        return start + count


class Tree:
    """The tree of domains over the points: level 0 is the finest, the last one the coarse level.

    `store` writes it: a function of the packed lists that gives the bytes of its file."""

    def __init__(self, packed, store):
        self._packed, self._store = packed, store
        self.levels = tuple(Level(packed, t) for t in range(len(packed.rows)))

    @property
    def dimension(self):
        return self._packed.dimension

    def to_bytes(self):
        """The tree as the bytes of a file, with the settings and points that it was built for: `load` takes them."""
        return self._store(self._packed)

    def __repr__(self):
        return f"<Tree: {', '.join(map(str, self.levels))}>"


class Level:
    """A level: its active rows (`points`), ascending, its leaves, and its cuts where the tree was built. The coarse level has one domain
    that holds all rows."""

    def __init__(self, packed, number):
        self._packed, self.number = packed, number
        self.is_coarse = number + 1 == len(packed.rows)
        self.leaves = Leaves(packed, sum(packed.leaves[:number]), packed.leaves[number], self.is_coarse)

    @property
    def points(self):
        start = sum(self._packed.rows[:self.number])
        return self._packed.level_points[start:start + self._packed.rows[self.number]]

    @property
    def cuts(self):
        """The level's cut record: a list of its nodes from the root downwards, each cut before its halves, and the left half completely
        before the right. A level with m leaves has 2m - 1 nodes, and the coarse level none. None where the tree was loaded: a file holds no
        record.

        Leaves are numbered by depth, and then from left to right, which is the order of `leaves`."""
        if not self._packed.recorded:
            return None
        start = sum(self._packed.nodes[:self.number])
        end = start + self._packed.nodes[self.number]
        # the depth of the next node, and those of the right halves that are still to come
        out, depth, right = [], 0, []
        for whole, plane in zip(self._packed.cuts[start:end], self._packed.planes[start:end]):
            if whole < layout.RECORD_LEAF:
                out.append(Node(depth, int(whole), float(plane), None))
                depth += 1
                right.append(depth)
            else:
                out.append(Node(depth, None, None, int(whole) - layout.RECORD_LEAF))
                depth = right.pop() if right else 0
        return out

    def __repr__(self):
        leaves, nodes = "leaf" if len(self.leaves) == 1 else "leaves", self._packed.nodes[self.number]
        recorded = f", {nodes} nodes" if nodes else ""
        return f"<Level {self.number}: {len(self.points)} rows in {len(self.leaves)} {leaves}{recorded}>"


class Leaves(Sequence):
    """The leaves of a level, in their order."""

    def __init__(self, packed, first, count, coarse):
        self._packed, self._first, self._count, self._coarse = packed, first, count, coarse

    def __len__(self):
        return self._count

    def __getitem__(self, which):
        if isinstance(which, slice):
            return [self[i] for i in range(*which.indices(self._count))]
        number = which + self._count if which < 0 else which
        if not 0 <= number < self._count:
            raise IndexError(f"leaf {which} of {self._count}")
        return Leaf(self._packed, number, self._first + number, self._coarse)


class Leaf:
    """A leaf: its own rows and the rows that it borrows, both ascending, its box, its cover and its depth."""

    __slots__ = ("_packed", "number", "_domain", "_coarse")

    def __init__(self, packed, number, domain, coarse):
        self._packed, self.number, self._domain, self._coarse = packed, number, domain, coarse

    @property
    def own(self):
        start, count = self._packed.numbers(self._domain, layout.COLUMN_OWN_START, layout.COLUMN_OWN_COUNT)
        return self._packed.internals[start:start + count]

    @property
    def borrowed(self):
        start, count = self._packed.numbers(self._domain, layout.COLUMN_BORROWED_START, layout.COLUMN_BORROWED_COUNT)
        return self._packed.borrowed[start:start + count]

    @property
    def box(self):
        """The lower and the upper bounds by axis; None for the coarse domain, which has no box."""
        if self._coarse:
            return None
        at, dimension = self._floats(), self._packed.dimension
        return self._packed.boxes[at:at + dimension], self._packed.boxes[at + dimension:at + layout.box_floats(dimension)]

    @property
    def cover(self):
        """How far the worst of the leaf's own rows that it does not send up is from the nearest one that it sends. Infinite for a leaf that
        has rows and sends none; 0.0 for an empty leaf and for the coarse domain. A loaded tree has the covers of its file."""
        return float(self._packed.boxes[self._floats() + layout.row_cover(self._packed.dimension)])

    @property
    def depth(self):
        """How often the leaf's level was cut to make it, at most 21. From one leaf of a level to the next it never falls, and a leaf at depth e
        in a level of a rows has a / 2^e of them, rounded down, or one more. 0 for the coarse domain. A loaded tree has the depths of its
        file."""
        return self._packed.numbers(self._domain, layout.COLUMN_DEPTH, layout.COLUMN_DEPTH)[0]

    def _floats(self):
        """Where the floats of the leaf's domain row start."""
        return layout.row_floats(self._packed.dimension) * self._domain

    def __repr__(self):
        return f"<Leaf {self.number}: own {list(map(int, self.own))}, borrowed {list(map(int, self.borrowed))}>"
