#!/usr/bin/env python3
"""Writes crates/run_stored_calls/data/calls: calls of the loader and the writer, each with its complete outcome.

Run from the project's root; it takes no input, and each run writes the same file. The answers come from tools/stored_model.py, which
follows document 02 in plain Python and shares nothing with the Rattle code.

A record: its length after these 4 bytes; a kind, 1 load or 2 store; the 18 settings bytes; a count and as many coordinates' bits; then
  load: the five lists' lengths; the file; number, place, levels, four row counts, four domain counts; the five lists' fronts
  store: levels, four row and four domain counts (8 bytes each); the five lists' lengths and fronts; the file list's length; number, place,
    bytes; the file
Numbers have 4 bytes but for kind and refusal number (1), counts given to the writer, entries of the lists and floats' bits (8), all
little-endian; files and fronts have their count before them. Before the call each list holds 9 (the float 9) past its front, and the file
list holds 9; what the outcome does not name stays so. Every refusal of the two calls is there but 8, which takes 1,048,577 points:
c/stored.c has it.
"""
import collections
import itertools
import os
import random
import struct

import stored_model as m

PATH = "crates/run_stored_calls/data/calls"
TESTS = os.path.join(os.path.dirname(os.path.abspath(__file__)), "tests")
# Files without covers, and files with covers but without depths.
FORMS_BEFORE = ("form_before.txt", "form_with_covers.txt")
MOST_BYTES = 3_400_000
MOST_RECORD = 4096   # the room of crates/run_stored_calls for a record
WORD = 2 ** 32 - 1
LONG = 2 ** 64 - 1
SIGN = 1 << 63
INFINITY = 0x7FF0000000000000
ONE = 0x3FF0000000000000
NANS = [INFINITY + 1, INFINITY + (1 << 51), 2 * SIGN - 1]
NAN_COVERS = NANS + [SIGN + INFINITY + 1, SIGN + INFINITY + (1 << 51), INFINITY + 0x123456789, INFINITY + (1 << 51) - 1]
# What a cover may be besides, in a file or in lists, wherever it stands.
ANY_COVERS = [0, SIGN, 1, SIGN + 1, ONE, SIGN + ONE, INFINITY - 1, INFINITY, SIGN + INFINITY]
NINE = m.bits_of([9.0])[0]

# short: the list that has `by` entries less than the stated ones, or None.
Load = collections.namedtuple("Load", "settings points data short by", defaults=[1])
Store = collections.namedtuple("Store", "settings points count lists room")


# ---- records

def fill(name):
    return NINE if name == "boxes" else 9


def lengths(settings, points, short=None, by=1):
    """The stated lengths, `short` naming a list that has `by` entries less."""
    d = settings[0] if 1 <= settings[0] <= 3 else 1
    n = min(len(points) // d, 40)
    wanted = m.stated(d, n, min(settings[2], 64))
    return {name: max(0, wanted[name] - by * (name == short)) for name in m.LISTS}


def counted(values, form):
    return struct.pack("<I%d%s" % (len(values), form), len(values), *values)


def head(kind, call):
    return struct.pack("<B", kind) + m.settings_bytes(call.settings) + counted(call.points, "Q")


def load_record(call):
    size = lengths(call.settings, call.points, call.short, call.by)
    before = {name: [fill(name)] * size[name] for name in m.LISTS}
    number, place, count, after = m.load(call.settings, call.points, call.data, before)
    out = [head(1, call), struct.pack("<5I", *(size[name] for name in m.LISTS)), counted(call.data, "B"),
           struct.pack("<BI9I", number, place, count[0], *count[1], *count[2])]
    for name in m.LISTS:
        front = len(after[name])
        while front and number and after[name][front - 1] == fill(name):
            front -= 1
        if not number:
            front = len(m.packed(m.read_file(call.data)[2])[name])
        out.append(counted(after[name][:front], "Q"))
    return number, b"".join(out)


def store_record(call):
    size = {name: len(call.lists[name]) for name in m.LISTS}
    number, place, written, file = m.store(call.settings, call.points, call.count, call.lists, b"\x09" * call.room)
    out = [head(2, call), struct.pack("<9Q", call.count[0], *call.count[1], *call.count[2])]
    for name in m.LISTS:
        front = size[name]
        while front and call.lists[name][front - 1] == fill(name):
            front -= 1
        out.append(struct.pack("<I", size[name]) + counted(call.lists[name][:front], "Q"))
    out.append(struct.pack("<IBII", call.room, number, place, written) + counted(file[:written], "B"))
    return number, b"".join(out)


# ---- trees

def points_of(values):
    return m.bits_of([float(x) for x in values])


def box(rng, d):
    edges = [0, SIGN, INFINITY, SIGN + INFINITY, 1, ONE, SIGN + ONE]
    return [rng.choice(edges) if rng.random() < 0.5 else rng.randrange(INFINITY) + SIGN * rng.randint(0, 1) for _ in range(m.box_floats(d))]


def any_cover(rng):
    return rng.choice(ANY_COVERS + [rng.randrange(INFINITY)])


def depths_for(rows, size):
    """The depths that a leaf of this size may have in a level of so many rows."""
    return [depth for depth in range(m.MOST_DEPTH + 1) if m.depth_fits(rows, size, depth)]


def least_depths(rows, sizes):
    """The least depths in row order that leaves of these sizes may have in a level of so many rows; where a leaf may have none, that of the
    leaf before."""
    out, least = [], 0
    for size in sizes:
        least = next((depth for depth in depths_for(rows, size) if depth >= least), least)
        out.append(least)
    return out


def no_box(d):
    return [0] * m.box_floats(d)


def some_tree(rng, d, n, neighbours):
    """A tree that passes the tests, most often one that no build makes."""
    rows, tree = list(range(n)), []
    domains, borrowed = 6 * n + 1, 6 * n * (neighbours + 1)
    for _ in range(rng.randint(0, min(3, n - 1))):
        leaves = rng.randint(2, 4)
        if domains - leaves < 1 or len(rows) < 2:
            break
        own = None
        while own is None or not all(depths_for(len(rows), len(part)) for part in own):
            own = [[] for _ in range(leaves)]
            for i in rows:
                rng.choice(own).append(i)
        level = []
        for depth, part in sorted((rng.choice(depths_for(len(rows), len(part))), part) for part in own):
            others = [i for i in rows if i not in part and rng.random() < 0.4][:borrowed]
            borrowed -= len(others)
            level.append((part, others, box(rng, d), any_cover(rng), depth))
        domains -= leaves
        tree.append((rows, level))
        rows = sorted(rng.sample(rows, rng.randint(1, len(rows) - 1)))
    tree.append((rows, [(rows, [], no_box(d), any_cover(rng), 0)]))
    return tree


def example():
    settings, points = (1, 2, 1, 2, 1, 2), points_of([0, 1, 3, 7])
    return settings, points, m.built(settings, points)


def small():
    """Three small built trees, one for each dimension."""
    yield example()
    settings, points = (2, 1, 0, 2, 1, 1), points_of([0, 0, 5, -3])
    yield settings, points, m.built(settings, points)
    settings, points = (3, 1, 2, 3, 1, 1), points_of([1, 2, 3, -4, 5, -6])
    yield settings, points, m.built(settings, points)


def file_of(case):
    return m.file_bytes(*case)


def other(data, at, value):
    return data[:at] + bytes([value % 256]) + data[at + 1:]


# ---- loads

def whole():
    for settings, points, tree in small():
        yield Load(settings, points, m.file_bytes(settings, points, tree), None)
    auto = (2, 3, 2, 2, 0, 0)
    points = points_of([0, 0, 1, 5, 2, 2, 9, 1])
    yield Load(auto, points, m.file_bytes(auto, points, m.built(auto, points)), None)


def each_byte(rng):
    for settings, points, tree in small():
        data = m.file_bytes(settings, points, tree)
        for at in range(len(data)):
            yield Load(settings, points, other(data, at, data[at] + rng.choice((1, 128, rng.randint(1, 255)))), None)


def each_cut():
    for settings, points, tree in small():
        data = m.file_bytes(settings, points, tree)
        for k in range(len(data)):
            yield Load(settings, points, data[:k], None)
        for more in (b"\0", b"T", b"TL", b"TD" + b"\0" * 8, data):
            yield Load(settings, points, data + more, None)


def random_trees(rng):
    for _ in range(270):
        d, n, neighbours = rng.randint(1, 3), rng.randint(1, 5), rng.randint(0, 2)
        settings = (d, rng.randint(1, 4), neighbours, rng.randint(2, 4), 1, n)
        points = points_of([rng.randint(-9, 9) for _ in range(n * d)])
        data = m.file_bytes(settings, points, some_tree(rng, d, n, neighbours))
        yield Load(settings, points, data, None)
        for _ in range(2):
            yield Load(settings, points, other(data, rng.randrange(24 + n * (2 + 8 * d), len(data)), rng.choice((0, 1, 2, 3, 255))), None)


def limits():
    """Two points with 12 leaves of which ten are empty, and one more; without neighbours 12 borrowed rows of empty leaves, and 13."""
    for neighbours in (0, 1, 2):
        settings, points = (1, 1, neighbours, 2, 1, 2), points_of([0, 1])
        for leaves, borrowing, more in ((12, 0, 0), (13, 0, 0), (12, 6, 0), (12, 6, 1), (12, 10, 0)):
            level = [([0], [], [0, 0], 0, 1), ([1], [], [0, 0], INFINITY, 2)] + [([], [0, 1], [0, 0], 0, 2)] * borrowing
            level += [([], [0], [0, 0], 0, 3)] * more
            level += [([], [], [0, 0], 0, m.MOST_DEPTH)] * (leaves - len(level))
            tree = [([0, 1], level), ([0], [([0], [], [0, 0], 0, 0)])]
            yield Load(settings, points, m.file_bytes(settings, points, tree), None)
            yield Store(settings, points, m.counts(tree), lent(settings, points, tree), 2000)


def one_test_each():
    """Trees that fail one test."""
    settings, points = (1, 1, 2, 2, 1, 3), points_of([0, 1, 2])
    b, none = [0, INFINITY], [0, 0]

    def level(rows, box, leaves):
        depths = least_depths(len(rows), [len(of[0]) for of in leaves])
        return rows, [(of if len(of) == 3 else of + (box,)) + (ONE, depth) for of, depth in zip(leaves, depths)]

    def fine(rows, *leaves):
        return level(rows, b, leaves)

    def last(rows, *leaves):
        return level(rows, none, leaves or [(rows, [])])

    good = [fine([0, 1, 2], ([0, 2], [1]), ([1], [0, 2])), last([0, 2])]
    trees = [good, [last([0, 1, 2])], [last([0, 1])], [last([1, 2])], [last([])], [last([0, 2, 1])], [last([0, 1, 1])], [last([0, 1, 3])]]
    trees += [[fine([0, 1, 2], *leaves), last([0])] for leaves in (
        [([0, 2], []), ([1], [])], [([2, 0], []), ([1], [])], [([0, 1], []), ([1, 2], [])], [([0], []), ([1], [])], [([0, 1, 2], []), ([], [])],
        [([0, 2], [1, 1]), ([1], [])], [([0, 1], [2]), ([2], [1, 0])], [([0, 1], [1]), ([2], [])], [([0, 1], [3]), ([2], [])],
        [([0, 1], [WORD]), ([2], [])], [([0, 1], []), ([2], []), ([3], [])], [([0, 1, 2], [])], [([0, 1, 2], [], none)], [],
        [([0, 1], [], [NANS[0], 0]), ([2], [])], [([0, 1], []), ([2], [], [0, NANS[2]])], [([0, 1], [], [SIGN + INFINITY, SIGN]), ([2], [])])]
    top = fine([0, 1, 2], ([0, 2], []), ([1], []))
    trees += [[top, last(rows)] for rows in ([], [0, 1, 2], [1], [1, 0], [0, 3], [0, 0])]
    trees += [[top, last([0, 1], ([0, 1], [], [0, 0]), ([], [], [0, 0]))], [top, last([0, 1], ([0], [], none))], [top, last([0, 1], ([0, 1], [2], none))],
              [top], [top, fine([0, 1], ([0], []), ([1], [])), last([0])], [top, fine([0, 1], ([0], []), ([1], [2])), last([0])],
              [top, fine([0, 1], ([0], []), ([1], [])), last([2])], [top, fine([0, 1], ([0], []), ([1], [])), last([0, 1])]]
    for tree in trees:
        yield Load(settings, points, m.file_bytes(settings, points, tree), None)
        yield Store(settings, points, m.counts(tree) if len(tree) <= 4 else (5, [0] * 4, [0] * 4), lent(settings, points, tree), 400)
    five = points_of(range(5))
    deep = [(list(range(k)), [([i for i in range(k) if i % 2 == t], [], [0, 0], 0, 1) for t in (0, 1)]) for k in (5, 4, 3, 2)]
    for levels in (deep[:3] + [last([0])], deep[:3] + [last([0, 1])], deep + [last([0])]):
        yield Load((1, 1, 0, 2, 1, 5), five, m.file_bytes((1, 1, 0, 2, 1, 5), five, levels), None)


def wrong_settings():
    return [(0, 2, 1, 2, 1, 2), (4, 2, 1, 2, 1, 2), (255, 2, 1, 2, 1, 2), (1, 0, 1, 2, 1, 2), (1, 2, 1, 1, 1, 2), (1, 2, 1, 0, 1, 2), (1, 2, 1, 2, 1, 0),
            (1, 2, 65, 2, 1, 2), (1, 2, WORD, 2, 1, 2)]


def wrong_points():
    finite = points_of([0, 1, 3, 7])
    yield []
    for at, bits in itertools.product(range(4), (INFINITY, SIGN + INFINITY, NANS[1])):
        yield finite[:at] + [bits] + finite[at + 1:]


def present():
    """The build's own refusals, with a whole file, a damaged one, and none; and pairs of them."""
    settings, points, tree = example()
    data = m.file_bytes(settings, points, tree)
    for file in (data, data[:-1], b"", m.file_bytes((1, 2, 1, 2, 1, 3), points, tree)):
        for wrong in wrong_settings():
            yield Load(wrong, points, file, None)
            yield Load(wrong, [], file, "domains")
        for wrong in wrong_points():
            yield Load(settings, wrong, file, None)
            yield Load(settings, wrong, file, "boxes")
        for name in m.LISTS:
            yield Load(settings, points, file, name)
        yield Load((1, 2, 1, 2, 1, 1), points_of(range(9)), file, None)
        yield Load((1, 2, 1, 2, 1, 1), points_of(range(9))[:8] + [INFINITY], file, "borrowed")
        yield Load((2, 2, 1, 2, 1, 2), points_of([1, 2, 3]), file, None)
        yield Load((3, 2, 1, 2, 1, 2), points_of([1, 2, 3, 4]), file, "internals")


def inside():
    """Settings and points in the file that the build refuses."""
    settings, points, tree = example()
    for wrong in wrong_settings():
        if wrong[0] == 1:
            yield Load(settings, points, m.file_bytes(wrong, points, tree), None)
            yield Load(wrong, points, m.file_bytes(wrong, points, tree), None)
    for wrong in wrong_points():
        if wrong:
            yield Load(settings, points, m.file_bytes(settings, wrong, tree), None)
    nine = points_of(range(9))
    yield Load(settings, points, m.file_bytes((1, 2, 1, 2, 1, 1), nine, [(list(range(9)), [(list(range(9)), [], [0, 0], 0, 0)])]), None)
    for policy, number in ((0, 1), (0, 2), (2, 2), (255, 0), (0, 0)):
        yield Load(settings, points, m.file_bytes((1, 2, 1, 2, policy, number), points, tree), None)


def differing():
    """18 and 19, each alone, both, and after 20."""
    settings, points, tree = example()
    others = [(2,) + settings[1:], settings[:1] + (3,) + settings[2:], settings[:2] + (2,) + settings[3:], settings[:3] + (3,) + settings[4:],
              settings[:4] + (0, 0), settings[:5] + (3,)]
    places = [points[:3], points + [NINE], [SIGN] + points[1:], points[:3] + [points[3] + 1], points[::-1]]
    data = m.file_bytes(settings, points, tree)
    for file in (data, other(data, 91, 0x45), data + b"\0"):
        for s in others:
            yield Load(s, points, file, None)
            for p in places:
                yield Load(s, p, file, None)
        for p in places:
            yield Load(settings, p, file, None)
    auto, fixed = (1, 2, 1, 2, 0, 0), (1, 2, 1, 2, 1, 512)
    for a, b in ((auto, fixed), (fixed, auto)):
        yield Load(a, points, m.file_bytes(b, points, m.built(b, points)), None)
    minus = [SIGN] + points[1:]
    yield Load(settings, minus, m.file_bytes(settings, minus, m.built(settings, minus)), None)


def form_before(name):
    """Files that were accepted before domain records ended as they do now."""
    with open(os.path.join(TESTS, name), encoding="ascii") as file:
        for line in file:
            if not line.startswith("#"):
                settings, points, data = line.split()
                yield Load(tuple(map(int, settings.split(","))), [int(bits, 16) for bits in points.split(",")], bytes.fromhex(data), None)


def with_leaf(tree, level, leaf, other_leaf):
    """The tree with another leaf in one place."""
    rows, leaves = tree[level]
    return tree[:level] + [(rows, leaves[:leaf] + [other_leaf] + leaves[leaf + 1:])] + tree[level + 1:]


def with_cover(tree, level, leaf, cover):
    """The tree with another cover in one leaf."""
    own, borrowed, bounds, _, depth = tree[level][1][leaf]
    return with_leaf(tree, level, leaf, (own, borrowed, bounds, cover, depth))


def with_depth(tree, level, leaf, depth):
    """The tree with another depth in one leaf."""
    return with_leaf(tree, level, leaf, tree[level][1][leaf][:4] + (depth,))


def with_domains(case, change):
    """The file with its first domain record changed, with its last one, which is the coarse one's, and with all of them."""
    settings, points, tree = case
    front, records = m.front_bytes(settings, points), m.tree_records(tree)
    domains = [at for at, record in enumerate(records) if record.startswith(b"TD")]
    for places in domains[:1], domains[-1:], domains:
        yield front + b"".join(change(record) if at in places else record for at, record in enumerate(records))


# How far a record's cover and its depth are from its end.
COVER, DEPTH = 12, 4


def cover_records(d):
    """Domain records with a cover that is left out, with two, and with a box in front of it."""
    return (lambda record: record[:-COVER] + record[-DEPTH:], lambda record: record[:-COVER] + record[-COVER:-DEPTH] + record[-COVER:],
            lambda record: record[:-COVER] + bytes(8 * m.box_floats(d)) + record[-COVER:])


def depth_records():
    """Domain records with a depth that is left out, that has 1, 3 or 8 bytes, that stands twice, before the cover or before the rows, or with
    its highest byte first."""
    return (lambda record: record[:-DEPTH], lambda record: record[:1 - DEPTH], lambda record: record[:-1], lambda record: record + bytes(4),
            lambda record: record + record[-DEPTH:], lambda record: record[:-COVER] + record[-DEPTH:] + record[-COVER:-DEPTH],
            lambda record: record[:10] + record[-DEPTH:] + record[10:-DEPTH], lambda record: record[:-DEPTH] + record[:-DEPTH - 1:-1])


def covers():
    """Every kind of cover in the first and the last domain of a level, the coarse one too, from a file and from lists; covers left out, and one
    too many; a coarse box in the file; and each list one entry short, and those of the domain rows without entries for depths or covers."""
    for settings, points, tree in small():
        for level, (_, leaves) in enumerate(tree):
            for leaf, cover in itertools.product({0, len(leaves) - 1}, ANY_COVERS + NAN_COVERS):
                other_tree = with_cover(tree, level, leaf, cover)
                data = m.file_bytes(settings, points, other_tree)
                yield Load(settings, points, data, None)
                yield Store(settings, points, m.counts(other_tree), lent(settings, points, other_tree), len(data))
        for change in cover_records(settings[0]):
            for data in with_domains((settings, points, tree), change):
                yield Load(settings, points, data, None)
        data, rows = m.file_bytes(settings, points, tree), 6 * (len(points) // settings[0]) + 1
        for name, by in [(name, 1) for name in m.LISTS] + [("domains", rows), ("boxes", rows)]:
            yield Load(settings, points, data, name, by)
            yield Store(settings, points, m.counts(tree), lent(settings, points, tree, name, by), len(data))


def two_levels(sizes, depths, coarse=0):
    """A level with leaves of these sizes and depths, and a coarse level with its first row, at this depth."""
    rows, leaves, at = list(range(sum(sizes))), [], 0
    for size, depth in zip(sizes, depths):
        leaves.append((rows[at:at + size], [], [0, ONE], ONE, depth))
        at += size
    return [(rows, leaves), ([0], [([0], [], [0, 0], 0, coarse)])]


def both(settings, points, tree):
    """The tree from a file and, in lists, to one. A depth that a file has no room for is given to the writer alone."""
    size = 0
    if all(depth <= WORD for _, leaves in tree for _, _, _, _, depth in leaves):
        data = m.file_bytes(settings, points, tree)
        size = len(data)
        yield Load(settings, points, data, None)
    yield Store(settings, points, m.counts(tree), lent(settings, points, tree), size or 400)


def depths():
    """Depths of small trees that are one off; depths that are too great, or right in their low bits alone; each size and depth of two leaves;
    the edges of each of the tests; and depths left out, of another length, and in another place of the file."""
    for settings, points, tree in small():
        for level, (_, leaves) in enumerate(tree):
            for leaf, (_, _, _, _, depth) in enumerate(leaves):
                for value in {depth + 1, abs(depth - 1)}:
                    yield from both(settings, points, with_depth(tree, level, leaf, value))
        for change in depth_records():
            for data in with_domains((settings, points, tree), change):
                yield Load(settings, points, data, None)
    settings, points, tree = example()
    for level, leaf, depth in ((0, 0, 2), (0, 3, 2), (1, 0, 0)):
        for value in (22, 32 + depth, 64 + depth, 256 + depth, 2 ** 16 + depth, 2 ** 31, WORD, 2 ** 32 + depth, 2 ** 63, LONG):
            yield from both(settings, points, with_depth(tree, level, leaf, value))
    for rows in (4, 5):
        settings, points = (1, 1, 0, rows, 1, 1), points_of(range(rows))
        for size, first, second in itertools.product(range(rows + 1), range(4), range(4)):
            tree = two_levels([size, rows - size], [first, second])
            yield Load(settings, points, m.file_bytes(settings, points, tree), None)
    for sizes, given in DEPTHS_AT_EDGES:
        settings, points = (1, 1, 0, sum(sizes), 1, 1), points_of(range(sum(sizes)))
        yield from both(settings, points, two_levels(sizes, given))
    # the coarse level alone: a single row is as many as half of it may be, and a quarter
    for rows, depth in itertools.product((1, 2, 3), (0, 1, 2, 21, 22, WORD)):
        settings, points = (1, 1, 0, 2, 1, rows), points_of(range(rows))
        yield from both(settings, points, [(list(range(rows)), [(list(range(rows)), [], [0, 0], 0, depth)])])
    # depths fall from one level to the next, and a level's own rows are halved
    settings, points = (1, 1, 0, 4, 1, 1), points_of(range(4))
    for upper, lower in itertools.product(([2, 2, 2, 2], [1, 2, 2, 2], [2, 2, 2, 3]), ([1, 1], [0, 1], [1, 0], [2, 2], [1, 2], [2, 1], [3, 3])):
        tree = two_levels([1, 1, 1, 1], upper)[:1] + two_levels([1, 1], lower)
        yield from both(settings, points, tree)
    # 20 comes before 18 and 19
    settings, points, tree = example()
    for value in (1, 2, 3):
        data = m.file_bytes(settings, points, with_depth(tree, 0, 0, value))
        yield Load(settings[:5] + (3,), points, data, None)
        yield Load(settings, points[::-1], data, None)


# Sizes and depths of leaves: rows divided evenly, with one row more and with two; the same rows in an order in which depths fall; the
# greatest depth, and one more; and one leaf with all rows, behind which the others are empty.
DEPTHS_AT_EDGES = [
    ((2, 2), (1, 1)), ((3, 1), (1, 2)), ((3, 1), (1, 1)), ((4, 0), (1, 2)), ((1, 3), (1, 1)), ((1, 1, 2), (2, 2, 2)), ((2, 1, 1), (1, 2, 2)),
    ((1, 1, 2), (2, 2, 1)), ((1, 2, 1), (2, 1, 2)), ((2, 2, 0), (2, 2, 3)), ((2, 2, 0), (2, 2, 2)), ((2, 2, 2, 2), (2, 2, 2, 2)),
    ((3, 3, 1, 1), (2, 2, 3, 3)), ((3, 3, 2, 0), (2, 2, 2, 3)), ((3, 3, 2, 0), (2, 2, 2, 4)), ((4, 4), (2, 2)), ((4, 4), (1, 1)), ((5, 3), (1, 2)),
    ((5, 3), (1, 1)), ((3, 5), (2, 1)), ((4, 2, 2), (1, 2, 2)), ((2, 2, 4), (2, 2, 1)), ((3, 4), (1, 1)), ((3, 2, 2), (1, 2, 2)),
    ((3, 2, 1, 1), (1, 2, 2, 2)), ((3, 2, 1, 1), (1, 2, 3, 3)), ((3, 1, 1, 2), (1, 3, 3, 2)), ((0, 1, 1, 1), (3, 3, 3, 3)),
    ((0, 1, 1, 1), (2, 2, 2, 2)),
    ((1, 1, 1), (21, 21, 21)), ((1, 1, 1), (22, 22, 22)), ((1, 1, 1), (20, 21, 22)), ((1, 1, 1), (19, 20, 21)), ((1, 1, 0), (1, 1, 21)),
    ((1, 1, 0), (1, 1, 22)), ((1, 1, 0), (1, 1, 64)), ((1, 1, 0), (1, 1, WORD)), ((1, 1, 0), (1, 1, LONG)), ((1, 0, 1), (1, 21, 21)),
    ((1, 0, 1), (1, 21, 20)), ((2, 0), (0, 2)), ((2, 0), (0, 1)), ((2, 0), (0, 21)), ((2, 0), (0, 22)), ((0, 2), (0, 0)), ((0, 2), (2, 0)),
    ((4, 0), (0, 3)), ((4, 0), (0, 2)), ((4, 0, 0, 0), (0, 3, 4, 21)), ((4, 0, 0, 0), (0, 3, 21, 4)), ((5, 0), (0, 3)), ((5, 0), (0, 2)),
    ((5, 0), (0, 0)),
]


# ---- stores

def lent(settings, points, tree, short=None, by=1):
    """Lists of the stated lengths, but for `short`, that hold the tree, or as much of it as they can."""
    size, front = lengths(settings, points, short, by), m.packed(tree)
    return {name: (front[name] + [fill(name)] * size[name])[:max(size[name], 0)] for name in m.LISTS}


def changed(lists, name, at, value):
    return {**lists, name: lists[name][:at] + [value] + lists[name][at + 1:]}


def stores(rng):
    for settings, points, tree in small():
        count, lists = m.counts(tree), lent(settings, points, tree)
        exact = len(m.file_bytes(settings, points, tree))
        for room in (0, 24, exact - 1, exact, exact + 1, exact + 40):
            yield Store(settings, points, count, lists, room)
        front = m.packed(tree)
        for name in ("level_points", "internals", "domains", "borrowed"):
            for at, x in enumerate(front[name]):
                for value in {x + 1, max(x - 1, 0), LONG - rng.randint(0, 9)} - {x}:
                    yield Store(settings, points, count, changed(lists, name, at, value), exact)
        for at in range(len(front["boxes"])):
            for value in (SIGN, INFINITY, NANS[1]):
                yield Store(settings, points, count, changed(lists, "boxes", at, value), exact)
        for at, value in itertools.product(range(9), (0, 1, 2, 4, 5, 193, 1 << 62, LONG)):
            flat = [count[0], *count[1], *count[2]]
            flat[at] = value
            yield Store(settings, points, (flat[0], flat[1:5], flat[5:]), lists, exact)
        for name in m.LISTS:
            yield Store(settings, points, count, lent(settings, points, tree, name), exact)
            yield Store(settings, points, (0, [0] * 4, [0] * 4), lent(settings, points, tree, name), 0)
    settings, points, tree = example()
    count, lists = m.counts(tree), lent(settings, points, tree)
    for wrong in wrong_settings():
        yield Store(wrong, points, count, lists, 300)
        yield Store(wrong, [], (9, [9] * 4, [9] * 4), lists, 0)
    for wrong in wrong_points():
        yield Store(settings, wrong, count, lists, 300)
        yield Store(settings, wrong, count, lent(settings, points, tree, "boxes"), 300)
    for wrong, given in (((1, 2, 1, 2, 1, 1), points_of(range(9))), ((2, 2, 1, 2, 1, 2), points_of([1, 2, 3])), ((3, 2, 1, 2, 1, 2), points_of([1]))):
        yield Store(wrong, given, count, lists, 300)
    for _ in range(150):
        d, n, neighbours = rng.randint(1, 3), rng.randint(1, 5), rng.randint(0, 2)
        s = (d, 1, neighbours, 2, 1, n)
        p = points_of([rng.randint(-9, 9) for _ in range(n * d)])
        t = some_tree(rng, d, n, neighbours)
        yield Store(s, p, m.counts(t), lent(s, p, t), len(m.file_bytes(s, p, t)) + rng.randint(-1, 3))


def calls():
    rng = random.Random(20)
    for part in (whole(), each_byte(rng), each_cut(), random_trees(rng), limits(), one_test_each(), present(), inside(), differing(), stores(rng),
                 covers(), depths(), *map(form_before, FORMS_BEFORE)):
        yield from part


def recorded(call):
    """A call's refusal number, and its record."""
    return load_record(call) if isinstance(call, Load) else store_record(call)


def main():
    records, tally = [], collections.Counter()
    for call in calls():
        number, body = recorded(call)
        tally["load" if isinstance(call, Load) else "store", number] += 1
        records.append(struct.pack("<I", len(body)) + body)
    data = b"".join(records)
    assert len(data) <= MOST_BYTES and max(map(len, records)) <= MOST_RECORD, (len(data), max(map(len, records)))
    with open(PATH, "wb") as out:
        out.write(data)
    print(len(records), "calls,", len(data), "bytes,", max(map(len, records)), "the longest")
    for (kind, number), many in sorted(tally.items()):
        print("  %-5s %2d: %d" % (kind, number, many))


if __name__ == "__main__":
    main()
