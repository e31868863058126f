"""Requests 1, 5 and 6 of document 02 as plain Python: the file of a tree, its tests, the loader and the writer.

It follows the paper's words and shares nothing with the Rattle code. Floats are their bits throughout. Settings are six numbers:
dimension, leaf threshold, neighbours, factor, policy (0 Auto, 1 Fixed), threshold (0 under Auto). A tree is a list of levels; a level is
its rows and its leaves; a leaf is own rows, borrowed rows, the bits of its bounds (lower ones, then upper ones), those of its cover, and
its depth.
"""
import struct

import model

MOST_LEVELS = 4
LISTS = ("level_points", "internals", "domains", "boxes", "borrowed")
# What a domain row has in `domains`: where its own rows begin and how many they are, the same of the borrowed ones, and its depth.
ROW_NUMBERS = 5
MOST_DEPTH = 21


def box_floats(d):
    """A box: its bounds."""
    return 2 * d


def row_floats(d):
    """What a domain row has in `boxes`: its box, and its cover."""
    return box_floats(d) + 1


class Malformed(Exception):
    """What refusal 20 covers."""


def floats_of(bits):
    return list(struct.unpack("<%dd" % len(bits), struct.pack("<%dQ" % len(bits), *bits)))


def bits_of(floats):
    return list(struct.unpack("<%dQ" % len(floats), struct.pack("<%dd" % len(floats), *floats)))


def is_nan(bits):
    return bits % 2 ** 63 > 0x7FF0000000000000


# ---- the file

def numbers(values):
    return struct.pack("<%dI" % len(values), *values)


def settings_bytes(settings):
    return struct.pack("<BIIIBI", *settings)


def front_bytes(settings, points):
    d = settings[0]
    out = [b"TH", settings_bytes(settings), numbers([len(points) // d])]
    for i in range(0, len(points), d):
        out += [b"TP", struct.pack("<%dQ" % d, *points[i:i + d])]
    return b"".join(out)


def tree_records(tree):
    records = []
    for t, (rows, leaves) in enumerate(tree):
        coarse = t == len(tree) - 1
        records.append(b"TL" + numbers([len(rows), len(leaves)]) + numbers(rows))
        for own, borrowed, box, cover, depth in leaves:
            floats = [cover] if coarse else box + [cover]
            records.append(b"TD" + numbers([len(own), len(borrowed)]) + numbers(own) + numbers(borrowed)
                           + struct.pack("<%dQ" % len(floats), *floats) + numbers([depth]))
    return records


def file_bytes(settings, points, tree):
    return front_bytes(settings, points) + b"".join(tree_records(tree))


# ---- what stands in a file

class Reader:
    def __init__(self, data):
        self.data, self.at = data, 0

    def take(self, count):
        if len(self.data) - self.at < count:
            raise Malformed
        self.at += count
        return self.data[self.at - count:self.at]

    def mark(self, mark):
        if self.take(2) != mark:
            raise Malformed

    def numbers(self, count):
        return list(struct.unpack("<%dI" % count, self.take(4 * count)))

    def floats(self, count):
        return list(struct.unpack("<%dQ" % count, self.take(8 * count)))


def read_file(data):
    """Settings, points and tree; `Malformed` where the records are not whole or bytes are left."""
    r = Reader(data)
    r.mark(b"TH")
    settings = struct.unpack("<BIIIBI", r.take(18))
    if settings[4] > 1 or (settings[4] == 0 and settings[5] != 0):
        raise Malformed
    d, n = settings[0], r.numbers(1)[0]
    if not 1 <= d <= 3:
        raise Malformed
    points = []
    for _ in range(n):
        r.mark(b"TP")
        points += r.floats(d)
    tree, coarse = [], False
    while not coarse:
        if len(tree) == MOST_LEVELS:
            raise Malformed
        r.mark(b"TL")
        count, domains = r.numbers(2)
        rows, leaves, coarse = r.numbers(count), [], domains == 1
        for _ in range(domains):
            r.mark(b"TD")
            own, borrowed = r.numbers(2)
            own, borrowed = r.numbers(own), r.numbers(borrowed)
            box = [0] * box_floats(d) if coarse else r.floats(box_floats(d))
            cover = r.floats(1)[0]
            leaves.append((own, borrowed, box, cover, r.numbers(1)[0]))
        tree.append((rows, leaves))
    if r.at != len(data):
        raise Malformed
    return settings, points, tree


# ---- the tests of a tree

def ascends(rows):
    return all(a < b for a, b in zip(rows, rows[1:]))


def stated(d, n, neighbours):
    return {"level_points": 4 * n, "internals": 4 * n, "domains": ROW_NUMBERS * (6 * n + 1), "boxes": row_floats(d) * (6 * n + 1),
            "borrowed": 6 * n * (neighbours + 1)}


def depth_fits(rows, size, depth):
    """Whether a leaf of this size may have this depth in a level of so many rows: not above the greatest, and the size is the rows divided by
    two to the depth, rounded down, or one more."""
    return depth <= MOST_DEPTH and size in (rows // 2 ** depth, rows // 2 ** depth + 1)


def depths_fit(rows, leaves, last):
    """Whether a level of so many rows has the depths of a level: in row order they never fall, and each fits. The coarse domain's is 0."""
    depths = [depth for _, _, _, _, depth in leaves]
    if last:
        return depths == [0]
    return all(a <= b for a, b in zip(depths, depths[1:])) and all(depth_fits(rows, len(leaf[0]), leaf[4]) for leaf in leaves)


def sound(settings, n, tree):
    d, neighbours = settings[0], settings[2]
    if not 1 <= len(tree) <= MOST_LEVELS or tree[0][0] != list(range(n)):
        return False
    for t, (rows, leaves) in enumerate(tree):
        last = t == len(tree) - 1
        if not ascends(rows) or (len(leaves) == 1) != last:
            return False
        if t and not (0 < len(rows) < len(tree[t - 1][0]) and set(rows) <= set(tree[t - 1][0])):
            return False
        if sorted(i for own, _, _, _, _ in leaves for i in own) != rows or not depths_fit(len(rows), leaves, last):
            return False
        for own, borrowed, box, cover, _ in leaves:
            if not ascends(own) or not ascends(borrowed) or not set(borrowed) <= set(rows) - set(own):
                return False
            if len(box) != box_floats(d) or (any(box) if last else any(map(is_nan, box))) or is_nan(cover):
                return False
    domains = sum(len(leaves) for _, leaves in tree)
    borrowed = sum(len(b) for _, leaves in tree for _, b, _, _, _ in leaves)
    return domains <= 6 * n + 1 and borrowed <= 6 * n * (neighbours + 1)


def own_refusal(settings, points, lengths):
    """The build's own refusal for settings, points and the five lists' lengths, or None."""
    d, leaf, neighbours, factor, policy, number = settings
    cs = floats_of(points)
    late = None
    try:
        model.check(cs, d, leaf, neighbours, factor, policy, number)
    except model.Refused as r:
        if r.number != 10:
            return r
        late = r
    if lengths is not None:
        wanted = stated(d, len(cs) // d, neighbours)
        if any(lengths[name] < wanted[name] for name in LISTS):
            return model.Refused(11)
    return late


# ---- packed lists

def packed(tree):
    lists = {name: [] for name in LISTS}
    for rows, leaves in tree:
        lists["level_points"] += rows
        for own, borrowed, box, cover, depth in leaves:
            lists["domains"] += [len(lists["internals"]), len(own), len(lists["borrowed"]), len(borrowed), depth]
            lists["internals"] += own
            lists["borrowed"] += borrowed
            lists["boxes"] += box + [cover]
    return lists


def counts(tree):
    none = [0] * (MOST_LEVELS - len(tree))
    return len(tree), [len(rows) for rows, _ in tree] + none, [len(leaves) for _, leaves in tree] + none


ZERO_COUNTS = (0, [0] * MOST_LEVELS, [0] * MOST_LEVELS)


def held(d, count, lists):
    """The tree that packed lists hold; `Malformed` where they are not packed or a coarse box has a bit set."""
    levels, rows, domains = count
    if not 1 <= levels <= MOST_LEVELS or any(rows[levels:]) or any(domains[levels:]):
        raise Malformed
    tree, at = [], {"level_points": 0, "internals": 0, "borrowed": 0, "rows": 0}

    def stretch(name, start, many):
        if start != at[name] or start + many > len(lists[name]):
            raise Malformed
        at[name] += many
        return lists[name][start:start + many]

    for t in range(levels):
        points, leaves = stretch("level_points", at["level_points"], rows[t]), []
        for _ in range(domains[t]):
            j, many = at["rows"], row_floats(d)
            if ROW_NUMBERS * (j + 1) > len(lists["domains"]) or many * (j + 1) > len(lists["boxes"]):
                raise Malformed
            a, w, b, v, depth = lists["domains"][ROW_NUMBERS * j:ROW_NUMBERS * (j + 1)]
            floats = lists["boxes"][many * j:many * (j + 1)]
            leaves.append((stretch("internals", a, w), stretch("borrowed", b, v), floats[:box_floats(d)], floats[box_floats(d)], depth))
            at["rows"] += 1
        tree.append((points, leaves))
    if any(any(box) for _, _, box, _, _ in tree[-1][1]):
        raise Malformed
    return tree


# ---- the two calls

def load(settings, points, data, lists):
    """Number, place, counts, and the five lists after the call."""
    own = own_refusal(settings, points, {name: len(lists[name]) for name in LISTS})
    if own:
        return own.number, own.place, ZERO_COUNTS, lists
    try:
        file_settings, file_points, tree = read_file(data)
        if own_refusal(file_settings, file_points, None) or not sound(file_settings, len(file_points) // file_settings[0], tree):
            raise Malformed
    except Malformed:
        return 20, 0, ZERO_COUNTS, lists
    if tuple(file_settings) != tuple(settings):
        return 18, 0, ZERO_COUNTS, lists
    if file_points != points:
        return 19, 0, ZERO_COUNTS, lists
    fronts = packed(tree)
    return 0, 0, counts(tree), {name: fronts[name] + lists[name][len(fronts[name]):] for name in LISTS}


def store(settings, points, count, lists, file):
    """Number, place, bytes written, and the file list after the call."""
    own = own_refusal(settings, points, {name: len(lists[name]) for name in LISTS})
    if own:
        return own.number, own.place, 0, file
    try:
        tree = held(settings[0], count, lists)
        if not sound(settings, len(points) // settings[0], tree):
            raise Malformed
    except Malformed:
        return 20, 0, 0, file
    data = file_bytes(settings, points, tree)
    if len(file) < len(data):
        return 11, 0, 0, file
    return 0, 0, len(data), data + file[len(data):]


def built(settings, points):
    """The tree that the build makes, as this module has it."""
    d, leaf, neighbours, factor, policy, number = settings
    levels = model.build(floats_of(points), d, leaf, neighbours, factor, policy, number)
    return [(list(rows), [(list(own), list(borrowed), [0] * box_floats(d) if box is None else bits_of(box[0] + box[1]), bits_of([cover])[0], depth)
                          for own, borrowed, box, cover, depth in leaves]) for rows, leaves in levels]
