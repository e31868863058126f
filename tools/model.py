"""Document 01 with requests 2, 4, 5, 6 and 9 of document 02 as plain Python, for making stored answers and for checking tables by hand.

It follows the papers rule by rule and shares nothing with the Rattle code. Python's floats are IEEE 754 binary64 and its
`math.sqrt` is correctly rounded, so every rounded step is the papers'. A well's neighbours are found by ordering all wells, which answers as
request 9's search does; from that request on every build writes the record of its cuts.

    python3 tools/model.py < STREAM      prints what the program prints for a job stream
"""
import math
import struct
import sys

MOST_POINTS = 1_048_576


class Refused(Exception):
    def __init__(self, number, place=0):
        super().__init__(number, place)
        self.number, self.place = number, place


# ---- points

def coordinate(cs, d, i, a):
    return cs[i * d + a]


def sq(d, p, q):
    total = 0.0
    for a in range(d):
        t = p[a] - q[a]
        total = total + t * t
    return total


def point(cs, d, i):
    return cs[i * d:(i + 1) * d]


def rows_sq(cs, d, i, j):
    return sq(d, point(cs, d, i), point(cs, d, j))


def first_least(values):
    best = values[0]
    for v in values[1:]:
        if v < best:
            best = v
    return best


def first_greatest(values):
    best = values[0]
    for v in values[1:]:
        if v > best:
            best = v
    return best


def bounds(cs, d, rows):
    columns = [[coordinate(cs, d, i, a) for i in rows] for a in range(d)]
    return [first_least(c) for c in columns], [first_greatest(c) for c in columns]


# ---- levels and quotas

def threshold(policy, number, n):
    return number if policy == 1 else max(512, min(4096, (n + 31) // 32))


def reductions(n, c, f):
    k = 0
    while c * f ** k < n:
        k += 1
    return k


def level_size(a, c, r):
    low, high = 0, a
    while low < high:
        m = (low + high) // 2
        if m ** r >= c * a ** (r - 1):
            high = m
        else:
            low = m + 1
    return max(1, min(a - 1, low))


def quotas(sizes, s):
    s = min(s, sum(sizes))
    d = sum(1 for w in sizes if w > 0)
    first = 1 if s >= d else 0
    given = [min(first, w) for w in sizes]
    rest = s - sum(given)
    caps = [w - g for w, g in zip(sizes, given)]
    pool = max(1, sum(caps))
    out = [g + rest * c // pool for g, c in zip(given, caps)]
    left = s - sum(out)
    order = sorted(range(len(sizes)), key=lambda i: (-(rest * caps[i] % pool), i))
    for i in order[:left]:
        out[i] += 1
    return out


# ---- sampling

def sample(cs, d, rows, wanted, seed):
    chosen, least = [seed], {}
    for i in rows:
        least[i] = math.inf
    while len(chosen) < wanted:
        taken = set(chosen)
        best = None
        for i in rows:
            least[i] = min(least[i], math.sqrt(rows_sq(cs, d, chosen[-1], i)))
            if i not in taken and (best is None or least[i] > least[best]):
                best = i
        chosen.append(best)
    return chosen


def cover(cs, d, rows, chosen):
    """How far the worst of the rows that were not chosen is from the nearest one that was; 0 where all were chosen."""
    taken = set(chosen)
    return max((min(math.sqrt(rows_sq(cs, d, i, j)) for j in chosen) for i in rows if i not in taken), default=0.0)


def seed_of(cs, d, rows):
    center = []
    for a in range(d):
        total = 0.0
        for i in rows:
            total = total + coordinate(cs, d, i, a)
        center.append(total / float(len(rows)))
    best, near = None, None
    for i in rows:
        far = math.sqrt(sq(d, center, point(cs, d, i)))
        if best is None or far < near:
            best, near = i, far
    return best


# ---- one level

def halves(cs, d, rows):
    """A cut of these rows: its axis, its plane, and the rows to the left and to the right of it."""
    low, high = bounds(cs, d, rows)
    axis = 0
    for a in range(1, d):
        if high[a] - low[a] > high[axis] - low[axis]:
            axis = a
    order = sorted(rows, key=lambda i: (coordinate(cs, d, i, axis), i))
    half = len(rows) // 2
    return axis, coordinate(cs, d, order[half], axis), sorted(order[:half]), sorted(order[half:])


def cut(cs, d, rows, box, depth):
    axis, plane, left_rows, right_rows = halves(cs, d, rows)
    left, right = (list(box[0]), list(box[1])), (list(box[0]), list(box[1]))
    left[1][axis] = plane
    right[0][axis] = plane
    return (left_rows, left, depth + 1), (right_rows, right, depth + 1)


def leaves_of(cs, d, leaf, active):
    """The leaves of a level: their rows, their boxes, and how often each was cut from the whole level, which is its depth."""
    queue, leaves = [(list(active), bounds(cs, d, active), 0)], []
    while queue:
        rows, box, depth = queue.pop(0)
        halves = cut(cs, d, rows, box, depth)
        (queue if len(rows) >= 2 * leaf else leaves).extend(halves)
    return leaves


def nearest(cs, d, neighbours, active, i):
    """The rows that row i takes: itself, then as many others as there are neighbours, by (squared distance, row)."""
    others = sorted((j for j in active if j != i), key=lambda j: (rows_sq(cs, d, i, j), j))
    return [i] + others[:neighbours]


def borrowed_of(cs, d, neighbours, active, leaves):
    owner = {i: t for t, (rows, _, _) in enumerate(leaves) for i in rows}
    borrowed = [set() for _ in leaves]
    for i in active:
        for j in nearest(cs, d, neighbours, active, i):
            if owner[i] != owner[j]:
                borrowed[owner[i]].add(j)
                borrowed[owner[j]].add(i)
    return [sorted(b) for b in borrowed]


def sent_by(cs, d, rows, quota):
    """The rows that a leaf with these rows sends up, for its quota."""
    return sample(cs, d, rows, quota, seed_of(cs, d, rows)) if quota else []


def leaf_cover(cs, d, rows, sent):
    """The cover of a leaf: infinite where it has rows and sends none, and 0 where it has none."""
    return math.inf if rows and not sent else cover(cs, d, rows, sent)


# ---- the build

def check_settings(d, leaf, neighbours, f, policy, number):
    if not 1 <= d <= 3:
        raise Refused(1)
    if leaf == 0:
        raise Refused(2)
    if f < 2:
        raise Refused(3)
    if policy == 1 and number == 0:
        raise Refused(4)
    if neighbours > 64:
        raise Refused(5)


def check_reach(f, policy, number, n):
    if threshold(policy, number, n) * f ** 3 < n:
        raise Refused(9)


def check_finite(cs, places):
    for at in places:
        if not math.isfinite(cs[at]):
            raise Refused(10, at)


def check(cs, d, leaf, neighbours, f, policy, number):
    check_settings(d, leaf, neighbours, f, policy, number)
    if not cs:
        raise Refused(6)
    if len(cs) % d:
        raise Refused(7)
    n = len(cs) // d
    if n > MOST_POINTS:
        raise Refused(8)
    check_reach(f, policy, number, n)
    check_finite(cs, range(len(cs)))


def build(cs, d, leaf, neighbours, f, policy, number):
    """The levels: (active rows, leaves); a leaf is (own rows, borrowed rows, box or None, cover, depth)."""
    check(cs, d, leaf, neighbours, f, policy, number)
    return levels_over(cs, d, leaf, neighbours, f, policy, number, range(len(cs) // d))


def levels_over(cs, d, leaf, neighbours, f, policy, number, rows):
    """The levels over these rows, ascending: n is their count."""
    c = threshold(policy, number, len(rows))
    k = reductions(len(rows), c, f)
    active, levels, built = list(rows), [], 0
    while len(active) > c:
        leaves = leaves_of(cs, d, leaf, active)
        borrowed = borrowed_of(cs, d, neighbours, active, leaves)
        size = level_size(len(active), c, max(1, k - built))
        built += 1
        sent = [sent_by(cs, d, rows, q) for (rows, _, _), q in zip(leaves, quotas([len(rows) for rows, _, _ in leaves], size))]
        levels.append((active, [(rows, b, box, leaf_cover(cs, d, rows, up), depth)
                                for (rows, box, depth), b, up in zip(leaves, borrowed, sent)]))
        active = sorted(i for up in sent for i in up)
    levels.append((active, [(active, [], None, 0.0, 0)]))
    return levels


# ---- the cut record (document 02, requests 2 and 9)

# A node of at least this is a leaf: this plus its number. One below it is a cut: its axis.
RECORD_LEAF = 3


def nodes(cs, d, leaf, rows, depth=0):
    """The cuts of a domain from its own downwards, the left half completely before the right: (depth, axis, plane) for a cut, and
    (depth, None, None) for a leaf."""
    axis, plane, left, right = halves(cs, d, rows)
    out = [(depth, axis, plane)]
    for half in (left, right):
        out += nodes(cs, d, leaf, half, depth + 1) if len(rows) >= 2 * leaf else [(depth + 1, None, None)]
    return out


def record(cs, d, leaf, active):
    """The record of a fine level with these active rows: (whole number, float) for each node. Its leaves are numbered by depth, and then
    from left to right."""
    found = nodes(cs, d, leaf, active)
    by_depth = sorted((depth, place) for place, (depth, axis, _) in enumerate(found) if axis is None)
    number = {place: k for k, (_, place) in enumerate(by_depth)}
    return [(RECORD_LEAF + number[place], 0.0) if axis is None else (axis, plane) for place, (_, axis, plane) in enumerate(found)]


def records(cs, d, leaf, levels):
    """The records of a tree's fine levels, which are all but the last."""
    return [record(cs, d, leaf, active) for active, _ in levels[:-1]]


# ---- job stream and printout

def parse(data):
    if len(data) < 20 or data[:2] != b"ST":
        raise Refused(16, 0)
    d = data[2]
    leaf, neighbours, f, policy, number = struct.unpack("<IIIBI", data[3:20])
    if policy > 1 or (policy == 0 and number != 0):
        raise Refused(16, 0)
    if not 1 <= d <= 3:
        raise Refused(1)
    at, size, cs, points = 20, 2 + 8 * d, [], 0
    while at < len(data):
        record = data[at:at + size]
        if len(record) < size or record[:2] != b"PT":
            raise Refused(16, at)
        if points == 32:
            raise Refused(17)
        cs += struct.unpack("<%dd" % d, record[2:])
        points += 1
        at += size
    if neighbours > 16:
        raise Refused(17)
    return cs, d, leaf, neighbours, f, policy, number


def rows_text(rows):
    return " ".join(map(str, rows)) if rows else "-"


def bits_text(x):
    return "%016x" % struct.unpack("<Q", struct.pack("<d", x))


def box_text(box):
    return "-" if box is None else " ".join(map(bits_text, box[0] + box[1]))


def printout(data):
    try:
        levels = build(*parse(data))
    except Refused as r:
        return "refused %d at %d\n" % (r.number, r.place)
    out = ["levels %d" % len(levels)]
    for t, (active, leaves) in enumerate(levels):
        out.append("level %d points %s" % (t, rows_text(active)))
        for i, (own, borrowed, box, far, depth) in enumerate(leaves):
            out.append("domain %d internal %s overlap %s box %s cover %s depth %d" % (
                i, rows_text(own), rows_text(borrowed), box_text(box), bits_text(far), depth))
    return "\n".join(out) + "\n"


if __name__ == "__main__":
    sys.stdout.write(printout(sys.stdin.buffer.read()))
