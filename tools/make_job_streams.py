#!/usr/bin/env python3
"""Writes crates/run_job_streams/data/streams: job streams, whole and damaged, each with what the program is to print for it.

Run from the project's root; it takes no input, and each run writes the same file. The answers come from tools/model.py,
which follows the paper in plain Python and shares nothing with the Rattle code. A record of the file is the stream's
length and the answer's length (2 bytes each, the lowest first), the stream, and the answer.
"""
import collections
import random
import struct

import model

PATH = "crates/run_job_streams/data/streams"
MOST_BYTES = 1_703_936   # the room of crates/run_job_streams
WORD = 2 ** 32 - 1
INFINITY = 0x7FF0000000000000
SIGN = 1 << 63
NANS = [INFINITY + 1, INFINITY + (1 << 51), 2 * SIGN - 1, SIGN + INFINITY + 1, INFINITY + 0x123456789]
EDGES = [0, SIGN, 1, SIGN + 1, 0x000FFFFFFFFFFFFF, 0x0010000000000000, 0x3FF0000000000000, 0x3FF0000000000001,
         0x7FE1CCF385EBC8A0, SIGN + 0x7FE1CCF385EBC8A0, 0x7FEFFFFFFFFFFFFF, SIGN + 0x7FEFFFFFFFFFFFFF]


def bits(x):
    return struct.unpack("<Q", struct.pack("<d", x))[0]


def settings(d=2, leaf=2, neighbours=2, factor=2, policy=1, number=2, mark=b"ST"):
    return mark + struct.pack("<BIIIBI", d, leaf, neighbours, factor, policy, number)


def point(patterns, mark=b"PT"):
    return mark + b"".join(struct.pack("<Q", b) for b in patterns)


def points(d, values):
    """Point records of d axes from a flat list of numbers."""
    return b"".join(point([bits(float(x)) for x in values[i:i + d]]) for i in range(0, len(values), d))


def some_points(d, n):
    return points(d, [(7 * i * i + 3 * i) % 23 for i in range(n * d)])


def document():
    yield settings(1, 2, 1, 2, 1, 2) + points(1, [0, 1, 3, 7])
    yield b""


# ---- damage

def cut_at_each_byte():
    for d, n in ((1, 3), (2, 2), (3, 2)):
        stream = settings(d) + some_points(d, n)
        for k in range(len(stream)):
            yield stream[:k]
    full = settings(3, neighbours=1, number=32) + some_points(3, 33)
    for k in range(len(full) - 30, len(full) + 1):
        yield full[:k]


def wrong_marks():
    for d in (1, 2, 3):
        stream = settings(d) + some_points(d, 3)
        size = 2 + 8 * d
        for at in (0, 1, 20, 21, 20 + size, 21 + size, 20 + 2 * size, 21 + 2 * size):
            for b in (0x00, 0x20, 0x50, 0x53, 0x54, 0x70, 0x73, 0x74, 0xFF):
                yield stream[:at] + bytes([b]) + stream[at + 1:]
        yield stream + b"P"
        yield stream + b"PT"
        yield stream + b"\n"
        yield stream + settings(d)
        yield settings(d) + settings(d) + some_points(d, 1)
        yield some_points(d, 3)


def policies():
    for policy in list(range(0, 8)) + [16, 127, 128, 254, 255]:
        for number in (0, 1, 2, 255, 256, 65536, 1 << 24, WORD):
            yield settings(2, policy=policy, number=number) + some_points(2, 3)
    for number in (0, 1, 1 << 8, 1 << 16, 1 << 24, WORD):
        yield settings(2, policy=0, number=number)
        yield settings(4, policy=0, number=number) + some_points(2, 3)


def dimensions():
    for d in list(range(0, 10)) + [16, 127, 128, 254, 255]:
        yield settings(d)
        yield settings(d) + b"PT"
        yield settings(d) + b"junk"
        yield settings(d) + some_points(1, 2)
        yield settings(d) + some_points(2, 2)
        yield settings(d) + some_points(3, 2)
        yield settings(d, leaf=0, neighbours=99) + some_points(2, 33)
        yield settings(d, policy=7) + some_points(2, 2)


def point_counts():
    for d in (1, 2, 3):
        for n in (0, 1, 2, 31, 32, 33, 34, 40):
            for neighbours in (1, 17):
                yield settings(d, leaf=16, neighbours=neighbours, number=32) + some_points(d, n)
        full = settings(d, number=32) + some_points(d, 32)
        last = some_points(d, 1)
        for end in (last[:1], last[:-1], b"XT" + last[2:], last + b"x", last + b"XT" + last[2:], last * 3, last + b"\0" * 400):
            yield full + end


def neighbour_counts():
    for neighbours in (0, 1, 2, 15, 16, 17, 18, 63, 64, 65, 255, 256, 65536, WORD):
        for d, n in ((1, 0), (1, 5), (2, 4), (3, 3)):
            yield settings(d, neighbours=neighbours) + some_points(d, n)
        yield settings(2, neighbours=neighbours) + some_points(2, 2) + b"PTx"
        yield settings(2, leaf=0, neighbours=neighbours) + some_points(2, 2)


# ---- refusals and their order

def refusals():
    """Every set of conditions that a stream can meet together."""
    for broken in (0, 1):
        for d in (2, 4):
            for leaf in (0, 2):
                for factor in (0, 1, 2):
                    for policy, number in ((1, 0), (1, 1), (1, 2), (0, 0)):
                        for neighbours in (2, 17):
                            for n, bad in ((0, None), (1, None), (20, None), (20, 5), (33, None), (33, 0)):
                                body = some_points(2, n)
                                if bad is not None:
                                    at = 18 * (bad // 2) + 2 + 8 * (bad % 2)
                                    body = body[:at] + struct.pack("<Q", NANS[0]) + body[at + 8:]
                                yield settings(d, leaf, neighbours, factor, policy, number) + body + b"P" * broken


def thresholds():
    """9 where c * f ** 3 is below n, and n equal to c."""
    for number in (1, 2, 3, 4):
        for factor in (2, 3, WORD):
            for n in (1, 2, 3, 4, 8, 9, 16, 17, 24, 25, 27, 28, 32):
                yield settings(1, 4, 0, factor, 1, number) + some_points(1, n)
    for n in (1, 16, 32):
        yield settings(1, 1, 16, 2, 1, WORD) + some_points(1, n)
        yield settings(1, WORD, 16, WORD, 1, 1) + some_points(1, n)


def not_finite():
    for d in (1, 2, 3):
        whole = settings(d, number=1, factor=9) + some_points(d, 3)
        for at in range(3 * d):
            start = 20 + (at // d) * (2 + 8 * d) + 2 + 8 * (at % d)
            for b in NANS + [INFINITY, SIGN + INFINITY]:
                one = whole[:start] + struct.pack("<Q", b) + whole[start + 8:]
                yield one
        end = len(whole) - 8
        yield one[:end] + struct.pack("<Q", NANS[1])


# ---- values

def edge_values(rng):
    for d in (1, 2, 3):
        for _ in range(60):
            n = rng.randint(2, 9)
            yield settings(d, rng.randint(1, 3), rng.randint(0, 4), 3, 1, rng.randint(1, 3)) + b"".join(
                point([rng.choice(EDGES) for _ in range(d)]) for _ in range(n))


def duplicates(rng):
    for d in (1, 2, 3):
        for n in (2, 3, 5, 8, 13, 32):
            number = max(1, n // 6)
            yield settings(d, 2, 2, 2, 1, number) + points(d, [5] * (n * d))
            yield settings(d, 3, 4, 3, 1, number) + points(d, [rng.randint(0, 1) for _ in range(n * d)])
            yield settings(d, 1, 1, 3, 1, number) + points(d, [(-1) ** i * 0.0 for i in range(n * d)])


def nested():
    """More rows at squared distance zero than a row takes, some of them by underflow, on up to three fine levels."""
    places = ([5, 5], [5, 5, 5], [5, 5, 5, 5], [0, 5e-324, 1e-323], [2e-170, 0, 1e-170], [3, 7, 3, 3, 7, 3, 9])
    for neighbours in (0, 1, 2):
        for d in (1, 3):
            for place in places:
                yield settings(d, 1, neighbours, 2, 1, 1) + points(d, [x for x in place for _ in range(d)])


# Places on a line: far enough apart for a square to overflow, or so near each other that it underflows.
FAR = [1.34e154, 1.35e154, 1e200, 1.7e308]
NEAR = [5e-324, 1e-170, 1.5e-162, 1.6e-162, 1e-161, 1e-154]


def covers(rng):
    """Covers of leaves that send one, some, or all of their rows; of leaves that send none; and of empty ones."""
    for d in (1, 2):
        for step in FAR + NEAR:
            # two leaves of two rows, one of which is sent; on two axes the sum of the squares overflows first
            yield settings(d, WORD, 1, 2, 1, 2) + points(d, [x for i in (0, 0, 1, 2) for x in [step / 2 * i] * d])
        for step in FAR:
            yield settings(d, WORD, 0, 3, 1, 3) + points(d, [x for i in (-1, 1, -1, 1, 0) for x in [i * step] * d])
    for d, n in ((1, 2), (1, 3), (1, 5), (2, 3), (2, 4), (3, 3)):
        # all rows at one place, or all but one, and zeros of both signs
        for odd in (5.0, 7.0):
            yield settings(d, WORD, 1, 2, 1, max(1, n // 2)) + points(d, [5.0] * (n * d - 1) + [odd])
        yield settings(d, WORD, 1, 2, 1, max(1, n // 2)) + points(d, [0.0, -0.0] * (n * d // 2) + [0.0] * (n * d % 2))
        # one row fewer goes up than there are, so that some leaves send all their rows
        yield settings(d, WORD, 1, 2, 1, n - 1) + some_points(d, n)
        yield settings(d, 1, 1, 2, 1, n - 1) + some_points(d, n)
        # fewer rows than leaves
        yield settings(d, 1, 2, n, 1, 1) + some_points(d, n)
    for _ in range(24):
        # few of many rows are sent, or nearly all; with 16 neighbours every row of the others is borrowed
        d, n, kind = rng.randint(1, 3), rng.randint(6, 12), rng.randint(0, 3)
        number = rng.choice([2, 3, n // 2, n - 2, n - 1])
        yield settings(d, rng.choice([n, n, 4]), rng.choice([1, 16]), n, 1, number) + b"".join(
            point([value(rng, kind) for _ in range(d)]) for _ in range(n))


def depths():
    """Leaves at one depth, and at two next to each other; the deepest ones, of leaf threshold 1; levels with other depths; and the coarse
    level alone."""
    for leaf in (1, 2, 3, 4):
        # half of so many rows is just below twice the threshold, or reaches it; and so is a quarter
        for n in (4 * leaf - 2, 4 * leaf - 1, 4 * leaf, 4 * leaf + 1, 8 * leaf - 5, 8 * leaf - 1):
            yield settings(1, leaf, 0, n, 1, 1) + some_points(1, n)
    for d in (2, 3):
        for leaf, n in ((1, 3), (1, 5), (1, 7), (2, 7), (2, 15), (3, 11), (3, 13), (4, 15)):
            yield settings(d, leaf, 1, 2, 1, n - 1) + some_points(d, n)
    for leaf, n, number in ((1, 31, 4), (1, 21, 3), (3, 27, 5), (3, 21, 3), (5, 32, 4)):
        yield settings(1, leaf, 0, 2, 1, number) + points(1, [5] * n)
    for d, n in ((1, 1), (2, 1), (3, 1), (1, 5), (2, 4), (3, 7)):
        yield settings(d, 1, 2, 2, 1, n) + some_points(d, n)
        yield settings(d, 1, 2, 2, 0, 0) + some_points(d, n)


def value(rng, kind):
    if kind == 0:
        return bits(float(rng.randint(0, 3)))
    if kind == 1:
        return bits(float(rng.randint(-9, 9)))
    if kind == 2:
        return bits(rng.uniform(-1, 1))
    if kind == 3:
        return bits(rng.uniform(-1, 1) * 2.0 ** rng.randint(-1074, 1000))
    return rng.getrandbits(52) | (rng.randint(0, 2046) << 52) | (rng.getrandbits(1) << 63)


def tree(rng, most):
    d, n, kind = rng.randint(1, 3), rng.randint(1, most), rng.randint(0, 4)
    factor = rng.choice([2, 2, 3, 4, 7, WORD])
    least = -(-n // factor ** 3)
    policy, number = rng.choice([(1, rng.randint(least, max(least, n + 1))), (1, least), (1, max(least, n // 2)), (0, 0)])
    leaf = rng.choice([1, 1, 2, 3, 4, 8, n, WORD])
    return settings(d, leaf, rng.choice([0, 1, 2, 3, 5, 8, 16]), factor, policy, number) + b"".join(
        point([value(rng, kind) for _ in range(d)]) for _ in range(n))


def trees(rng, count, most):
    for _ in range(count):
        yield tree(rng, most)


def flipped(rng, count):
    """Trees with one byte changed, and with bytes left out or put in."""
    for _ in range(count):
        stream = bytearray(tree(rng, 6))
        at = rng.randrange(len(stream))
        kind = rng.randint(0, 2)
        if kind == 0:
            stream[at] = rng.randrange(256)
        elif kind == 1:
            del stream[at]
        else:
            stream.insert(at, rng.randrange(256))
        yield bytes(stream)


def garbage(rng):
    for _ in range(60):
        yield bytes(rng.randrange(256) for _ in range(rng.randint(0, 60)))
        yield b"ST" + bytes(rng.randrange(3) for _ in range(rng.randint(0, 60)))


def all_streams():
    rng = random.Random(20261009)
    groups = [document(), cut_at_each_byte(), wrong_marks(), policies(), dimensions(), point_counts(), neighbour_counts(),
              refusals(), thresholds(), not_finite(), edge_values(rng), duplicates(rng), trees(rng, 330, 10),
              trees(rng, 40, 32), flipped(rng, 300), garbage(rng), nested(), covers(rng), depths()]
    seen = set()
    for group in groups:
        for stream in group:
            if stream not in seen:
                seen.add(stream)
                yield stream


def main():
    out, answers = bytearray(), collections.Counter()
    for stream in all_streams():
        answer = model.printout(stream).encode()
        answers[int(answer.split()[1]) if answer.startswith(b"refused") else 0] += 1
        out += struct.pack("<HH", len(stream), len(answer)) + stream + answer
    assert len(out) <= MOST_BYTES
    with open(PATH, "wb") as f:
        f.write(out)
    print("%d streams, %d bytes" % (sum(answers.values()), len(out)))
    print("refusals (0: a tree):", ", ".join("%d: %d" % kv for kv in sorted(answers.items())))


if __name__ == "__main__":
    main()
