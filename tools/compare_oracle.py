#!/usr/bin/env python3
"""compare_oracle.py ORACLE TIES DRIVER.. [--jobs N] [--seed S]: the library against the Rust's own text, on random jobs.

ORACLE and each DRIVER read a batch of jobs on standard input and print the trees (c/batch.c, rust/examples/batch.rs). ORACLE is the
Rust built against stand-ins for the crates that can't be had; it is not part of this repository. Jobs cover dimensions 1 to 3, up to
5,000 points, lattices, duplicates, signed zeros, subnormals and 1e308. Two kinds of jobs are outside the comparison, and are counted:
those on which the Rust's floating level size is not document 01's exact one (both are computed here), and those of which a neighbour
cut falls on a tie (TIES says which, rust/examples/ties.rs). The Rust holds no covers and no depths, so those that a DRIVER
prints are left out."""
import argparse
import collections
import math
import random
import re
import struct
import subprocess
import sys

import model

KINDS = ("smooth", "lattice", "edges of the format", "subnormal", "magnitudes", "one decimal place", "nested")
NESTED = KINDS.index("nested")
FLOATING, CLEAR, TIE, TIE_AT_ZERO = "floating level size", "clear", "tie", "tie at zero"
COVER_AND_DEPTH = re.compile(r" cover [0-9a-f]{16} depth \d+$", re.MULTILINE)
LOT = 2000

Job = collections.namedtuple("Job", "kind cs d leaf neighbours factor c")


# ---- jobs

def coordinate(r, kind):
    return {
        0: lambda: r.uniform(-1000.0, 1000.0),
        1: lambda: float(r.randint(0, 6)),
        2: lambda: r.choice([0.0, -0.0, 1.0, 5e-324, -5e-324, 1e308, -1e308, 2.2250738585072014e-308]),
        3: lambda: r.random() * 1e-310,
        4: lambda: r.gauss(0, 1) * 10.0 ** r.randint(-20, 20),
        5: lambda: round(r.uniform(0, 20), 1),
    }[kind]()


def nested(r, n, d):
    """Smooth places with as many rows each, about n in all, and a neighbour count that parts no place's rows from each other."""
    each = r.randint(2, 4)
    places = [[coordinate(r, 0) for _ in range(d)] for _ in range(max(1, n // each))] * each
    r.shuffle(places)
    return [x for place in places for x in place], each * r.randint(1, 16 // each) - 1


def job(r, n):
    d, kind = r.randint(1, 3), r.randrange(len(KINDS))
    if kind == NESTED:
        cs, neighbours = nested(r, n, d)
    else:
        # with 64 neighbours no cut of up to 65 rows leaves one out
        cs, neighbours = [coordinate(r, kind) for _ in range(n * d)], r.choice([r.randint(0, 16)] * 3 + [64])
    n = len(cs) // d
    while True:
        f, c = r.randint(2, 9), r.randint(1, max(1, n // 2))
        if c * f ** 3 >= n:
            return Job(kind, cs, d, r.randint(1, 40), neighbours, f, c)


def any_job(r):
    t = r.random()
    return job(r, r.randint(1, 60) if t < 0.9 else r.randint(61, 600) if t < 0.995 else r.randint(601, 5000))


def has_duplicates(j):
    places = [tuple(j.cs[i:i + j.d]) for i in range(0, len(j.cs), j.d)]
    return len(set(places)) < len(places)


def stream(j):
    points = b"".join(b"PT" + struct.pack("<%dd" % j.d, *j.cs[i:i + j.d]) for i in range(0, len(j.cs), j.d))
    return b"ST" + bytes([j.d]) + struct.pack("<IIIBI", j.leaf, j.neighbours, j.factor, 1, j.c) + points


def answer(command, jobs):
    """What a program prints for a batch of these jobs."""
    batch = struct.pack("<I", len(jobs)) + b"".join(struct.pack("<I", len(s)) + s for s in map(stream, jobs))
    return subprocess.run(command, input=batch, stdout=subprocess.PIPE, check=True).stdout.decode("ascii")


# ---- what is compared

def floating_size(a, c, r):
    return max(1, min(a - 1, math.ceil(a * (c / a) ** (1.0 / r))))


def exact_sizes(j):
    """Whether the floating level sizes are the exact ones on the way down."""
    a, built = len(j.cs) // j.d, 0
    k = model.reductions(a, j.c, j.factor)
    while a > j.c:
        r = max(1, k - built)
        size = model.level_size(a, j.c, r)
        if size != floating_size(a, j.c, r):
            return False
        a, built = size, built + 1
    return True


def verdicts(ties, jobs):
    """Why each job is left out, or that it is clear."""
    exact = [exact_sizes(j) for j in jobs]
    said = iter(answer([ties], [j for j, sizes in zip(jobs, exact) if sizes]).split("\n"))
    return [next(said) if sizes else FLOATING for sizes in exact]


def clear_jobs(r, ties, wanted):
    """The first so many jobs that are compared, and how many before the last of them have each verdict."""
    kept, count = [], collections.Counter()
    while len(kept) < wanted:
        lot = [any_job(r) for _ in range(LOT)]
        for j, verdict in zip(lot, verdicts(ties, lot)):
            if len(kept) == wanted:
                break
            count[verdict] += 1
            if verdict == CLEAR:
                kept.append(j)
    return kept, count


def trees(command, jobs):
    """The printouts of the jobs, without their covers and depths."""
    return [COVER_AND_DEPTH.sub("", part.split("\n", 1)[1]) for part in answer(command, jobs).split("=== ")[1:]]


def main(argv):
    parser = argparse.ArgumentParser()
    parser.add_argument("oracle")
    parser.add_argument("ties")
    parser.add_argument("drivers", nargs="+")
    parser.add_argument("--jobs", type=int, default=12000)
    parser.add_argument("--seed", type=int, default=1)
    args = parser.parse_args(argv)
    jobs, count = clear_jobs(random.Random(args.seed), args.ties, args.jobs)
    kinds = collections.Counter(KINDS[j.kind] for j in jobs)
    print(f"{len(jobs)} jobs, {sum(map(has_duplicates, jobs))} with two rows at one place:", ", ".join(f"{k} {kinds[k]}" for k in KINDS))
    print(f"left out: {count[FLOATING]} by the floating level size; {count[TIE] + count[TIE_AT_ZERO]} by a tie at a neighbour cut, "
          f"{count[TIE_AT_ZERO]} of them at distance zero")
    expected = trees([args.oracle, "batch"], jobs)
    status = 0
    for driver in args.drivers:
        got = trees([driver], jobs)
        differ = [i for i, (a, b) in enumerate(zip(expected, got)) if a != b]
        print(f"{driver}: {len(got)} jobs, {len(differ)} differ")
        for i in differ[:3]:
            j = jobs[i]
            print("job", i, KINDS[j.kind], j[2:], "points", len(j.cs) // j.d)
        status |= bool(differ) or len(got) != len(expected)
    return status


if __name__ == "__main__":
    sys.exit(main(sys.argv[1:]))
