#!/usr/bin/env python3
"""Writes samples/field_5000.csv: 5,000 wells along a made-up river with two side valleys, the same at each run (fixed seed).

    python3 samples/make_field_5000.py
    python3 tools/field.py samples/field_5000.csv -o samples/field_5000
"""
import math
import os
import random

WELLS, SEED = 5000, 20260
HERE = os.path.dirname(os.path.abspath(__file__))


def near(r, line, wide):
    """A place near a line of points, most often close to it."""
    (x0, y0), (x1, y1) = r.choice(list(zip(line, line[1:])))
    t = r.random()
    return x0 + t * (x1 - x0) + r.gauss(0, wide), y0 + t * (y1 - y0) + r.gauss(0, wide)


def river(t):
    return 20000 * t, 6000 + 2500 * math.sin(5 * t) + 1500 * t


def wells(r):
    main = [river(i / 40) for i in range(41)]
    north = [(main[12][0] + 180 * i, main[12][1] + 260 * i) for i in range(21)]
    south = [(main[26][0] + 150 * i, main[26][1] - 230 * i) for i in range(19)]
    for _ in range(WELLS):
        kind = r.random()
        if kind < 0.55:
            yield near(r, main, 450)
        elif kind < 0.7:
            yield near(r, north, 220)
        elif kind < 0.85:
            yield near(r, south, 220)
        else:
            yield r.uniform(0, 20000), r.uniform(0, 14000)


def table():
    """The table as text."""
    lines = ["# 5,000 wells along a made-up river, by samples/make_field_5000.py.", "leaf,64", "neighbours,16", "factor,8", "coarse,200",
             "well,x,y"]
    lines += [f"P{i:04d},{x:.1f},{y:.1f}" for i, (x, y) in enumerate(wells(random.Random(SEED)), 1)]
    return "\n".join(lines) + "\n"


if __name__ == "__main__":
    with open(os.path.join(HERE, "field_5000.csv"), "w", encoding="utf-8", newline="\n") as f:
        f.write(table())
