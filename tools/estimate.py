"""How long a build will take, from figures of one machine (docs/PERFORMANCE.md). Nearly all of the time goes to the search for each well's
neighbours, which looks at the wells of the leaves that the ball about them meets. Here wells are taken to lie evenly."""
import math

LONG = 5.0              # seconds: a build that takes longer is announced

WELL = 3e-6             # seconds for a well of a level, beside what follows
NEIGHBOUR = 0.25e-6     # for each neighbour that it has
LOOKED_AT = 1.5e-8      # for each well that is looked at for it

BALL = {1: 2.0, 2: math.pi, 3: 4 / 3 * math.pi}   # what a ball of radius 1 holds, by dimension


def leaf_size(size, leaf):
    """The wells of a leaf, in a level of this size: it is cut once, and halves of at least the threshold once more."""
    half = size / 2
    while half >= max(1, leaf):
        half /= 2
    return half


def looked_at(size, dimension, leaf, neighbours):
    """The wells of the leaves that a ball meets which holds so many neighbours."""
    wells = leaf_size(size, leaf)
    radius = (neighbours / (BALL[dimension] * wells)) ** (1 / dimension)   # where a leaf is 1 wide
    return min(size, wells * (1 + 2 * radius) ** dimension)


def seconds(sizes, dimension, leaf, neighbours):
    """The time of a build whose levels have these sizes; the coarse level costs nothing."""
    return sum(size * (WELL + NEIGHBOUR * neighbours + LOOKED_AT * looked_at(size, dimension, leaf, neighbours)) for size in sizes[:-1])


def spelt(time):
    """A time in words."""
    if time < 90:
        return f"{max(1, round(time))} s"
    if time < 5400:
        return f"{round(time / 60)} min"
    return f"{time / 3600:.1f} h"
