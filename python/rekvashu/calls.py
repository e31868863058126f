"""The public calls: each lends the lists that the library asks for, calls it, and reads what it wrote."""
import ctypes
import functools
import numbers
import reprlib
from collections import namedtuple

from . import layout, library, settings
from .coordinates import coordinates
from .lent import Lent
from .refusals import Refusal
from .settings import size, uint32
from .tree import Packed, Tree

NO_ROOM = 11
KINDS = {"boxes": ctypes.c_double, "floats": ctypes.c_double, "planes": ctypes.c_double}


Sample = namedtuple("Sample", "rows cover")
Sample.__doc__ = """A sample: its rows in the order in which they were taken, and its cover.

The cover is how far the worst row that was not taken is from the nearest one that was: 0.0 where all were taken."""


def slot(entries):
    return (ctypes.c_size_t * entries)()


def float_slot(entries):
    return (ctypes.c_double * entries)()


def passed(number, place=0):
    """Nothing for 0, and a Refusal for any other number."""
    if number:
        raise Refusal(number, place)


def build_sizes(rows, dimension, neighbours):
    """The lengths of a build's lists, by name."""
    result = slot(layout.SIZES_SLOT)
    passed(library.load().ddm_build_sizes(size("rows", rows), size("dimension", dimension), uint32("neighbours", neighbours), result, len(result)))
    return dict(zip(layout.LISTS, result))


def lent_of(lists, names):
    """The lists as the library takes them: pointer, length."""
    return [x for name in names for x in (lists[name].c, lists[name].entries)]


def lists_of(lengths, names=layout.LISTS):
    return {name: Lent(KINDS.get(name, ctypes.c_size_t), lengths.get(name, 0)) for name in names}


def build_into(name, given, params, lists):
    """One call of the build of this name with these lists: (refusal number, slot)."""
    result, build = slot(layout.BUILD_SLOT), getattr(library.load(), name)
    number = build(given.c, given.length, given.dimension, *params, *lent_of(lists, layout.LISTS), result, len(result))
    return number, result


# The builds over points.
ENGINES = {"queue": "ddm_build", "depth-first": "ddm_build_depth_first"}


def engine_of(name):
    """The build of this name, as a function like those that `tree_by` takes."""
    if not isinstance(name, str):
        raise TypeError(f"engine is {reprlib.repr(name)}, and has to be 'queue' or 'depth-first'")
    if name not in ENGINES:
        raise ValueError(f"engine is {name!r}, and has to be 'queue' or 'depth-first'")
    return functools.partial(build_into, ENGINES[name])


def load_into(data):
    """One call of the loader with these bytes, as a function like those that `tree_by` takes."""
    def call(given, params, lists):
        result = slot(layout.BUILD_SLOT)
        number = library.load().ddm_load(given.c, given.length, given.dimension, *params, data, len(data),
                                         *lent_of(lists, layout.TREE_LISTS), result, len(result))
        return number, result
    return call


def params_of(leaf, neighbours, factor, coarse):
    return [uint32("leaf", leaf), uint32("neighbours", neighbours), uint32("factor", factor), *settings.policy_of(coarse)]


def tree_by(call, names, given, params, neighbours):
    """The tree that a call writes to the lists of these names, which are lent at the stated lengths. call: a function of points, settings and
    lists that gives a refusal's number and the slot."""
    # Settings and counts are judged before the lists: a call that lends none costs nothing, and 11 says that only they were missing.
    number, result = call(given, params, lists_of({}, names))
    if number != NO_ROOM:
        passed(number, result[layout.SLOT_PLACE])
    lists = lists_of(build_sizes(given.rows, given.dimension, neighbours), names)
    number, result = call(given, params, lists)
    passed(number, result[layout.SLOT_PLACE])
    return Tree(Packed(given.dimension, lists, result), lambda packed: stored(given, params, packed))


def stored(given, params, packed):
    """The bytes of the file of a tree over these points."""
    entries = layout.file_bytes(given.dimension, given.rows, packed.slot, len(packed.borrowed))
    file, result = ctypes.create_string_buffer(entries), slot(layout.STORE_SLOT)
    number = library.load().ddm_store(given.c, given.length, given.dimension, *params, packed.slot, len(packed.slot),
                                      *lent_of(packed.lent, layout.TREE_LISTS), file, entries, result, len(result))
    passed(number, result[layout.STORE_PLACE])
    return file.raw[:result[layout.STORE_BYTES]]


def build(points, leaf=settings.LEAF, neighbours=settings.NEIGHBOURS, factor=settings.FACTOR, coarse=settings.COARSE, *,
          dimension=None, engine="queue"):
    """The tree over the points.

    points: rows of one to three numbers (a list of lists, an array), or numbers alone for one axis. With `dimension`, a flat list
    of coordinates, that many for each row. coarse: "auto" or a whole number. engine: "queue" or "depth-first"; both give the same tree,
    which keeps the record of its cuts (`Level.cuts`). A Refusal says what the library refused."""
    call = engine_of(engine)
    given = coordinates(points, dimension)
    return tree_by(call, layout.LISTS, given, params_of(leaf, neighbours, factor, coarse), neighbours)


def load(points, data, leaf=settings.LEAF, neighbours=settings.NEIGHBOURS, factor=settings.FACTOR, coarse=settings.COARSE, *,
         dimension=None):
    """The tree that `Tree.to_bytes` gave as these bytes, for the points and settings that it was built for; others are refused. A file
    holds no record of the cuts."""
    if not isinstance(data, (bytes, bytearray, memoryview)):
        raise TypeError(f"the stored tree is {type(data).__name__}, and has to be bytes")
    given = coordinates(points, dimension)
    return tree_by(load_into(bytes(data)), layout.TREE_LISTS, given, params_of(leaf, neighbours, factor, coarse), neighbours)


def sample(points, wanted, seed, *, dimension=None):
    """Farthest point sampling: `wanted` rows of the points, from the row `seed` on, and how far that leaves the others (`Sample`)."""
    given, wanted, seed = coordinates(points, dimension), size("wanted", wanted), size("seed", seed)
    rows = min(given.rows, settings.MOST_POINTS)
    floats, wholes = layout.sample_room(rows)
    out, floats, wholes = Lent(ctypes.c_size_t, min(wanted, rows)), Lent(ctypes.c_double, floats), Lent(ctypes.c_size_t, wholes)
    cover, result = float_slot(layout.COVER_SLOT), slot(layout.SAMPLE_SLOT)
    number = library.load().ddm_sample(given.c, given.length, given.dimension, wanted, seed, out.c, out.entries, floats.c, floats.entries,
                                       wholes.c, wholes.entries, cover, len(cover), result, len(result))
    passed(number, result[layout.SAMPLE_PLACE])
    return Sample(out.cut(result[layout.SAMPLE_WRITTEN])[:], cover[0])


def level_size(active, threshold, reductions):
    """The size of the next level, of this many active rows at the threshold with so many reductions left."""
    result = slot(layout.LEVEL_SIZE_SLOT)
    passed(library.load().ddm_level_size(size("active", active), uint32("threshold", threshold), uint32("reductions", reductions), result,
                                 len(result)))
    return result[0]


def quotas(sizes, wanted):
    """How many wells each leaf sends up, of leaves of these sizes, for so many wanted in all."""
    given = [size(f"sizes[{i}]", x) for i, x in enumerate(sizes)]
    lent, out, wholes = slot(max(1, len(given))), Lent(ctypes.c_size_t, len(given)), Lent(ctypes.c_size_t, len(given))
    lent[:len(given)] = given
    result = slot(layout.QUOTA_SLOT)
    passed(library.load().ddm_quotas(lent, len(given), size("wanted", wanted), out.c, out.entries, wholes.c, wholes.entries, result,
                             len(result)))
    return out.cut(result[layout.QUOTA_WRITTEN])[:]


def square_root(x):
    """The square root, rounded to the nearest value."""
    if isinstance(x, bool) or not isinstance(x, numbers.Real):
        raise TypeError(f"{x!r} is no number")
    try:
        x = float(x)
    except OverflowError:
        raise ValueError("the number is outside the range of a 64-bit float") from None
    result = float_slot(layout.ROOT_SLOT)
    passed(library.load().ddm_square_root(x, result, len(result)))
    return result[0]


def row_test(start, count, length):
    """Refuses (12) a stretch whose start plus count ends past a list of this length."""
    passed(library.load().ddm_row_test(size("start", start), size("count", count), size("length", length)))


def library_version():
    """The loaded library's version: major * 10000 + minor * 100 + patch."""
    return library.load().ddm_version()
