#!/usr/bin/env python3
"""Writes crates/run_table_calls/data/calls: calls of add, retire, close and the build over slots, each with its complete outcome.

Run from the project's root; it takes no input, and each run writes the same file. The answers come from tools/table_model.py, which
follows document 02 in plain Python and shares nothing with the Rattle code.

A record: its length after these 4 bytes; a kind, 1 add, 2 retire, 3 build or 4 close; the 18 settings bytes (an edit uses the dimension
alone); the coordinates; the flags; slot count and live count; then
  edit: the point to add, the slot to retire, or the rename list that closing is lent and the same list after it; number, place, slot (of
    closing the new slot count); slot count and live count after it; the coordinates after it; the flags after it
  build: the lengths of the nine lists; number, place, levels, four row counts, four domain counts; the fronts of the five lists of the tree
    and of the two of its records
Numbers have 4 bytes but for kind, dimension, policy and refusal number (1), slot and live counts, the slot to retire, entries of the lists
and floats' bits (8), all little-endian; lists and fronts have their count before them, and a flag is one byte. Before a build each list
holds 9 (the float 9); what the outcome does not name stays so. A float that is not a number is given by any of its patterns, and stands
after a call as 0x7ff8000000000000, since all of them are one value. Flag lists of more than 1,048,576 entries are in c/table.c.
"""
import collections
import itertools
import random
import struct

import model
import stored_model
import table_model
from table_model import Table

PATH = "crates/run_table_calls/data/calls"
STDOUT = "crates/run_table_calls/stdout"
MOST_BYTES = 820_000
# The room of crates/run_table_calls.
MOST_FLAGS, MOST_COORDINATES, MOST_POINT, MOST_LIVE, MOST_NEIGHBOURS, MOST_BORROWED, MOST_RENAME = 40, 130, 5, 16, 3, 400, 44
LISTS = stored_model.LISTS + ("floats", "wholes")
RECORDS = ("cuts", "planes")
LENT = LISTS + RECORDS
LONG = 2 ** 64 - 1
SIGN = 1 << 63
INFINITY = 0x7FF0000000000000
NAN = INFINITY + (1 << 51)
NANS = [NAN, INFINITY + 1, SIGN + NAN, LONG]
ODD = NANS + [INFINITY, SIGN + INFINITY]

# A table as lists of numbers: flags, the coordinates' bits, and the head.
Wells = collections.namedtuple("Wells", "flags coordinates slots live")
Add = collections.namedtuple("Add", "d wells point")
Retire = collections.namedtuple("Retire", "d wells slot")
# rename: the list as it is lent.
Close = collections.namedtuple("Close", "d wells rename")
# lent: the lists' lengths by name.
Build = collections.namedtuple("Build", "settings wells lent")


# ---- records

def counted(values, form):
    return struct.pack("<I%d%s" % (len(values), form), len(values), *values)


def table_of(wells):
    return Table(list(wells.flags), stored_model.floats_of(wells.coordinates), wells.slots, wells.live)


def bits_after(floats):
    return [NAN if x != x else bits for x, bits in zip(floats, stored_model.bits_of(floats))]


def wells_of(table):
    return Wells(list(table.flags), bits_after(table.coordinates), table.slots, table.live)


def head(kind, settings, wells):
    assert len(wells.flags) <= MOST_FLAGS and len(wells.coordinates) <= MOST_COORDINATES
    return (struct.pack("<B", kind) + stored_model.settings_bytes(settings) + counted(wells.coordinates, "Q") + counted(wells.flags, "B")
            + struct.pack("<2Q", wells.slots, wells.live))


def edited(call):
    """Number, place, slot, and the table after an edit."""
    table = table_of(call.wells)
    try:
        if isinstance(call, Add):
            return 0, 0, table_model.add(table, call.d, stored_model.floats_of(call.point)), table
        table_model.retire(table, call.d, call.slot)
        return 0, 0, 0, table
    except model.Refused as r:
        return r.number, r.place, 0, table


def closed(call):
    """Number, place, slot count, the table after closing, and the rename list."""
    table, rename = table_of(call.wells), list(call.rename)
    try:
        return 0, 0, table_model.close(table, call.d, rename), table, rename
    except model.Refused as r:
        return r.number, r.place, 0, table, rename


def outcome(number, place, value, table):
    """The end of an edit's record."""
    after = wells_of(table)
    return (struct.pack("<BIIQQ", number, place, value, after.slots, after.live) + counted(after.coordinates, "Q")
            + counted(after.flags, "B"))


def edit_record(call):
    adds = isinstance(call, Add)
    assert not adds or len(call.point) <= MOST_POINT
    number, *rest = edited(call)
    out = [head(1 if adds else 2, (call.d, 0, 0, 0, 0, 0), call.wells), counted(call.point, "Q") if adds else struct.pack("<Q", call.slot),
           outcome(number, *rest)]
    return number, b"".join(out)


def close_record(call):
    assert len(call.rename) <= MOST_RENAME
    number, place, slots, table, rename = closed(call)
    return number, (head(4, (call.d, 0, 0, 0, 0, 0), call.wells) + counted(call.rename, "Q") + counted(rename, "Q")
                    + outcome(number, place, slots, table))


def bits_of_levels(d, levels):
    """The levels as tools/stored_model.py has a tree."""
    return [(rows, [(own, borrowed, [0] * stored_model.box_floats(d) if box is None else stored_model.bits_of(box[0] + box[1]),
                     stored_model.bits_of([cover])[0], depth) for own, borrowed, box, cover, depth in leaves]) for rows, leaves in levels]


def nodes_written(planes):
    """The nodes in lists that held 9: the last one is a leaf, whose float is 0."""
    return max((at + 1 for at, plane in enumerate(planes) if plane != 9), default=0)


def build_record(call):
    room = {**table_model.stated(3, MOST_LIVE, MOST_NEIGHBOURS), "borrowed": MOST_BORROWED}
    assert all(call.lent[name] <= room[name] for name in LENT)
    number, place, counts, fronts = 0, 0, stored_model.ZERO_COUNTS, {name: [] for name in stored_model.LISTS + RECORDS}
    cuts, planes = [9] * call.lent["cuts"], [9.0] * call.lent["planes"]
    try:
        levels = table_model.build(table_of(call.wells), *call.settings, lent=call.lent, records=(cuts, planes))
        tree = bits_of_levels(call.settings[0], levels)
        counts, fronts = stored_model.counts(tree), stored_model.packed(tree)
    except model.Refused as r:
        number, place = r.number, r.place
    many = nodes_written(planes)
    fronts["cuts"], fronts["planes"] = cuts[:many], stored_model.bits_of(planes[:many])
    out = [head(3, call.settings, call.wells), struct.pack("<9I", *(call.lent[name] for name in LENT)),
           struct.pack("<BI9I", number, place, counts[0], *counts[1], *counts[2])]
    out += [counted(fronts[name], "Q") for name in stored_model.LISTS + RECORDS]
    return number, b"".join(out)


def recorded(call):
    """A call's kind, its refusal number, and its record."""
    number, body = {Build: build_record, Close: close_record}.get(type(call), edit_record)(call)
    return type(call).__name__.lower(), number, body


# ---- tables

def coordinate(rng):
    """A finite one; now and then the same as another, or a zero with its sign."""
    return stored_model.bits_of([rng.choice((float(rng.randint(-4, 4)), rng.uniform(-9, 9), -0.0))])[0]


def point_of(rng, d):
    return [coordinate(rng) for _ in range(d)]


def wells_with(rng, d, flags, slots, longer=0):
    """A sound table with these flags: finite coordinates in live slots, and anything elsewhere."""
    live = [i for i in range(slots) if flags[i]]
    cs = [coordinate(rng) if i // d in live else rng.choice(ODD + [rng.randrange(LONG)]) for i in range(len(flags) * d + longer)]
    return Wells(list(flags), cs, slots, len(live))


def some_flags(rng, capacity, slots, gaps=0.4):
    """Any flags at or above the slot count."""
    return [0 if i < slots and rng.random() < gaps else rng.choice((0, 1, 2, 255)) if i >= slots else rng.choice((1, 1, 2, 255))
            for i in range(capacity)]


def some_wells(rng, d, most, longer=True):
    capacity = rng.randint(0, most)
    slots = rng.randint(0, capacity)
    return wells_with(rng, d, some_flags(rng, capacity, slots), slots, rng.choice((0, 0, 1, 4)) if longer else 0)


def with_coordinate(wells, at, bits):
    return wells._replace(coordinates=wells.coordinates[:at] + [bits] + wells.coordinates[at + 1:])


def shorter(wells, by=1):
    return wells._replace(coordinates=wells.coordinates[:max(0, len(wells.coordinates) - by)])


def unsound(wells):
    """The table with heads that 27 refuses."""
    yield wells._replace(slots=len(wells.flags) + 1)
    yield wells._replace(live=wells.live + 1)
    yield wells._replace(live=wells.live - 1 if wells.live else LONG)


def far_off(wells):
    """Heads that are far off, and one whose live count takes in a flag above the slot count."""
    for slots, live in ((LONG, wells.live), (1 << 63, LONG), (wells.slots, LONG), (wells.slots, wells.live + (1 << 32)), (LONG, LONG), (0, wells.live + 1)):
        yield wells._replace(slots=slots, live=live)
    yield wells._replace(live=sum(1 for flag in wells.flags if flag))
    yield wells._replace(live=sum(1 for flag in wells.flags if flag == 1))


# ---- edits

def flag_patterns(rng):
    """Every choice of live and retired slots in a table of at most four, with any flags above the slot count: an add, and the retirement of
    each slot and of two that were never given out."""
    for slots in range(5):
        for pattern in itertools.product((0, 1), repeat=slots):
            flags = [live and rng.choice((1, 2, 255)) for live in pattern] + [rng.choice((1, 2, 255)) for _ in range(rng.choice((4, 4, 5)) - slots)]
            d = rng.randint(1, 2)
            wells = wells_with(rng, d, flags, slots)
            yield Add(d, wells, point_of(rng, d))
            for slot in {rng.randrange(slots + 1), slots, 5}:
                yield Retire(d, wells, slot)


def capacities_of_none(rng):
    for d in (0, 1, 2, 3, 4):
        for longer in (0, 3):
            for slots, live in ((0, 0), (1, 0), (0, 1), (LONG, LONG)):
                wells = Wells([], [rng.choice(ODD) for _ in range(longer)], slots, live)
                yield Add(d, wells, point_of(rng, min(d, 3)))
                yield Retire(d, wells, 0)
                yield Build((d, 1, 0, 2, 1, 1), wells, lengths(d, 0, 0))


def add_conditions(rng):
    """Every choice of the conditions that an add is refused under."""
    for d, short, off, long, odd, full in itertools.product((1, 2, 3, 0, 4), *[(False, True)] * 5):
        size = d if 1 <= d <= 3 else 1
        wells = wells_with(rng, size, [1, rng.choice((1, 2, 255))] if full else [rng.choice((1, 255)), 0], 2)
        if short:
            wells = shorter(wells)
        if off:
            wells = rng.choice(list(unsound(wells)))
        point = point_of(rng, size + (rng.choice((-1, 1)) if long and size > 1 else long))
        if odd:
            point[rng.randrange(len(point))] = rng.choice(ODD)
        yield Add(d, wells, point)


def odd_points(rng):
    """Each kind of odd float at each place of a point, alone and with one behind it, in tables with room and in full ones; and points of
    wrong lengths."""
    for d in (1, 2, 3):
        for wells in (wells_with(rng, d, [1, 0], 2), wells_with(rng, d, [1, 1], 2)):
            for at, bits in itertools.product(range(d), ODD):
                point = point_of(rng, d)
                point[at] = bits
                yield Add(d, wells, point)
                if at + 1 < d:
                    yield Add(d, wells, point[:d - 1] + [NAN])
            for size in range(6):
                yield Add(d, wells, point_of(rng, size))
        for bits in (0, SIGN, 1, SIGN + 1, INFINITY - 1, SIGN + INFINITY - 1):
            yield Add(d, wells_with(rng, d, [255, 0, 1], 2), [bits] * d)


def retire_conditions(rng):
    """Every choice of the conditions that a retirement is refused under."""
    for d, short, head_of in itertools.product((1, 2, 3, 0, 4, 255), (False, True), (0, 1, 2, 3)):
        wells = wells_with(rng, d if d <= 3 else 1, [rng.choice((1, 2, 255)), 0, rng.choice((1, 255))], 2)
        wells = shorter(wells) if short else wells
        if head_of:
            wells = list(unsound(wells))[head_of - 1]
        slots = (0, 1, 2, 3, 1 << 32, LONG) if head_of == 0 and not short else (0, 1, 2)
        for slot in slots:
            yield Retire(d, wells, slot)


def odd_heads(rng):
    for d, flags, slots in ((1, [1, 2, 255], 3), (2, [0, 2, 1, 1], 2), (3, [2, 2], 2), (1, [0, 0, 9], 2)):
        for wells in far_off(wells_with(rng, d, flags, slots)):
            yield Add(d, wells, point_of(rng, d))
            yield Retire(d, wells, 0)
            yield Build((d, 1, 1, 2, 1, 3), wells, lengths(d, 4, 1))


def dimensions(rng):
    """Dimensions out of range, and tables lent with another dimension than they were kept with."""
    for d in (0, 4, 5, 64, 255):
        for wells in (some_wells(rng, 3, 3), Wells([], [], 0, 0)):
            yield Add(d, wells, point_of(rng, min(d, 5)))
            yield Retire(d, wells, 0)
    for d in (0, 4, 5):
        wells = wells_with(rng, max(d, 1), [1, 0], 2)
        yield Add(d, wells, point_of(rng, d))
        yield Add(d, wells, (point_of(rng, d) + [NAN])[-d:])
        yield Retire(d, wells, 0)
    for kept, d in itertools.product((1, 2, 3), repeat=2):
        wells = wells_with(rng, kept, [1, 0, 1], 3)
        yield Add(d, wells, point_of(rng, d))
        yield Retire(d, wells, 2)
        yield Build((d, 1, 1, 2, 1, 1), wells, lengths(d, 2, 1))


def short_and_long(rng):
    """Coordinates that are short by each count, exact, and longer."""
    for d in (1, 2, 3):
        flags = [1, 0, 0]
        for by in range(-4, 3 * d + 1):
            wells = wells_with(rng, d, flags, 2, max(0, -by))
            wells = shorter(wells, max(0, by))
            yield Add(d, wells, point_of(rng, d))
            yield Retire(d, wells, 0)
            yield Build((d, 1, 0, 2, 1, 1), wells, lengths(d, 1, 0))


def sequences(rng):
    """Random edits, each on the table as the call before left it, and a build at the end of each. The lists hold anything at first."""
    for d, capacity in itertools.product((1, 2, 3), (1, 3, 5)):
        table = table_of(wells_with(rng, d, some_flags(rng, capacity, 0), 0, rng.choice((0, 0, 2))))
        for _ in range(6 + 6 * capacity):
            wells = wells_of(table)
            filling = rng.random() < 0.75 if table.live <= capacity // 2 else rng.random() < 0.5
            if filling:
                call = Add(d, wells, point_of(rng, d if rng.random() < 0.95 else rng.randint(0, 4)))
                if rng.random() < 0.05 and call.point:
                    call.point[-1] = rng.choice(ODD)
            else:
                call = Retire(d, wells, rng.choice(table.live_slots()) if table.live and rng.random() < 0.8 else rng.randrange(capacity + 1))
            yield call
            table = edited(call)[3]
        yield Build((d, 1, 1, 2, 1, 3), wells_of(table), lengths(d, table.live, 1))


def large_tables(rng):
    """Tables with room for 40 slots: full, with one retired, and half empty."""
    for d, capacity in ((1, 40), (3, 40), (2, 33)):
        full = wells_with(rng, d, some_flags(rng, capacity, capacity, 0), capacity)
        yield Add(d, full, point_of(rng, d))
        yield Retire(d, full, capacity - 1)
        last = wells_of(edited(Retire(d, full, capacity - 1))[3])
        yield Add(d, last, point_of(rng, d))
    half = wells_with(rng, 3, some_flags(rng, 40, 20), 20, 10)
    yield Add(3, half, point_of(rng, 3))
    yield Retire(3, half, half.flags.index(0))


# ---- builds

def lengths(d, live, neighbours, short=None, by=1, more=0):
    """The stated lengths, `short` naming a list that has `by` entries less, and the others with `more`."""
    wanted = table_model.stated(d if 1 <= d <= 3 else 1, min(live, MOST_LIVE), min(neighbours, 65 if live == 1 else MOST_NEIGHBOURS))
    return {name: max(0, wanted[name] - by) if name == short else wanted[name] + more for name in LENT}


# The refusals of the build over slots in their order: 7 and 8 cannot come.
BUILD_ORDER = (27, 1, 2, 3, 4, 5, 6, 9, 11, 10)


def live_flags(conditions):
    """Flags below the slot count: none live for 6, more than a threshold of 1 and a factor of 2 reach for 9, and one for 5, whose lists then
    have room."""
    if 6 in conditions:
        return [0, 0, 0]
    if 9 in conditions:
        return [1, 2, 0, 1, 1, 255, 1, 1, 0, 1, 1, 1]
    return [0, 2, 0] if 5 in conditions else [1, 0, 2, 255]


def build_under(rng, d, conditions):
    """A build that meets these conditions, and no others but those that follow from them: 6 rules 9 and 10 out."""
    flags = live_flags(conditions)
    wells = wells_with(rng, d, flags + [1], len(flags))
    settings = [d, 1, 1, 2, 1, 1 if 9 in conditions else 8]
    for at, number, wrong in ((0, 1, (0, 4, 255)), (1, 2, (0,)), (2, 5, (65, 2 ** 32 - 1)), (3, 3, (0, 1)), (5, 4, (0,))):
        if number in conditions:
            settings[at] = rng.choice(wrong)
    lent = lengths(d, wells.live, settings[2])
    if 10 in conditions and wells.live:
        wells = with_coordinate(wells, rng.choice([i * d + a for i in range(wells.slots) if wells.flags[i] for a in range(d)]), rng.choice(ODD))
    if 11 in conditions:
        name = rng.choice(("domains", "boxes", "coordinates") if wells.live == 0 else LISTS + ("coordinates",))
        wells = shorter(wells) if name == "coordinates" else wells
        lent = lengths(d, wells.live, settings[2], name)
    if 27 in conditions:
        wells = rng.choice(list(unsound(wells))[10 in conditions:])
    return Build(tuple(settings), wells, lent)


def build_conditions(rng):
    """Each condition alone, each pair of them, and each with all that come after it."""
    for d in (1, 2, 3):
        yield build_under(rng, d, ())
        for k, number in enumerate(BUILD_ORDER):
            yield build_under(rng, d, (number,))
            yield build_under(rng, d, BUILD_ORDER[k:])
    for pair in itertools.combinations(BUILD_ORDER, 2):
        for d in (1, rng.choice((2, 3))):
            yield build_under(rng, d, pair)


def short_lists(rng):
    """Each list one entry short, and by many; with a coordinate that is not finite too; and all lists longer than needed."""
    for d, neighbours in ((1, 0), (2, 1), (3, 2)):
        wells = wells_with(rng, d, [1, 0, 1, 0], 3)
        for name, by in itertools.product(LISTS, (1, 1000)):
            yield Build((d, 1, neighbours, 2, 1, 1), wells, lengths(d, 2, neighbours, name, by))
            if by == 1:
                yield Build((d, 1, neighbours, 2, 1, 1), with_coordinate(wells, 0, NAN), lengths(d, 2, neighbours, name))
        yield Build((d, 1, neighbours, 2, 1, 1), wells, lengths(d, 2, neighbours, more=3))
        # one live slot with the most neighbours, and one more
        for many in (64, 65):
            yield Build((d, 1, many, 2, 1, 1), wells_with(rng, d, [0, 0, 2, 0], 3), lengths(d, 1, many))
        # enough for the live slots, and short of what the slot count or the capacity would ask for
        yield Build((d, 2, neighbours, 2, 1, 1), wells_with(rng, d, [0, 0, 1, 0, 1, 0], 6), lengths(d, 2, neighbours))
        yield Build((d, 2, neighbours, 2, 1, 1), wells_with(rng, d, [0, 0, 1, 0, 1, 0], 6), lengths(d, 1, neighbours))


def odd_coordinates(rng):
    """An odd coordinate at each place of a table: refused in live slots, with the place in the lent list, and of no account elsewhere."""
    for d in (1, 2, 3):
        wells = wells_with(rng, d, [0, 1, 0, 255, 2], 4, 2)
        for at in range(len(wells.coordinates)):
            yield Build((d, 1, 1, 2, 1, 1), with_coordinate(wells, at, rng.choice(ODD)), lengths(d, 2, 1))
        for first, second in ((d, 3 * d), (2 * d - 1, 4 * d - 1)):
            yield Build((d, 1, 1, 2, 1, 1), with_coordinate(with_coordinate(wells, second, NAN), first, INFINITY), lengths(d, 2, 1))


def level_rules(rng):
    """Thresholds and factors about the live count, which is below the slot count: one level, or more, or a refusal."""
    for d, live in ((1, 4), (2, 5), (3, 4), (1, 9)):
        flags = [1] * live + [0] * 4
        rng.shuffle(flags)
        flags += [1, 0]
        for threshold, factor in ((1, 2), (2, 2), (1, 3), (live - 1, 2), (live, 2), (live + 1, 2), (live + 4, 3)):
            yield Build((d, 2, 0, factor, 1, threshold), wells_with(rng, d, flags, live + 4), lengths(d, live, 0))
        yield Build((d, 2, 1, 2, 0, 0), wells_with(rng, d, flags, live + 4), lengths(d, live, 1))


def same_places(rng):
    """Live slots at one place: rows go by their slots."""
    for d, neighbours in itertools.product((1, 2, 3), (0, 1, 2)):
        wells = wells_with(rng, d, [0, 1, 1, 0, 1, 0, 1], 7)
        cs = list(wells.coordinates)
        for i in (1, 2, 4, 6):
            cs[i * d:(i + 1) * d] = [0] * d
        yield Build((d, 1, neighbours, 4, 1, 1), wells._replace(coordinates=cs), lengths(d, 4, neighbours))


def random_builds(rng):
    """Builds over tables with gaps."""
    for _ in range(70):
        d = rng.randint(1, 3)
        live, gaps = rng.choice((1, 2, 2, 3, 3, 4, 5, 6)), rng.randint(0, 4)
        flags = [rng.choice((1, 2, 255)) for _ in range(live)] + [0] * gaps
        rng.shuffle(flags)
        flags += [rng.choice((0, 1, 255)) for _ in range(rng.randint(0, 2))]
        neighbours = rng.randint(0, MOST_NEIGHBOURS)
        settings = (d, rng.randint(1, 3), neighbours, rng.randint(2, 4), rng.choice((1, 1, 1, 0)), rng.randint(1, 3))
        settings = settings if settings[4] else settings[:5] + (0,)
        yield Build(settings, wells_with(rng, d, flags, live + gaps, rng.choice((0, 0, 3))), lengths(d, live, neighbours, more=rng.choice((0, 2))))


def large_builds(rng):
    """Sixteen live slots among forty."""
    for d, neighbours in ((1, 3), (2, 1), (3, 3)):
        flags = [1] * MOST_LIVE + [0] * 20
        rng.shuffle(flags)
        yield Build((d, 2, neighbours, 3, 1, 2), wells_with(rng, d, flags + [0, 1, 2, 255], 36, 10), lengths(d, MOST_LIVE, neighbours))


# ---- closing

def rename_of(rng, entries):
    """A rename list with anything in it: slots, the list's own fill, and numbers that are no slots."""
    return [rng.choice((0, 1, 9, 777, rng.randrange(8), rng.randrange(LONG), LONG)) for _ in range(entries)]


def closing(rng, d, wells, longer=0):
    return Close(d, wells, rename_of(rng, wells.slots + longer))


def with_live_odd(rng, d, wells):
    """The table with a zero of either sign or a float that is not a number in some of its live slots: they are moved as they are."""
    for i in range(wells.slots):
        if wells.flags[i]:
            wells = with_coordinate(wells, i * d + rng.randrange(d), rng.choice((0, SIGN, SIGN, 1) + tuple(ODD)))
    return wells


def close_patterns(rng):
    """Every choice of live and retired slots in a table of at most five, with any flags above the slot count: no gap, all gaps, gaps in
    front, at the end and between. The rename list is as long as the slot count, or longer."""
    for slots in range(6):
        for at, pattern in enumerate(itertools.product((0, 1), repeat=slots)):
            flags = [live and rng.choice((1, 2, 255)) for live in pattern] + [rng.choice((0, 1, 2, 255)) for _ in range(rng.randint(0, 2))]
            d = 1 + at % 3 if slots < 4 else rng.randint(1, 3)
            wells = wells_with(rng, d, flags, slots, rng.choice((0, 0, 2)))
            yield closing(rng, d, wells if at % 2 else with_live_odd(rng, d, wells), rng.choice((0, 0, 1, 3)))


def close_dimensions(rng):
    """The same gaps in each dimension, in tables with and without anything above the slot count; and wrong dimensions."""
    for d in (1, 2, 3):
        for pattern in ([1, 1, 1], [0, 0, 0], [0, 1, 1], [1, 1, 0], [1, 0, 1], [0, 1, 0], [2, 0, 255], [255, 2, 2]):
            for above in ([], [rng.choice((0, 1)), 255]):
                yield closing(rng, d, wells_with(rng, d, pattern + above, 3), rng.choice((0, 2)))
    for d in (0, 4, 5, 64, 255):
        for wells in (wells_with(rng, 3, [1, 0, 2], 3), Wells([], [], 0, 0)):
            yield closing(rng, d, wells)
    # tables lent with another dimension than they were kept with
    for kept, d in itertools.product((1, 2, 3), repeat=2):
        yield closing(rng, d, wells_with(rng, kept, [1, 0, 1], 3))


def close_odd_coordinates(rng):
    """Odd floats of each kind, and zeros of either sign, at each place of a table: in live slots, in retired ones, above the slot count."""
    for d in (1, 2, 3):
        wells = wells_with(rng, d, [0, 1, 0, 255, 2], 4, 2)
        for at in range(len(wells.coordinates)):
            for bits in (rng.choice(NANS), rng.choice((0, SIGN, INFINITY, SIGN + INFINITY))):
                yield closing(rng, d, with_coordinate(wells, at, bits))


def close_renames(rng):
    """Rename lists of each length about the slot count, in tables with and without gaps: short, exact, longer."""
    for d, flags, slots in ((1, [1, 0, 2, 1], 3), (2, [255, 1, 1], 3), (3, [0, 0], 2), (1, [0, 1, 1, 0, 1], 5), (2, [1, 1], 0)):
        for entries in range(slots + 4):
            yield Close(d, wells_with(rng, d, flags, slots), rename_of(rng, entries))
    for slots in (MOST_RENAME + 1, 1 << 32, 1 << 63, LONG):
        yield Close(1, Wells([1, 1], [0, 0], slots, 2), rename_of(rng, 5))


def close_conditions(rng):
    """Every choice of the conditions that closing is refused under: 1, 11 by the coordinates and by the rename list, 27 of each kind."""
    for d, short, fewer, head_of in itertools.product((1, 2, 3, 0, 4), (False, True), (False, True), (0, 1, 2, 3, 4)):
        flags = [rng.choice((1, 2, 255)), 0, rng.choice((1, 255)), rng.choice((0, 1))]
        wells = wells_with(rng, d if 1 <= d <= 3 else 1, flags, 3)
        wells = shorter(wells) if short else wells
        if head_of:
            # the last one's live count takes in a flag above the slot count
            heads = list(unsound(wells)) + [wells._replace(flags=flags[:3] + [1], live=wells.live + 1)]
            wells = heads[head_of - 1]
        yield closing(rng, d, wells, -1 if fewer else rng.choice((0, 0, 1)))


def close_heads(rng):
    """Heads that are far off, with rename lists that are long enough where there can be such."""
    for d, flags, slots in ((1, [1, 2, 255], 3), (2, [0, 2, 1, 1], 2), (3, [2, 2], 2), (1, [0, 0, 9], 2)):
        for wells in far_off(wells_with(rng, d, flags, slots)):
            yield Close(d, wells, rename_of(rng, min(wells.slots, 6)))


def close_capacities(rng):
    """No capacity, and coordinates that are short by each count, exact, and longer."""
    for d, longer, (slots, live) in itertools.product((0, 1, 2, 3, 4), (0, 3), ((0, 0), (1, 0), (0, 1))):
        wells = Wells([], [rng.choice(ODD) for _ in range(longer)], slots, live)
        yield closing(rng, d, wells, rng.choice((0, 1)))
    for d in (1, 2, 3):
        for by in range(-2, 2 * d + 1):
            yield closing(rng, d, shorter(wells_with(rng, d, [1, 0, 0], 2, max(0, -by)), max(0, by)))


def closing_sequences(rng):
    """Random edits and closings, each on the table as the call before left it."""
    for d, capacity in ((1, 2), (1, 5), (2, 4), (3, 3)):
        table = table_of(wells_with(rng, d, some_flags(rng, capacity, 0), 0, rng.choice((0, 0, 2))))
        for _ in range(24):
            wells, kind = wells_of(table), rng.random()
            if kind < 0.3:
                call = closing(rng, d, wells, rng.choice((0, 0, 0, 1, -1)) if table.slots else 0)
            elif kind < 0.7 or not table.live:
                call = Add(d, wells, point_of(rng, d))
            else:
                call = Retire(d, wells, rng.choice(table.live_slots()))
            yield call
            table = closed(call)[3] if isinstance(call, Close) else edited(call)[3]


def random_closings(rng):
    for _ in range(200):
        d, capacity = rng.randint(1, 3), rng.randint(1, 6)
        slots = rng.randint(0, capacity)
        wells = wells_with(rng, d, some_flags(rng, capacity, slots, rng.choice((0.2, 0.5, 0.8))), slots, rng.choice((0, 0, 1)))
        wells = with_live_odd(rng, d, wells) if rng.random() < 0.3 else wells
        if rng.random() < 0.05:
            wells = rng.choice(list(unsound(wells)))
        yield closing(rng, d, wells, rng.choice((0, 0, 1, 3)) if rng.random() < 0.95 or not slots else -1)


def large_closings(rng):
    """Tables of 40 slots: full, all retired, half empty, one live at either end."""
    for d, flags in ((3, [1] * 40), (1, [0] * 40), (3, some_flags(rng, 40, 40, 0.5)), (1, [255] + [0] * 39), (2, [0] * 39 + [2])):
        yield closing(rng, d, wells_with(rng, d, flags, 40), rng.choice((0, MOST_RENAME - 40)))
    yield closing(rng, 3, wells_with(rng, 3, some_flags(rng, 40, 20), 20, 10))


def builds_about_closing(rng):
    """A build, a closing, and the same build after it; now and then with a live coordinate that is not finite, or a list too short."""
    for _ in range(30):
        d, neighbours = rng.randint(1, 3), rng.randint(0, 2)
        live, gaps = rng.choice((0, 1, 2, 3, 3, 4, 4, 5, 5)), rng.randint(1, 4)
        flags = [rng.choice((1, 2, 255)) for _ in range(live)] + [0] * gaps
        rng.shuffle(flags)
        wells = wells_with(rng, d, flags + [rng.choice((0, 1, 255)) for _ in range(rng.randint(0, 1))], live + gaps)
        if live and rng.random() < 0.25:
            places = [i * d + a for i in range(wells.slots) if wells.flags[i] for a in range(d)]
            wells = with_coordinate(wells, rng.choice(places), rng.choice(ODD))
        settings = (d, rng.randint(1, 2), neighbours, rng.randint(2, 3), 1, rng.randint(1, 3))
        lent = lengths(d, live, neighbours, rng.choice(LISTS) if rng.random() < 0.15 else None)
        call = closing(rng, d, wells)
        yield Build(settings, wells, lent)
        yield call
        yield Build(settings, wells_of(closed(call)[3]), lent)


# ---- the records of the cuts

def with_lent(call, **entries):
    """The build with other lengths of these lists."""
    return call._replace(lent={**call.lent, **entries})


def fewer(call, name, by):
    return with_lent(call, **{name: max(0, call.lent[name] - by)})


def some_build(rng, d, live, leaf=1, neighbours=1, threshold=1):
    """A build over a table with gaps, of two live slots at least, whose levels halve; lists are as long as stated."""
    flags = [rng.choice((1, 2, 255)) for _ in range(live)] + [0] * rng.randint(1, 3)
    rng.shuffle(flags)
    wells = wells_with(rng, d, flags + [rng.choice((0, 1, 255))], len(flags))
    return Build((d, leaf, neighbours, 3, 1, threshold), wells, lengths(d, live, neighbours))


def with_live(call, at, bits):
    """The build with another coordinate in the first live slot."""
    d, wells = call.settings[0], call.wells
    first = next(i for i in range(wells.slots) if wells.flags[i])
    return call._replace(wells=with_coordinate(wells, first * d + at, bits))


def record_lists(rng):
    """Either list of the records one entry short, by many, and empty, and both; with a coordinate that is not finite too; and longer ones, one
    alone and both, whose entries past the records stay."""
    for d, live in ((1, 2), (2, 5), (3, 3)):
        call = some_build(rng, d, live)
        yield call
        for names in (("cuts",), ("planes",), RECORDS):
            for by in (1, live, 11 * live, 12 * live):
                short = with_lent(call, **{name: call.lent[name] - by for name in names})
                yield short
                if by == 1:
                    yield with_live(short, d - 1, rng.choice(ODD))
            for more in (1, 12):
                yield with_lent(call, **{name: call.lent[name] + more for name in names})
        # one list has what the other lacks
        for less, more in (RECORDS, RECORDS[::-1]):
            yield with_lent(call, **{less: call.lent[less] - 1, more: call.lent[more] + 1})


def record_room(rng):
    """Whole numbers of room: as stated, one more, one fewer, as few as were asked for before request 9, and about that; with longer lists of
    records; and with a coordinate that is not finite."""
    for d, live, neighbours in ((1, 1, 0), (1, 2, 1), (2, 3, 3), (3, 7, 2)):
        call = some_build(rng, d, live, 1, neighbours)
        for by in (-1, 0, 1, 8 * live - 1, 8 * live, 8 * live + 1):
            yield fewer(call, "wholes", by)
        before = fewer(call, "wholes", 8 * live)
        yield with_lent(before, cuts=call.lent["cuts"] + 8 * live, planes=call.lent["planes"] + 8 * live)
        yield with_live(before, 0, rng.choice(ODD))


def record_conditions(rng):
    """Each refusal of the build beside a list of the records, or a room, that is one entry short."""
    for number, name in itertools.product(BUILD_ORDER, RECORDS + ("wholes",)):
        yield fewer(build_under(rng, rng.randint(1, 3), (number,)), name, 1)


def record_shapes(rng):
    """Live counts about the powers of two, with each of three leaf thresholds: leaves of two depths, whose numbers do not go from left to
    right; three levels, and so three records, or fewer."""
    for d, (live, leaf) in zip(itertools.cycle((1, 2, 3)), itertools.product((3, 5, 6, 7, 9, 12, 13, 16), (1, 2, 3))):
        call = some_build(rng, d, live, leaf, rng.randint(0, 1), rng.choice((1, 1, 2)))
        yield with_lent(call, cuts=call.lent["cuts"] + rng.choice((0, 0, 5))) if live < MOST_LIVE else call


def record_planes(rng):
    """Live slots whose coordinates are a zero of either sign, or two or three values in all: a plane is that of the first row to its right."""
    for d, live, values in itertools.product((1, 2, 3), (2, 3, 6), ((0, SIGN), stored_model.bits_of([-1.5, -0.0, 9.0]))):
        call = some_build(rng, d, live, 1, 0)
        wells = call.wells
        for i in range(wells.slots):
            for a in range(d if wells.flags[i] else 0):
                wells = with_coordinate(wells, i * d + a, rng.choice(values))
        yield call._replace(wells=wells)


# The parts of each request, drawn by a generator of its own: those of a later one leave the calls before them as they are.
PARTS = {
    7: (flag_patterns, capacities_of_none, add_conditions, odd_points, retire_conditions, odd_heads, dimensions, short_and_long, sequences,
        large_tables, build_conditions, short_lists, odd_coordinates, level_rules, same_places, random_builds, large_builds),
    8: (close_patterns, close_dimensions, close_odd_coordinates, close_renames, close_conditions, close_heads, close_capacities,
        closing_sequences, random_closings, large_closings, builds_about_closing),
    9: (record_lists, record_room, record_conditions, record_shapes, record_planes),
}


def calls():
    for request, parts in PARTS.items():
        rng = random.Random(request)
        for part in parts:
            for call in part(rng):
                yield part.__name__, call


def main():
    records, tally, parts, seen = [], collections.Counter(), {}, set()
    for part, call in calls():
        kind, number, body = recorded(call)
        if body in seen:
            continue
        seen.add(body)
        tally[kind, number] += 1
        many, size = parts.get(part, (0, 0))
        parts[part] = (many + 1, size + len(body) + 4)
        records.append(struct.pack("<I", len(body)) + body)
    data = b"".join(records)
    print(len(records), "calls,", len(data), "bytes,", max(map(len, records)), "the longest")
    for (kind, number), many in sorted(tally.items()):
        print("  %-6s %2d: %d" % (kind, number, many))
    for part, (many, size) in parts.items():
        print("  %-20s %4d calls, %6d bytes" % (part, many, size))
    assert len(data) <= MOST_BYTES, len(data)
    with open(PATH, "wb") as out:
        out.write(data)
    with open(STDOUT, "w") as out:
        out.write("%d calls, 0 differ\n" % len(records))


if __name__ == "__main__":
    main()
