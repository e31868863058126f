"""Requests 7, 8 and 9 of document 02 as plain Python: the table of wells, its edits, closing its gaps, and the build over its live slots,
which writes the records of its cuts too.

It follows the paper's words over tools/model.py and shares nothing with the Rattle code. A refused call raises `model.Refused` and leaves
the table as it was.
"""
import math

import model
import stored_model


class Table:
    """A table as the caller keeps it: its head (slot count and live count), a flag for each slot, and coordinates."""

    def __init__(self, flags, coordinates, slots=0, live=0):
        self.flags, self.coordinates, self.slots, self.live = flags, coordinates, slots, live

    def capacity(self):
        return min(len(self.flags), model.MOST_POINTS)

    def live_slots(self):
        """The slots below the slot count whose flag is not 0, ascending."""
        return [i for i in range(self.slots) if self.flags[i] != 0]

    def retired_slots(self):
        return [i for i in range(self.slots) if self.flags[i] == 0]


# ---- refusals

def check_coordinates(table, d):
    if len(table.coordinates) < table.capacity() * d:
        raise model.Refused(11)


def check_head(table):
    if table.slots > table.capacity() or table.live != len(table.live_slots()):
        raise model.Refused(27)


def check_table(table, d, short=False):
    """1, 11 and 27; `short` where another lent list is too short."""
    if not 1 <= d <= 3:
        raise model.Refused(1)
    if short:
        raise model.Refused(11)
    check_coordinates(table, d)
    check_head(table)


# ---- edits

def add(table, d, point):
    """Adds a well: its slot, the lowest retired one or else the next new one."""
    check_table(table, d)
    if len(point) != d:
        raise model.Refused(7)
    for at, x in enumerate(point):
        if not math.isfinite(x):
            raise model.Refused(10, at)
    retired = table.retired_slots()
    if not retired and table.slots == table.capacity():
        raise model.Refused(21)
    slot = retired[0] if retired else table.slots
    table.flags[slot] = 1
    table.coordinates[slot * d:(slot + 1) * d] = point
    table.live += 1
    if not retired:
        table.slots += 1
    return slot


def retire(table, d, slot):
    check_table(table, d)
    if slot not in table.live_slots():
        raise model.Refused(22)
    table.flags[slot] = 0
    table.live -= 1


def close(table, d, rename):
    """Closes the gaps: live wells move down, in order, and none is retired then. The new slot count.

    The front of `rename` gets the new slot of each old one, and for a retired slot the slot count before the move."""
    check_table(table, d, len(rename) < table.slots)
    slots, wells = table.slots, table.live_slots()
    gaps = slots - len(wells)
    new = {old: at for at, old in enumerate(wells)}
    rename[:slots] = [new.get(old, slots) for old in range(slots)]
    moved = [x for old in wells for x in table.coordinates[old * d:(old + 1) * d]]
    table.coordinates[:slots * d] = moved + [0.0] * (gaps * d)
    table.flags[:slots] = [1] * len(wells) + [0] * gaps
    table.slots = table.live
    return table.slots


# ---- the build over slots

# The most nodes of a tree's records, for each point.
NODES = 12


def stated(d, n, neighbours):
    """The entries that each list of a build over n points needs, by name."""
    return {**stored_model.stated(d, n, neighbours), "floats": 32 * n, "wholes": 40 * n + 8 * n * (neighbours + 1), "cuts": NODES * n,
            "planes": NODES * n}


def build(table, d, leaf, neighbours, f, policy, number, lent=None, records=None):
    """The levels as `model.build` gives them, with slots for rows. lent: the entries of each list by name, where they are to be
    judged. records: the lists that take the records of the fine levels, one after the other, whole numbers and floats, where they are to
    be written; what stands past them stays."""
    check_head(table)
    model.check_settings(d, leaf, neighbours, f, policy, number)
    rows = table.live_slots()
    if not rows:
        raise model.Refused(6)
    model.check_reach(f, policy, number, len(rows))
    if lent is not None and any(lent[name] < needed for name, needed in stated(d, len(rows), neighbours).items()):
        raise model.Refused(11)
    check_coordinates(table, d)
    model.check_finite(table.coordinates, (i * d + a for i in rows for a in range(d)))
    levels = model.levels_over(table.coordinates, d, leaf, neighbours, f, policy, number, rows)
    if records is not None:
        write_records(records, [node for record in model.records(table.coordinates, d, leaf, levels) for node in record])
    return levels


def write_records(lists, nodes):
    """Writes these nodes to the fronts of the two lists."""
    for lent, entries in zip(lists, zip(*nodes)):
        lent[:len(nodes)] = entries
