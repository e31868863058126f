"""A table of wells that is edited between builds: the package keeps its head and its lists, and the library edits them."""
import array
import ctypes
import numbers

from . import layout, library, settings
from .calls import build_sizes, lent_of, params_of, passed, slot as slot_of, tree_by
from .coordinates import coordinates, from_buffer
from .lent import Lent
from .settings import size


class Table:
    """A table of wells, of which `capacity` (held to 1,048,576) can be live at once.

    A well keeps its slot until it is retired; the slot then goes to the next well that is added, the lowest retired one first. `close`
    moves the live wells down, so that no slot is retired. `len(table)` is the number of live wells. A Refusal says what the library
    refused, and leaves the table as it was."""

    def __init__(self, capacity, dimension):
        capacity, dimension = min(size("capacity", capacity), settings.MOST_POINTS), size("dimension", dimension)
        # the library says whether there is such a dimension
        build_sizes(1, dimension, 0)
        self._dimension, self._head = dimension, library.Head()
        self._flags, self._coordinates = Lent(ctypes.c_uint8, capacity), Lent(ctypes.c_double, capacity * dimension)

    def _lent(self):
        """The table as the library takes it, behind its head."""
        return self._flags.c, self._flags.entries, self._coordinates.c, self._coordinates.entries, self._dimension

    def add(self, point):
        """Adds a well, a row of one number for each axis (or a number alone, for one axis): its slot, which is the lowest retired one or
        else the next new one."""
        given = coordinates([point])
        result = slot_of(layout.ADD_SLOT)
        number = library.load().ddm_add(self._head, *self._lent(), given.c, given.length, result, len(result))
        passed(number, result[layout.ADD_PLACE])
        return result[layout.ADD_TAKEN]

    def retire(self, slot):
        """Retires the well in this slot."""
        passed(library.load().ddm_retire(self._head, *self._lent(), size("slot", slot)))

    def close(self):
        """Closes the gaps: the live wells move down, in order, so that `slots` is then `len(table)`. A list from old slot to new, which has
        for each retired slot the slot count before the move.

        A tree that was built before needs no new build: with each row looked up in the list it is the tree that `build` would build now,
        with the same leaves, boxes, covers and depths."""
        rename, result = Lent(ctypes.c_size_t, self.slots), slot_of(layout.CLOSE_SLOT)
        number = library.load().ddm_close(self._head, *self._lent(), rename.c, rename.entries, result, len(result))
        passed(number, result[layout.CLOSE_PLACE])
        return rename.c[:rename.entries]

    def build(self, leaf=settings.LEAF, neighbours=settings.NEIGHBOURS, factor=settings.FACTOR, coarse=settings.COARSE):
        """The tree over the live slots, in slot order, with the record of its cuts: rows in it are slots. It stays as it is when the table is
        edited. `to_bytes` refuses it (20), unless the live slots are 0 to n - 1, as they are after `close`."""
        return tree_by(self._build_into, layout.LISTS, self._live_points(), params_of(leaf, neighbours, factor, coarse), neighbours)

    def _build_into(self, given, params, lists):
        """One call of the build over slots with these lists: (refusal number, slot)."""
        result = slot_of(layout.BUILD_SLOT)
        number = library.load().ddm_build_slots(self._head.slots, self._head.live, *self._lent(), *params, *lent_of(lists, layout.LISTS),
                                                result, len(result))
        return number, result

    def _live_points(self):
        """The live wells' coordinates in slot order, as they are now."""
        flat = array.array("d")
        for slot in self.live:
            flat.extend(self._point(slot))
        return from_buffer(memoryview(flat), (len(self), self._dimension), None)

    def _point(self, slot):
        return self._coordinates.c[slot * self._dimension:(slot + 1) * self._dimension]

    @property
    def live(self):
        """The live slots, ascending: a list."""
        return [slot for slot, flag in enumerate(self._flags.pages[:self._head.slots]) if flag]

    def point(self, slot):
        """The coordinates of the well in this slot, as a list; None where it is not live."""
        slot = size("slot", slot)
        return self._point(slot) if slot < self._head.slots and self._flags.c[slot] else None

    @property
    def slots(self):
        """How many slots have been given out. Only closing lowers it."""
        return self._head.slots

    @property
    def capacity(self):
        return self._flags.entries

    @property
    def dimension(self):
        return self._dimension

    def __len__(self):
        return self._head.live

    def __repr__(self):
        return f"<Table: {len(self)} live of {self.slots} slots, capacity {self.capacity}>"
