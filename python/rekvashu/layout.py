"""The strides of the lists and the places in the result slots, each named once: later versions of the library widen the rows."""

# The lists of a build, in the order in which the library takes them and ddm_build_sizes gives their lengths.
LISTS = ("level_points", "internals", "domains", "boxes", "borrowed", "floats", "wholes", "cuts", "planes")

# Those that hold a tree, which loader and writer are lent alone. Behind them stand two of working room and the two of the cut record.
TREE_LISTS = LISTS[:5]

# A domain row: its numbers, and the floats that belong to it.
ROW_NUMBERS = 5
COLUMN_OWN_START, COLUMN_OWN_COUNT, COLUMN_BORROWED_START, COLUMN_BORROWED_COUNT, COLUMN_DEPTH = range(5)


def box_floats(dimension):
    """A box: the lower bounds by axis, then the upper ones."""
    return 2 * dimension


def row_cover(dimension):
    """Where the cover stands among the floats of a domain row: behind the box."""
    return box_floats(dimension)


def row_floats(dimension):
    """What a domain row has among the boxes: the box and the cover."""
    return box_floats(dimension) + 1


# The cut record: a node of at least RECORD_LEAF is a leaf (that plus its number), one below it a cut on that axis. No leaf is deeper than
# RECORD_DEEPEST cuts.
RECORD_LEAF = 3
RECORD_DEEPEST = 21


def record_nodes(domains):
    """The nodes of a fine level's record, by the level's domains. The coarse level has none."""
    return 2 * domains - 1


# The slot of a build: place, levels, rows of each level, domains of each level.
MOST_LEVELS = 4
SLOT_PLACE, SLOT_LEVELS, SLOT_ROWS = 0, 1, 2
SLOT_DOMAINS = SLOT_ROWS + MOST_LEVELS
BUILD_SLOT = SLOT_DOMAINS + MOST_LEVELS

# Sampling's slots, the cover's being one float, and that of the quotas.
SAMPLE_PLACE, SAMPLE_WRITTEN, SAMPLE_SLOT = 0, 1, 2
COVER_SLOT = 1
QUOTA_WRITTEN, QUOTA_SEATS, QUOTA_SLOT = 0, 1, 2

# The slot of adding a well: place, the slot of the table that it takes.
ADD_PLACE, ADD_TAKEN, ADD_SLOT = 0, 1, 2

# The slot of closing a table's gaps: place, slot count after it.
CLOSE_PLACE, CLOSE_SLOTS, CLOSE_SLOT = 0, 1, 2

# The writer's slot: place, bytes written.
STORE_PLACE, STORE_BYTES, STORE_SLOT = 0, 1, 2

# The level size and the root are one value; the sizes are one for each list.
LEVEL_SIZE_SLOT = ROOT_SLOT = 1
SIZES_SLOT = len(LISTS)


def sample_room(rows):
    """Floats and whole numbers that sampling works in."""
    return 2 * rows, rows


def file_bytes(dimension, rows, slot, borrowed):
    """The bytes of the file of a tree over so many points, by its slot and the rows borrowed in all: the head; the points; a mark and two
    counts for each level and domain; each level row and, as an internal row, once more; the borrowed rows; a depth for each domain; and the
    floats of each domain row but for the coarse box."""
    levels, listed = slot[SLOT_LEVELS], sum(slot[SLOT_ROWS:SLOT_DOMAINS])
    domains = sum(slot[SLOT_DOMAINS:BUILD_SLOT])
    floats = row_floats(dimension) * domains - box_floats(dimension)
    return 24 + rows * (2 + 8 * dimension) + 10 * (levels + domains) + 4 * (2 * listed + borrowed + domains) + 8 * floats
