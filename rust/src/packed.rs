//! The strides of the packed lists and the places in the result slots, each named once, as in c/ddm.h.

/// The numbers of a domain row, by their columns.
pub const OWN_START: usize = 0;
pub const OWN_COUNT: usize = 1;
pub const BORROWED_START: usize = 2;
pub const BORROWED_COUNT: usize = 3;
pub const DEPTH: usize = 4;
pub const ROW_NUMBERS: usize = 5;

/// The box itself: lower bounds by axis, then upper ones.
pub const fn box_floats(dimension: usize) -> usize {
    2 * dimension
}

/// Where the cover stands among the floats of a domain row: behind the box.
pub const fn row_cover(dimension: usize) -> usize {
    box_floats(dimension)
}

/// The floats of a domain row: the box and the cover.
pub const fn row_floats(dimension: usize) -> usize {
    box_floats(dimension) + 1
}

/// The cut record: a node of at least this is a leaf, and one below it a cut on that axis.
pub const RECORD_LEAF: usize = 3;

/// No leaf is deeper than this many cuts.
pub const RECORD_DEEPEST: usize = 21;

/// The nodes of a fine level's record, by the level's domains. The coarse level has none.
pub const fn record_nodes(domains: usize) -> usize {
    2 * domains - 1
}

/// The most points of a tree, and the most slots of a table.
pub const MOST_POINTS: usize = 1_048_576;

/// The most levels of a tree.
pub const MOST_LEVELS: usize = 4;

/// The build's slot: the place of a refusal, the levels, then the rows and the domains of each level.
pub const SLOT_PLACE: usize = 0;
pub const SLOT_LEVELS: usize = 1;
pub const SLOT_ROWS: usize = 2;
pub const SLOT_DOMAINS: usize = SLOT_ROWS + MOST_LEVELS;
pub const BUILD_SLOT: usize = SLOT_DOMAINS + MOST_LEVELS;

/// The slot of the sizes: one for each list of a build, in the order in which it takes them.
pub const SIZES_LEVEL_POINTS: usize = 0;
pub const SIZES_INTERNALS: usize = 1;
pub const SIZES_DOMAINS: usize = 2;
pub const SIZES_BOXES: usize = 3;
pub const SIZES_BORROWED: usize = 4;
pub const SIZES_FLOATS: usize = 5;
pub const SIZES_WHOLES: usize = 6;
pub const SIZES_CUTS: usize = 7;
pub const SIZES_PLANES: usize = 8;
pub const SIZES_SLOT: usize = 9;

/// Sampling's slot: the place of a refusal, the rows written.
pub const SAMPLE_PLACE: usize = 0;
pub const SAMPLE_WRITTEN: usize = 1;
pub const SAMPLE_SLOT: usize = 2;

/// The slot of sampling's cover: one float.
pub const COVER_SLOT: usize = 1;

/// The slot of adding a well: the place of a refusal, the slot of the table that the well takes.
pub const ADD_PLACE: usize = 0;
pub const ADD_TAKEN: usize = 1;
pub const ADD_SLOT: usize = 2;

/// The slot of closing a table's gaps: the place of a refusal, the slot count after it.
pub const CLOSE_PLACE: usize = 0;
pub const CLOSE_SLOTS: usize = 1;
pub const CLOSE_SLOT: usize = 2;

/// The writer's slot: the place of a refusal, the bytes written.
pub const STORE_PLACE: usize = 0;
pub const STORE_BYTES: usize = 1;
pub const STORE_SLOT: usize = 2;

/// The quotas' slot: the entries written, the seats.
pub const QUOTA_WRITTEN: usize = 0;
pub const QUOTA_SLOT: usize = 2;

/// The bytes of a tree's file: the head; the points; a mark and two counts for each level and domain; each level row and, as an internal
/// row, once more; the borrowed rows; a depth for each domain; and the floats of each domain row but for the coarse box.
pub fn file_bytes(dimension: usize, points: usize, slot: &[usize; BUILD_SLOT], borrowed: usize) -> usize {
    let rows: usize = slot[SLOT_ROWS..SLOT_DOMAINS].iter().sum();
    let domains: usize = slot[SLOT_DOMAINS..].iter().sum();
    24 + points * (2 + 8 * dimension) + 10 * (slot[SLOT_LEVELS] + domains) + 4 * (2 * rows + borrowed + domains)
        + 8 * (row_floats(dimension) * domains - box_floats(dimension))
}

/// The level size and the root: one value.
pub const LEVEL_SIZE_SLOT: usize = 1;
pub const ROOT_SLOT: usize = 1;

#[cfg(test)]
mod tests {
    use super::*;

    /// A number that c/ddm.h defines.
    fn defined(name: &str) -> usize {
        let head = format!("#define DDM_{name} ");
        let line = include_str!("../../c/ddm.h").lines().find_map(|line| line.strip_prefix(&head));
        line.and_then(|number| number.trim().parse().ok()).unwrap_or_else(|| panic!("c/ddm.h does not define DDM_{name} as a number"))
    }

    #[test]
    fn a_row_is_a_box_and_a_cover() {
        let header = include_str!("../../c/ddm.h");
        assert!(header.contains("#define DDM_BOX_FLOATS(dimensions) (2 * (dimensions))\n"));
        assert!(header.contains("#define DDM_ROW_COVER(dimensions) DDM_BOX_FLOATS(dimensions)\n"));
        assert!(header.contains("#define DDM_ROW_FLOATS(dimensions) (DDM_BOX_FLOATS(dimensions) + 1)\n"));
        assert_eq!((1..=3).map(|d| (box_floats(d), row_cover(d), row_floats(d))).collect::<Vec<_>>(), [(2, 2, 3), (4, 4, 5), (6, 6, 7)]);
    }

    #[test]
    fn names_are_the_headers() {
        for (name, number) in [
            ("COLUMN_OWN_START", OWN_START),
            ("COLUMN_OWN_COUNT", OWN_COUNT),
            ("COLUMN_BORROWED_START", BORROWED_START),
            ("COLUMN_BORROWED_COUNT", BORROWED_COUNT),
            ("COLUMN_DEPTH", DEPTH),
            ("ROW_NUMBERS", ROW_NUMBERS),
            ("RECORD_LEAF", RECORD_LEAF),
            ("RECORD_DEEPEST", RECORD_DEEPEST),
            ("MOST_POINTS", MOST_POINTS),
            ("MOST_LEVELS", MOST_LEVELS),
            ("SLOT_PLACE", SLOT_PLACE),
            ("SLOT_LEVELS", SLOT_LEVELS),
            ("SLOT_ROWS", SLOT_ROWS),
            ("SIZES_LEVEL_POINTS", SIZES_LEVEL_POINTS),
            ("SIZES_INTERNALS", SIZES_INTERNALS),
            ("SIZES_DOMAINS", SIZES_DOMAINS),
            ("SIZES_BOXES", SIZES_BOXES),
            ("SIZES_BORROWED", SIZES_BORROWED),
            ("SIZES_FLOATS", SIZES_FLOATS),
            ("SIZES_WHOLES", SIZES_WHOLES),
            ("SIZES_CUTS", SIZES_CUTS),
            ("SIZES_PLANES", SIZES_PLANES),
            ("SIZES_SLOT", SIZES_SLOT),
            ("SAMPLE_PLACE", SAMPLE_PLACE),
            ("SAMPLE_WRITTEN", SAMPLE_WRITTEN),
            ("SAMPLE_SLOT", SAMPLE_SLOT),
            ("COVER_SLOT", COVER_SLOT),
            ("ADD_PLACE", ADD_PLACE),
            ("ADD_TAKEN", ADD_TAKEN),
            ("ADD_SLOT", ADD_SLOT),
            ("CLOSE_PLACE", CLOSE_PLACE),
            ("CLOSE_SLOTS", CLOSE_SLOTS),
            ("CLOSE_SLOT", CLOSE_SLOT),
            ("STORE_PLACE", STORE_PLACE),
            ("STORE_BYTES", STORE_BYTES),
            ("STORE_SLOT", STORE_SLOT),
            ("QUOTA_WRITTEN", QUOTA_WRITTEN),
            ("QUOTA_SLOT", QUOTA_SLOT),
            ("LEVEL_SIZE_SLOT", LEVEL_SIZE_SLOT),
            ("ROOT_SLOT", ROOT_SLOT),
        ] {
            assert_eq!(defined(name), number, "{name}");
        }
    }
}
