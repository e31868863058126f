//! The lists that a build is lent. They are reserved and not filled: what the build does not touch costs nothing.
use crate::packed::*;
use std::collections::TryReserveError;

/// The entries that each list of a build needs: see [`build_sizes`](crate::build_sizes).
#[derive(Clone, Copy, Debug, PartialEq, Eq)]
#[non_exhaustive]
pub struct BuildSizes {
    /// The active rows of each level.
    pub level_points: usize,
    /// The leaves' own (internal) rows.
    pub internals: usize,
    /// The numbers of the domain rows: two stretches and a depth each.
    pub domains: usize,
    /// The floats of the domain rows: a box and a cover each.
    pub boxes: usize,
    /// The rows that the leaves borrow.
    pub borrowed: usize,
    /// Working room: floats.
    pub floats: usize,
    /// Working room: whole numbers.
    pub wholes: usize,
    /// The cut record: the nodes' whole numbers.
    pub cuts: usize,
    /// The cut record: the nodes' planes.
    pub planes: usize,
}

impl BuildSizes {
    pub(crate) fn of(slot: &[usize; SIZES_SLOT]) -> Self {
        BuildSizes {
            level_points: slot[SIZES_LEVEL_POINTS],
            internals: slot[SIZES_INTERNALS],
            domains: slot[SIZES_DOMAINS],
            boxes: slot[SIZES_BOXES],
            borrowed: slot[SIZES_BORROWED],
            floats: slot[SIZES_FLOATS],
            wholes: slot[SIZES_WHOLES],
            cuts: slot[SIZES_CUTS],
            planes: slot[SIZES_PLANES],
        }
    }

    /// The same without room and record: to load a tree, its five lists are lent alone.
    pub(crate) fn of_tree(self) -> Self {
        BuildSizes { floats: 0, wholes: 0, cuts: 0, planes: 0, ..self }
    }

    /// The bytes of all lists: what is lent, of which little is touched.
    pub fn bytes(&self) -> usize {
        let wholes = self.level_points + self.internals + self.domains + self.borrowed + self.wholes + self.cuts;
        let floats = self.boxes + self.floats + self.planes;
        wholes * std::mem::size_of::<usize>() + floats * std::mem::size_of::<f64>()
    }
}

/// The lists of one call. Those of the room and of the record stay empty where a tree is stored or loaded.
#[derive(Default)]
pub struct Lists {
    pub level_points: Vec<usize>,
    pub internals: Vec<usize>,
    pub domains: Vec<usize>,
    pub boxes: Vec<f64>,
    pub borrowed: Vec<usize>,
    pub floats: Vec<f64>,
    pub wholes: Vec<usize>,
    pub cuts: Vec<usize>,
    pub planes: Vec<f64>,
}

impl Lists {
    /// Room for these sizes.
    pub fn reserved(sizes: &BuildSizes) -> Result<Self, TryReserveError> {
        Ok(Lists {
            level_points: reserved(sizes.level_points)?,
            internals: reserved(sizes.internals)?,
            domains: reserved(sizes.domains)?,
            boxes: reserved(sizes.boxes)?,
            borrowed: reserved(sizes.borrowed)?,
            floats: reserved(sizes.floats)?,
            wholes: reserved(sizes.wholes)?,
            cuts: reserved(sizes.cuts)?,
            planes: reserved(sizes.planes)?,
        })
    }
}

impl Lists {
    /// The five lists of a tree with room for these sizes, and these fronts.
    pub fn lent(sizes: &BuildSizes, level_points: &[usize], internals: &[usize], domains: &[usize], boxes: &[f64], borrowed: &[usize])
        -> Result<Self, TryReserveError> {
        Ok(Lists {
            level_points: fronted(sizes.level_points, level_points)?,
            internals: fronted(sizes.internals, internals)?,
            domains: fronted(sizes.domains, domains)?,
            boxes: fronted(sizes.boxes, boxes)?,
            borrowed: fronted(sizes.borrowed, borrowed)?,
            ..Lists::default()
        })
    }
}

/// A list with this front and room for this many entries.
fn fronted<T: Copy>(entries: usize, front: &[T]) -> Result<Vec<T>, TryReserveError> {
    let mut list = reserved(entries.max(front.len()))?;
    list.extend_from_slice(front);
    Ok(list)
}

/// An empty list with room for this many entries.
pub fn reserved<T>(entries: usize) -> Result<Vec<T>, TryReserveError> {
    let mut list = Vec::new();
    list.try_reserve_exact(entries)?;
    Ok(list)
}
