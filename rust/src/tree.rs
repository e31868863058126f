//! A tree of domains, read from the lists that a build has written.
use crate::lists::{BuildSizes, Lists};
use crate::packed::*;
use crate::record::{Node, Nodes};
use std::collections::TryReserveError;

/// A tree of domains over the points.
///
/// Two trees are equal where their levels and leaves are, with or without a record of the cuts: a loaded tree, which has none, equals the
/// one that was stored.
///
/// ```
/// use rekvashu::{build, DDMParams, SizePolicy};
///
/// let params = DDMParams { leaf_threshold: 2, overlap_knn: 1, coarse_reduction_factor: 2, coarse_threshold: SizePolicy::Fixed(2) };
/// let tree = build(&[0.0, 1.0, 3.0, 7.0], 1, params)?;
/// let fine = tree.level(0).unwrap();
/// assert_eq!((fine.len(), fine.rows()), (4, &[0, 1, 2, 3][..]));
/// let leaf = fine.leaf(1).unwrap();
/// assert_eq!((leaf.own(), leaf.borrowed(), leaf.bounds()), (&[1][..], &[0, 2][..], Some((&[1.0][..], &[3.0][..]))));
/// // leaves 0 and 1 send their well up, and the others none
/// assert_eq!(fine.leaves().map(|leaf| leaf.cover()).collect::<Vec<_>>(), [0.0, 0.0, f64::INFINITY, f64::INFINITY]);
/// // the level was cut, and each of its halves once more
/// assert!(fine.leaves().all(|leaf| leaf.depth() == 2));
/// let coarse = tree.levels().last().unwrap();
/// assert!(coarse.is_coarse() && coarse.leaf(0).unwrap().bounds().is_none());
/// # Ok::<(), rekvashu::Error>(())
/// ```
#[derive(Clone, Debug)]
pub struct Tree {
    dimension: usize,
    levels: usize,
    rows: [usize; MOST_LEVELS],
    leaves: [usize; MOST_LEVELS],
    level_points: Vec<usize>,
    internals: Vec<usize>,
    domains: Vec<usize>,
    boxes: Vec<f64>,
    borrowed: Vec<usize>,
    // the record of the cuts, empty where there is none
    cuts: Vec<usize>,
    planes: Vec<f64>,
}

impl PartialEq for Tree {
    fn eq(&self, other: &Tree) -> bool {
        // every field by its name, so that none is forgotten; the record is left out
        let Tree { dimension, levels, rows, leaves, level_points, internals, domains, boxes, borrowed, cuts: _, planes: _ } = other;
        (self.dimension, self.levels, self.rows, self.leaves) == (*dimension, *levels, *rows, *leaves)
            && (&self.level_points, &self.internals, &self.domains) == (level_points, internals, domains)
            && (&self.boxes, &self.borrowed) == (boxes, borrowed)
    }
}

/// A level of a tree: level 0 has all points, and the last one is the coarse level.
#[derive(Clone, Copy, Debug)]
pub struct Level<'a> {
    tree: &'a Tree,
    number: usize,
}

/// A leaf of a level.
#[derive(Clone, Copy, Debug)]
pub struct Leaf<'a> {
    tree: &'a Tree,
    level: usize,
    domain: usize,
}

impl Tree {
    /// What an accepted build has written: its slot and its lists, which are cut to what they hold.
    pub(crate) fn of(dimension: usize, slot: &[usize; BUILD_SLOT], lists: Lists) -> Self {
        let counts = |from: usize| std::array::from_fn(|level| slot[from + level]);
        let mut tree = Tree {
            dimension,
            levels: slot[SLOT_LEVELS],
            rows: counts(SLOT_ROWS),
            leaves: counts(SLOT_DOMAINS),
            level_points: lists.level_points,
            internals: lists.internals,
            domains: lists.domains,
            boxes: lists.boxes,
            borrowed: lists.borrowed,
            cuts: lists.cuts,
            planes: lists.planes,
        };
        for list in [&mut tree.level_points, &mut tree.internals, &mut tree.domains, &mut tree.borrowed, &mut tree.cuts] {
            list.shrink_to_fit();
        }
        tree.boxes.shrink_to_fit();
        tree.planes.shrink_to_fit();
        tree
    }

    /// Its slot, and its lists at these lengths again, for the writer.
    pub(crate) fn lent(&self, sizes: &BuildSizes) -> Result<([usize; BUILD_SLOT], Lists), TryReserveError> {
        let mut slot = [0; BUILD_SLOT];
        slot[SLOT_LEVELS] = self.levels;
        slot[SLOT_ROWS..SLOT_DOMAINS].copy_from_slice(&self.rows);
        slot[SLOT_DOMAINS..].copy_from_slice(&self.leaves);
        Ok((slot, Lists::lent(sizes, &self.level_points, &self.internals, &self.domains, &self.boxes, &self.borrowed)?))
    }

    /// How many rows its leaves borrow in all.
    pub(crate) fn borrowed_rows(&self) -> usize {
        self.borrowed.len()
    }

    /// How many axes the points have.
    pub fn dimension(&self) -> usize {
        self.dimension
    }

    /// How many levels there are, the coarse one included.
    #[allow(clippy::len_without_is_empty)]
    pub fn len(&self) -> usize {
        self.levels
    }

    /// The levels, from the finest to the coarse one.
    pub fn levels(&self) -> impl ExactSizeIterator<Item = Level<'_>> + DoubleEndedIterator + Clone {
        (0..self.levels).map(move |number| Level { tree: self, number })
    }

    /// The level of this number, from 0, where there is one.
    pub fn level(&self, number: usize) -> Option<Level<'_>> {
        (number < self.levels).then_some(Level { tree: self, number })
    }
}

impl<'a> Level<'a> {
    /// The active rows, ascending.
    pub fn rows(&self) -> &'a [usize] {
        let from: usize = self.tree.rows[..self.number].iter().sum();
        &self.tree.level_points[from..from + self.tree.rows[self.number]]
    }

    /// How many leaves it has: one for the coarse level, at least two for another.
    #[allow(clippy::len_without_is_empty)]
    pub fn len(&self) -> usize {
        self.tree.leaves[self.number]
    }

    /// The leaves, in their order.
    pub fn leaves(&self) -> impl ExactSizeIterator<Item = Leaf<'a>> + DoubleEndedIterator + Clone + 'a {
        let (tree, level, first) = (self.tree, self.number, self.first());
        (first..first + self.len()).map(move |domain| Leaf { tree, level, domain })
    }

    /// The leaf of this number, from 0, where there is one.
    pub fn leaf(&self, number: usize) -> Option<Leaf<'a>> {
        (number < self.len()).then(|| Leaf { tree: self.tree, level: self.number, domain: self.first() + number })
    }

    /// The level's cut record: the cuts from the root downwards, each before its halves, and the left half completely before the right.
    /// A level with m leaves has 2m - 1 nodes. The coarse level has none, and neither has a tree that [`load`](crate::load) loaded.
    ///
    /// Leaves are numbered by depth, and then from left to right, which is the order of [`leaves`](Level::leaves).
    ///
    /// ```
    /// use rekvashu::{build, DDMParams, Node, NodeKind, SizePolicy};
    ///
    /// let params = DDMParams { leaf_threshold: 3, overlap_knn: 1, coarse_reduction_factor: 2, coarse_threshold: SizePolicy::Fixed(2) };
    /// let tree = build(&[0.0, 1.0, 3.0, 7.0], 1, params)?;
    /// let nodes: Vec<Node> = tree.level(0).unwrap().nodes().collect();
    /// assert_eq!(nodes, [
    ///     Node { depth: 0, kind: NodeKind::Cut { axis: 0, plane: 3.0 } },
    ///     Node { depth: 1, kind: NodeKind::Leaf(0) },
    ///     Node { depth: 1, kind: NodeKind::Leaf(1) },
    /// ]);
    /// assert_eq!(tree.level(1).unwrap().nodes().len(), 0);
    /// # Ok::<(), rekvashu::Error>(())
    /// ```
    pub fn nodes(&self) -> impl ExactSizeIterator<Item = Node> + Clone + 'a {
        if self.is_coarse() || self.tree.cuts.is_empty() {
            return Nodes::new(&[], &[]);
        }
        let from: usize = self.tree.leaves[..self.number].iter().map(|&leaves| record_nodes(leaves)).sum();
        let to = from + record_nodes(self.len());
        Nodes::new(&self.tree.cuts[from..to], &self.tree.planes[from..to])
    }

    /// Whether this is the coarse level, with one domain and no box.
    pub fn is_coarse(&self) -> bool {
        self.number + 1 == self.tree.levels
    }

    /// Where its first leaf stands among those of all levels.
    fn first(&self) -> usize {
        self.tree.leaves[..self.number].iter().sum()
    }
}

impl<'a> Leaf<'a> {
    fn numbers(&self) -> &'a [usize] {
        &self.tree.domains[ROW_NUMBERS * self.domain..ROW_NUMBERS * (self.domain + 1)]
    }

    fn floats(&self) -> &'a [f64] {
        let many = row_floats(self.tree.dimension);
        &self.tree.boxes[many * self.domain..many * (self.domain + 1)]
    }

    /// Its own (internal) rows, ascending.
    pub fn own(&self) -> &'a [usize] {
        let row = self.numbers();
        &self.tree.internals[row[OWN_START]..row[OWN_START] + row[OWN_COUNT]]
    }

    /// The rows that it borrows, ascending.
    pub fn borrowed(&self) -> &'a [usize] {
        let row = self.numbers();
        &self.tree.borrowed[row[BORROWED_START]..row[BORROWED_START] + row[BORROWED_COUNT]]
    }

    /// The rows in the order of the leaf's places: its own, then the borrowed ones. A solver's local index is a place, and the global
    /// index its row; the places below `own().len()` are the internal ones.
    ///
    /// ```
    /// # let params = rekvashu::DDMParams {
    /// #     leaf_threshold: 2, overlap_knn: 1, coarse_reduction_factor: 2, coarse_threshold: rekvashu::SizePolicy::Fixed(2) };
    /// # let tree = rekvashu::build(&[0.0, 1.0, 3.0, 7.0], 1, params)?;
    /// let leaf = tree.level(0).unwrap().leaf(1).unwrap();
    /// for (local, global) in leaf.rows().enumerate() {
    ///     println!("place {local} is row {global}, internal: {}", local < leaf.own().len());
    /// }
    /// assert_eq!(leaf.rows().collect::<Vec<_>>(), [1, 0, 2]);
    /// # Ok::<(), rekvashu::Error>(())
    /// ```
    pub fn rows(&self) -> impl ExactSizeIterator<Item = usize> + DoubleEndedIterator + Clone + 'a {
        let (own, borrowed) = (self.own(), self.borrowed());
        (0..own.len() + borrowed.len()).map(move |place| if place < own.len() { own[place] } else { borrowed[place - own.len()] })
    }

    /// How many places it has: own and borrowed rows.
    pub fn len(&self) -> usize {
        let row = self.numbers();
        row[OWN_COUNT] + row[BORROWED_COUNT]
    }

    /// Whether it has no rows; a leaf can be empty where the leaf threshold is 1.
    pub fn is_empty(&self) -> bool {
        self.len() == 0
    }

    /// The lower and the upper bounds of its box, by axis. The coarse domain has none.
    pub fn bounds(&self) -> Option<(&'a [f64], &'a [f64])> {
        if self.level + 1 == self.tree.levels {
            return None;
        }
        Some(self.floats()[..box_floats(self.tree.dimension)].split_at(self.tree.dimension))
    }

    /// Its cover: how far the worst of its own rows that it does not send up is from the nearest one that it sends. Infinite for a leaf
    /// that has rows and sends none, 0 for an empty leaf and for the coarse domain. A loaded tree has the covers of its file.
    pub fn cover(&self) -> f64 {
        self.floats()[row_cover(self.tree.dimension)]
    }

    /// Its depth: how often its level was cut to make it, at most 21. From one leaf of a level to the next it never falls, and a leaf at
    /// depth e in a level of a rows has a / 2^e of them, rounded down, or one more. 0 for the coarse domain. A loaded tree has the depths of
    /// its file.
    pub fn depth(&self) -> usize {
        self.numbers()[DEPTH]
    }
}
