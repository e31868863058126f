//! The cut record of a level: its cuts from the root downwards.
use crate::packed::{RECORD_DEEPEST, RECORD_LEAF};

/// A node of a level's cut record: see [`Level::nodes`](crate::Level::nodes).
#[derive(Clone, Copy, Debug, PartialEq)]
pub struct Node {
    /// How many cuts stand above it: 0 for the root.
    pub depth: usize,
    /// What it is.
    pub kind: NodeKind,
}

/// What a node of a cut record is.
#[derive(Clone, Copy, Debug, PartialEq)]
pub enum NodeKind {
    /// A domain that is cut. Its left half is the next node, one deeper, and its right half the next one of that depth. Rows below the
    /// plane are to its left and rows above it to its right; rows on the plane are shared out by their numbers, so such a row may be on
    /// either side.
    Cut {
        /// The axis, from 0.
        axis: usize,
        /// The plane: the coordinate, with its bits, of the right row that came first in the cut's order.
        plane: f64,
    },
    /// A leaf: [`Level::leaf`](crate::Level::leaf) of this number.
    Leaf(usize),
}

/// The nodes of a record that are still to come.
#[derive(Clone, Debug)]
pub(crate) struct Nodes<'a> {
    cuts: &'a [usize],
    planes: &'a [f64],
    /// The depth of the next node.
    depth: usize,
    /// The depths of the right halves that are still to come, the next one last.
    right: Vec<usize>,
}

impl<'a> Nodes<'a> {
    pub(crate) fn new(cuts: &'a [usize], planes: &'a [f64]) -> Self {
        Nodes { cuts, planes, depth: 0, right: Vec::with_capacity(RECORD_DEEPEST) }
    }
}

impl Iterator for Nodes<'_> {
    type Item = Node;

    fn next(&mut self) -> Option<Node> {
        let ((&whole, cuts), (&plane, planes)) = (self.cuts.split_first()?, self.planes.split_first()?);
        (self.cuts, self.planes) = (cuts, planes);
        let depth = self.depth;
        if whole < RECORD_LEAF {
            self.depth = depth + 1;
            self.right.push(depth + 1);
            return Some(Node { depth, kind: NodeKind::Cut { axis: whole, plane } });
        }
        // behind the last leaf there is no node, whatever its depth
        self.depth = self.right.pop().unwrap_or(0);
        Some(Node { depth, kind: NodeKind::Leaf(whole - RECORD_LEAF) })
    }

    fn size_hint(&self) -> (usize, Option<usize>) {
        (self.cuts.len(), Some(self.cuts.len()))
    }
}

impl ExactSizeIterator for Nodes<'_> {}
