//! The crate's settings, trees and records as plain values.
use super::{Leaf, Level, Node, Policy, Settings};
use rekvashu::{DDMParams, NodeKind, SizePolicy, Tree};

pub fn settings(p: DDMParams) -> Settings {
    let policy = match p.coarse_threshold {
        SizePolicy::Auto => Policy::Auto,
        SizePolicy::Fixed(c) => Policy::Fixed(c),
    };
    Settings { leaf: p.leaf_threshold, neighbours: p.overlap_knn, factor: p.coarse_reduction_factor, policy }
}

/// The levels of a tree; the coarse domain has no bounds.
pub fn levels(tree: &Tree) -> Vec<Level> {
    tree.levels()
        .map(|level| Level {
            rows: level.rows().to_vec(),
            leaves: level
                .leaves()
                .map(|leaf| {
                    let (lower, upper) = leaf.bounds().unwrap_or((&[], &[]));
                    let (own, borrowed) = (leaf.own().to_vec(), leaf.borrowed().to_vec());
                    let (lower, upper) = (lower.to_vec(), upper.to_vec());
                    Leaf { own, borrowed, lower, upper, cover: leaf.cover(), depth: leaf.depth() }
                })
                .collect(),
        })
        .collect()
}

/// The nodes of each level's record; the coarse level has none.
pub fn records(tree: &Tree) -> Vec<Vec<Node>> {
    tree.levels()
        .map(|level| {
            level
                .nodes()
                .map(|node| match node.kind {
                    NodeKind::Cut { axis, plane } => Node::Cut { depth: node.depth, axis, plane },
                    NodeKind::Leaf(number) => Node::Leaf { depth: node.depth, number },
                })
                .collect()
        })
        .collect()
}

/// Whether a tree has the records of these fine levels, planes compared by their bits, and none on its coarse level.
pub fn has_records(tree: &Tree, fine: &[Vec<Node>]) -> bool {
    let bits = |nodes: &Vec<Node>| nodes.iter().map(|node| (node.depth(), node.lent().0, node.lent().1.to_bits())).collect::<Vec<_>>();
    let (ours, coarse) = (records(tree), [Vec::new()]);
    ours.len() == fine.len() + 1 && ours.iter().zip(fine.iter().chain(&coarse)).all(|(a, b)| bits(a) == bits(b))
}
