//! The proved tree construction of Rekvashu, for Rust callers.
//!
//! [`build`] takes the wells' coordinates, the dimension and the settings, lends the library its lists, and answers with the [`Tree`],
//! or with an [`Error`]: a [`Refusal`] says what is wrong and who can mend it. The library itself is proved; this crate only lends it
//! lists and reads them, and its tests compare it with a plain implementation.
//!
//! ```
//! use rekvashu::{build, DDMParams, SizePolicy};
//!
//! // four wells on a line; a coarse threshold of 2 asks for one level above the coarse one
//! let params = DDMParams { leaf_threshold: 2, overlap_knn: 1, coarse_reduction_factor: 2, coarse_threshold: SizePolicy::Fixed(2) };
//! let tree = build(&[0.0, 1.0, 3.0, 7.0], 1, params)?;
//! for level in tree.levels() {
//!     for leaf in level.leaves() {
//!         println!("{:?} borrows {:?}", leaf.own(), leaf.borrowed());
//!     }
//! }
//! assert_eq!(tree.len(), 2);
//! # Ok::<(), rekvashu::Error>(())
//! ```
//!
//! [`Leaf::cover`] says how far the worst well that a leaf does not send up is from the nearest one that it sends: the factor is set by it.
//! [`Leaf::depth`] says how often a level was cut to make the leaf.
//!
//! A tree that was built keeps its cuts, which [`Level::nodes`] gives from the root downwards. [`build_depth_first`] builds the same tree,
//! with the same cuts, by another engine.
//!
//! A [`Table`] of wells is edited between builds: wells are added and retired, and the tree is built over those that are live.
//! [`Table::close`] closes the gaps that retired wells leave, and says how the slots of a tree built before are named now.
//!
//! [`Tree::to_bytes`] gives a tree as the bytes of a file, with the points and settings that it was built for, and [`load`] takes them: a tree
//! is handed out only where the file is whole and sound and the present points and settings are its own, bit for bit.
//!
//! # Memory, threads, floating environment
//!
//! The lists of a build have room for the worst input ([`build_sizes`]: 3,216 bytes a well in two dimensions with 16 neighbours) and are
//! reserved without being filled, so that only what the build touches costs memory. Where they can't be had, the answer is
//! [`Error::OutOfMemory`], and settings and counts that are refused are refused before. The library has no global state: any number of
//! threads may build and read at once. It needs round to nearest and no flush to zero, as Rust itself does, on x86-64 Linux.
#![warn(missing_docs)]

mod calls;
mod lists;
mod packed;
mod params;
mod record;
mod refusal;
mod sys;
mod table;
mod tree;

pub use calls::{build, build_depth_first, build_sizes, level_size, load, quotas, sample, square_root, version, Sample};
pub use lists::BuildSizes;
pub use params::{DDMParams, SizePolicy};
pub use record::{Node, NodeKind};
pub use refusal::{Error, Mender, Refusal};
pub use table::Table;
pub use tree::{Leaf, Level, Tree};
