//! The library's calls. Where one lends lists, it is first made without any: what the settings and counts refuse is refused then, and
//! otherwise the lists are too short (11), which asks for them.
use crate::lists::{reserved, BuildSizes, Lists};
use crate::packed::*;
use crate::{sys, DDMParams, Error, Refusal, Tree};

/// The refusal of a list that is too short.
const SHORT_LIST: usize = 11;

/// Major * 100 + minor of this crate, whose strides are those of that version.
const SERIES: usize = whole(env!("CARGO_PKG_VERSION_MAJOR")) * 100 + whole(env!("CARGO_PKG_VERSION_MINOR"));

/// A whole number in decimal digits.
const fn whole(digits: &str) -> usize {
    let (digits, mut number, mut at) = (digits.as_bytes(), 0, 0);
    while at < digits.len() {
        number = 10 * number + (digits[at] - b'0') as usize;
        at += 1;
    }
    number
}

/// The version of the linked library: major * 10,000 + minor * 100 + patch.
///
/// ```
/// assert!(rekvashu::version() >= 900);
/// ```
pub fn version() -> usize {
    sys::version()
}

/// Lists are lent only to a library of this crate's series: in another one the rows may be wider.
pub(crate) fn right_version() -> Result<(), Error> {
    match version() {
        number if number / 100 == SERIES => Ok(()),
        number => Err(Error::OtherVersion(number)),
    }
}

pub(crate) fn refused(number: usize, place: usize) -> Error {
    Error::Refused(Refusal::new(number, place))
}

/// The entries that the lists of a build need, over `n` points of this dimension. Refusals 1, 5, 6, 8.
///
/// ```
/// let sizes = rekvashu::build_sizes(1000, 2, 16)?;
/// assert_eq!((sizes.level_points, sizes.borrowed, sizes.bytes() / 1000), (4000, 102_000, 3216));
/// # Ok::<(), rekvashu::Refusal>(())
/// ```
pub fn build_sizes(n: usize, dimension: usize, neighbours: u32) -> Result<BuildSizes, Refusal> {
    let mut slot = [0; SIZES_SLOT];
    match sys::build_sizes(n, dimension, neighbours, &mut slot) {
        0 => Ok(BuildSizes::of(&slot)),
        number => Err(Refusal::new(number, 0)),
    }
}

/// Builds the tree over the points: `points` holds the coordinates, `dimension` of them for each row. Refusals 1 to 10.
///
/// The tree keeps the cuts that made it, 16 bytes a node: [`Level::nodes`](crate::Level::nodes) gives them from the root downwards, the left
/// half of each cut completely before the right.
///
/// ```
/// use rekvashu::{build, DDMParams, NodeKind, SizePolicy};
///
/// let params = DDMParams { leaf_threshold: 2, overlap_knn: 1, coarse_reduction_factor: 2, coarse_threshold: SizePolicy::Fixed(2) };
/// let tree = build(&[0.0, 1.0, 3.0, 7.0], 1, params)?;
/// assert_eq!(tree.level(0).unwrap().rows(), [0, 1, 2, 3]);
/// for node in tree.level(0).unwrap().nodes() {
///     match node.kind {
///         NodeKind::Cut { axis, plane } => println!("{:w$}axis {axis} at {plane}", "", w = 2 * node.depth),
///         NodeKind::Leaf(number) => println!("{:w$}leaf {number}", "", w = 2 * node.depth),
///     }
/// }
/// # Ok::<(), rekvashu::Error>(())
/// ```
pub fn build(points: &[f64], dimension: usize, params: DDMParams) -> Result<Tree, Error> {
    let call = |lists: &mut Lists, slot: &mut _| sys::build(points, dimension, params, lists, slot);
    built(call, rows(points, dimension), dimension, params)
}

/// Builds the same tree as [`build`], with the same record of its cuts, by another engine: it cuts the left half of a domain completely
/// before the right. Refusals 1 to 10.
///
/// ```
/// use rekvashu::{build, build_depth_first, DDMParams, SizePolicy};
///
/// let params = DDMParams { leaf_threshold: 2, overlap_knn: 1, coarse_reduction_factor: 2, coarse_threshold: SizePolicy::Fixed(2) };
/// let (tree, same) = (build(&[0.0, 1.0, 3.0, 7.0], 1, params)?, build_depth_first(&[0.0, 1.0, 3.0, 7.0], 1, params)?);
/// assert_eq!(tree, same);
/// assert!(tree.level(0).unwrap().nodes().eq(same.level(0).unwrap().nodes()));
/// # Ok::<(), rekvashu::Error>(())
/// ```
pub fn build_depth_first(points: &[f64], dimension: usize, params: DDMParams) -> Result<Tree, Error> {
    let call = |lists: &mut Lists, slot: &mut _| sys::build_depth_first(points, dimension, params, lists, slot);
    built(call, rows(points, dimension), dimension, params)
}

/// How many points these are; none where the dimension is 0, which every build refuses.
fn rows(points: &[f64], dimension: usize) -> usize {
    points.len().checked_div(dimension).unwrap_or(0)
}

/// The tree that a build over `n` points makes in lists of the stated lengths.
pub(crate) fn built(
    build: impl Fn(&mut Lists, &mut [usize; BUILD_SLOT]) -> usize, n: usize, dimension: usize, params: DDMParams,
) -> Result<Tree, Error> {
    right_version()?;
    let mut slot = [0; BUILD_SLOT];
    match build(&mut Lists::default(), &mut slot) {
        SHORT_LIST => {}
        number => return Err(refused(number, slot[SLOT_PLACE])),
    }
    let mut lists = Lists::reserved(&build_sizes(n, dimension, params.overlap_knn)?)?;
    match build(&mut lists, &mut slot) {
        0 => Ok(Tree::of(dimension, &slot, lists)),
        number => Err(refused(number, slot[SLOT_PLACE])),
    }
}

/// The tree that [`Tree::to_bytes`] gave as these bytes, for the points and settings that it was built for, without the record of its
/// cuts: a file of other settings is refused with 18, one of other points with 19, and a damaged one with 20. Refusals 1 to 10, 20, 18, 19.
///
/// ```
/// use rekvashu::{build, load, DDMParams};
///
/// let (points, params) = ([0.0, 0.0, 3.0, 4.0], DDMParams::default());
/// let file = build(&points, 2, params)?.to_bytes(&points, params)?;
/// assert_eq!(load(&points, 2, params, &file)?, build(&points, 2, params)?);
/// assert_eq!(load(&[0.0, 0.0, 3.0, 5.0], 2, params, &file).unwrap_err().refusal().unwrap().number, 19);
/// # Ok::<(), rekvashu::Error>(())
/// ```
pub fn load(points: &[f64], dimension: usize, params: DDMParams, file: &[u8]) -> Result<Tree, Error> {
    right_version()?;
    let mut slot = [0; BUILD_SLOT];
    match sys::load(points, dimension, params, file, &mut Lists::default(), &mut slot) {
        SHORT_LIST => {}
        number => return Err(refused(number, slot[SLOT_PLACE])),
    }
    let sizes = build_sizes(points.len() / dimension, dimension, params.overlap_knn)?;
    let mut lists = Lists::reserved(&sizes.of_tree())?;
    match sys::load(points, dimension, params, file, &mut lists, &mut slot) {
        0 => Ok(Tree::of(dimension, &slot, lists)),
        number => Err(refused(number, slot[SLOT_PLACE])),
    }
}

impl Tree {
    /// The tree as the bytes of a file, with the points and settings that it was built or loaded for: [`load`] takes them. Other points or
    /// settings are written as they are given; a tree that does not fit them is refused with 20. Refusals 1 to 10, 20.
    pub fn to_bytes(&self, points: &[f64], params: DDMParams) -> Result<Vec<u8>, Error> {
        right_version()?;
        let dimension = self.dimension();
        let sizes = build_sizes(points.len() / dimension, dimension, params.overlap_knn)?;
        let (tree, lists) = self.lent(&sizes)?;
        let mut file = reserved(file_bytes(dimension, points.len() / dimension, &tree, self.borrowed_rows()))?;
        let mut slot = [0; STORE_SLOT];
        match sys::store(points, dimension, params, &tree, &lists, &mut file, &mut slot) {
            0 => Ok(file),
            number => Err(refused(number, slot[STORE_PLACE])),
        }
    }
}

/// A sample of the points: see [`sample`].
#[derive(Clone, Debug, PartialEq)]
#[non_exhaustive]
pub struct Sample {
    /// The rows, in the order in which they were taken.
    pub rows: Vec<usize>,
    /// How far the worst row that was not taken is from the nearest one that was: 0 where all were taken, and infinite where that distance
    /// is too large.
    pub cover: f64,
}

/// Farthest point sampling: `wanted` rows of the points, from the row `seed` on, and how far that leaves the others. Refusals 1, 6, 7, 8,
/// 13, 10.
///
/// ```
/// let sample = rekvashu::sample(&[0.0, 1.0, 3.0, 7.0], 1, 3, 1)?;
/// assert_eq!((&sample.rows[..], sample.cover), (&[1, 3, 2][..], 1.0));
/// # Ok::<(), rekvashu::Error>(())
/// ```
pub fn sample(points: &[f64], dimension: usize, wanted: usize, seed: usize) -> Result<Sample, Error> {
    right_version()?;
    let (mut cover, mut slot) = ([0.0; COVER_SLOT], [0; SAMPLE_SLOT]);
    match sys::sample(points, dimension, wanted, seed, &mut Vec::new(), &mut Vec::new(), &mut Vec::new(), &mut cover, &mut slot) {
        SHORT_LIST => {}
        number => return Err(refused(number, slot[SAMPLE_PLACE])),
    }
    let n = points.len() / dimension;
    let (mut rows, mut floats, mut wholes) = (reserved(wanted)?, reserved(2 * n)?, reserved(n)?);
    match sys::sample(points, dimension, wanted, seed, &mut rows, &mut floats, &mut wholes, &mut cover, &mut slot) {
        0 => Ok(Sample { rows, cover: cover[0] }),
        number => Err(refused(number, slot[SAMPLE_PLACE])),
    }
}

/// The size of the next level, of `a` active rows at the threshold `c` with `r` reductions left. Refusals 4, 8, 14, 9.
///
/// ```
/// assert_eq!(rekvashu::level_size(10, 3, 2)?, 6);
/// assert_eq!(rekvashu::level_size(3, 3, 2).unwrap_err().number, 14);
/// # Ok::<(), rekvashu::Refusal>(())
/// ```
pub fn level_size(a: usize, c: u32, r: u32) -> Result<usize, Refusal> {
    let mut slot = [0; LEVEL_SIZE_SLOT];
    match sys::level_size(a, c, r, &mut slot) {
        0 => Ok(slot[0]),
        number => Err(Refusal::new(number, 0)),
    }
}

/// The quotas of leaves of these sizes for a level of `wanted` rows. Refusal 8.
///
/// ```
/// assert_eq!(rekvashu::quotas(&[5, 3, 0, 2], 4)?, [2, 1, 0, 1]);
/// # Ok::<(), rekvashu::Error>(())
/// ```
pub fn quotas(sizes: &[usize], wanted: usize) -> Result<Vec<usize>, Error> {
    right_version()?;
    let (mut out, mut wholes, mut slot) = (reserved(sizes.len())?, reserved(sizes.len())?, [0; QUOTA_SLOT]);
    match sys::quotas(sizes, wanted, &mut out, &mut wholes, &mut slot) {
        0 => Ok(out),
        number => Err(refused(number, 0)),
    }
}

/// The square root, rounded to the nearest value. Refusal 15.
///
/// ```
/// assert_eq!(rekvashu::square_root(6.25)?, 2.5);
/// assert_eq!(rekvashu::square_root(-1.0).unwrap_err().number, 15);
/// # Ok::<(), rekvashu::Refusal>(())
/// ```
pub fn square_root(x: f64) -> Result<f64, Refusal> {
    let mut slot = [0.0; ROOT_SLOT];
    match sys::square_root(x, &mut slot) {
        0 => Ok(slot[0]),
        number => Err(Refusal::new(number, 0)),
    }
}

#[cfg(test)]
mod tests {
    use super::*;

    #[test]
    fn versions_are_read() {
        assert_eq!((whole("0"), whole("12"), SERIES), (0, 12, version() / 100));
    }

    #[test]
    fn sizes_are_those_of_the_documents() {
        let (sizes, rows) = (build_sizes(1000, 3, 16).unwrap(), 6001);
        assert_eq!((sizes.level_points, sizes.internals), (4000, 4000));
        assert_eq!((sizes.domains, sizes.boxes), (ROW_NUMBERS * rows, 7 * rows));
        assert_eq!((sizes.borrowed, sizes.floats, sizes.wholes), (102_000, 32_000, 176_000));
        assert_eq!((sizes.cuts, sizes.planes), (12_000, 12_000));
        let refused = |n, d, k| build_sizes(n, d, k).unwrap_err().number;
        assert_eq!((refused(0, 4, 65), refused(0, 3, 65), refused(0, 3, 64), refused(1_048_577, 3, 64)), (1, 5, 6, 8));
    }
}
