//! The settings of a build, by the names of `ferreus_rbf`.

/// How the coarse threshold is set.
#[derive(Clone, Copy, Debug, Default, PartialEq, Eq, Hash)]
pub enum SizePolicy {
    /// The ceiling of n / 32, held between 512 and 4,096.
    #[default]
    Auto,
    /// This many rows; 0 is refused.
    Fixed(u32),
}

/// The settings of a build. The default has the values of the type whose name it takes.
///
/// ```
/// use rekvashu::{DDMParams, SizePolicy};
///
/// let params = DDMParams { leaf_threshold: 64, ..DDMParams::default() };
/// assert_eq!((params.overlap_knn, params.coarse_reduction_factor, params.coarse_threshold), (16, 128, SizePolicy::Auto));
/// ```
#[derive(Clone, Copy, Debug, PartialEq, Eq, Hash)]
pub struct DDMParams {
    /// The leaf threshold, from 1 up: a domain of at least twice as many rows is cut again. 256 by default.
    pub leaf_threshold: u32,
    /// The neighbour count, at most 64: how many others of each row, the nearest, are looked at for rows to borrow. 16 by default;
    /// with 0 nothing is borrowed.
    pub overlap_knn: u32,
    /// The factor, from 2 up, by which a level may shrink. 128 by default.
    pub coarse_reduction_factor: u32,
    /// The most rows of the coarse level. [`SizePolicy::Auto`] by default.
    pub coarse_threshold: SizePolicy,
}

impl Default for DDMParams {
    fn default() -> Self {
        DDMParams { leaf_threshold: 256, overlap_knn: 16, coarse_reduction_factor: 128, coarse_threshold: SizePolicy::Auto }
    }
}
