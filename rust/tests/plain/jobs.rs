//! Random jobs of the comparisons: wells that lie in every way that a search for neighbours may stumble over, and settings.
use super::random::{Random, KINDS};
use rekvashu::{DDMParams, SizePolicy};

/// How the wells of a job lie.
#[derive(Clone, Copy, Debug, PartialEq, Eq)]
pub enum Wells {
    /// Each at a place of its own, or by chance at another's.
    Scattered,
    /// Shared out by chance among a few places.
    Nested,
    /// On a grid, row by row.
    Lattice,
    /// On a grid, in any order.
    Shuffled,
    /// All at one place.
    Together,
    /// Half of them at one place, and the others scattered.
    Half,
    /// A hundred at each place.
    Hundreds,
}

/// The first two come up more often than the others.
pub const WELLS: [Wells; 12] = {
    use Wells::*;
    [Nested, Scattered, Nested, Lattice, Nested, Scattered, Shuffled, Together, Nested, Half, Scattered, Hundreds]
};

/// The neighbour counts that half of the jobs have; the others have any below 12.
pub const NEIGHBOURS: [u32; 4] = [0, 1, 16, 64];

pub struct Job {
    pub wells: Wells,
    pub coords: Vec<f64>,
    pub d: usize,
    pub params: DDMParams,
}

/// The job of this number. But where its wells are scattered its tree has a fine level.
pub fn job(random: &mut Random, number: usize) -> Job {
    let wells = WELLS[number % WELLS.len()];
    let d = 1 + random.below(3);
    let n = match wells {
        Wells::Scattered => 1 + random.below(90),
        Wells::Hundreds => 100 * (1 + random.below(3)) + random.below(50),
        _ => 2 + random.below(120),
    };
    let coords = coordinates(random, wells, n, d);
    Job { wells, coords, d, params: params(random, wells, n) }
}

fn params(random: &mut Random, wells: Wells, n: usize) -> DDMParams {
    let factor = 2 + random.below(5);
    let least = n.div_ceil(factor.pow(3));
    let coarse = if wells == Wells::Scattered { 1 + random.below(30) } else { least + random.below(n - least) };
    DDMParams {
        leaf_threshold: leaf_threshold(random, n) as u32,
        overlap_knn: if random.below(2) == 0 { NEIGHBOURS[random.below(4)] } else { random.below(12) as u32 },
        coarse_reduction_factor: factor as u32,
        coarse_threshold: SizePolicy::Fixed(coarse as u32),
    }
}

/// Mostly small, sometimes 1, about n, or as large as there is one.
fn leaf_threshold(random: &mut Random, n: usize) -> usize {
    match random.below(12) {
        0 => 1,
        1 => 1 + random.below(n),
        2 => n + random.below(3),
        3 if random.below(4) == 0 => u32::MAX as usize,
        _ => 1 + random.below(12),
    }
}

fn coordinates(random: &mut Random, wells: Wells, n: usize, d: usize) -> Vec<f64> {
    let kind = random.below(KINDS);
    let places = match wells {
        Wells::Nested => 1 + random.below(n / 2),
        Wells::Together => 1,
        Wells::Hundreds => n.div_ceil(100),
        Wells::Lattice | Wells::Shuffled => return grid(random, wells == Wells::Shuffled, n, d),
        Wells::Scattered | Wells::Half => n,
    };
    let coords: Vec<f64> = (0..places * d).map(|_| random.coordinate(kind)).collect();
    let place = |i: usize| match wells {
        Wells::Nested => random.below(places),
        Wells::Half => if random.below(2) == 0 { 0 } else { i },
        _ => i % places,
    };
    at_places(&coords, d, (0..n).map(place))
}

/// The rows of a list of points in this order.
fn at_places(coords: &[f64], d: usize, places: impl Iterator<Item = usize>) -> Vec<f64> {
    places.flat_map(|i| coords[i * d..(i + 1) * d].to_vec()).collect()
}

/// A grid whose step is one or a size at the edges of the format, from a corner that may lie anywhere near zero: many rows are equally far from
/// each.
fn grid(random: &mut Random, shuffled: bool, n: usize, d: usize) -> Vec<f64> {
    let side = (1..).find(|side: &usize| side.pow(d as u32) >= n).unwrap();
    let step = [1.0, 0.1, 1e-160, 1e-170, 5e-324, 1e150, 1e200][random.below(7)];
    let corner = random.below(side + 1) as f64;
    let coords: Vec<f64> = (0..n * d).map(|at| ((at / d / side.pow((at % d) as u32) % side) as f64 - corner) * step).collect();
    let mut order: Vec<usize> = (0..n).collect();
    for i in (1..if shuffled { n } else { 0 }).rev() {
        order.swap(i, random.below(i + 1));
    }
    at_places(&coords, d, order.into_iter())
}
