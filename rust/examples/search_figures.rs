//! Figures, not a test: the scan of every pair and the search of the record for each row's neighbours, in one run over the same wells, one
//! thread; and whole builds of many wells.
//!
//!     rust/figures.sh --search
//!
//! For each input it prints the processor milliseconds of both for all rows, those of the search with its table of positions and its index, the
//! ratio search / scan, and the whole neighbour stage, which searches, sorts what the leaves lend each other, and writes it. Both must find
//! the same rows at the same squared distances, in the same order. Where many inputs of one size are compared, the scan is asked for some rows
//! only, and its time is that of these times as many as they stand for: each row costs it the same.
mod stage;

use rekvashu::{build, DDMParams, SizePolicy};
use stage::packed::ROW_NUMBERS;
use stage::{compared, lattice, units, Cut, Lent};
use std::cell::RefCell;

#[link(name = "ddm_stages", kind = "static")]
extern "C" {
    fn stage_leaves(
        points: *const f64, points_len: usize, dimensions: usize, leaf: usize, active: *const usize, active_len: usize,
        internals: *mut usize, internals_len: usize, domains: *mut usize, domains_len: usize, boxes: *mut f64, boxes_len: usize,
        floats: *mut f64, floats_len: usize, wholes: *mut usize, wholes_len: usize, cuts: *mut usize, cuts_len: usize,
        planes: *mut f64, planes_len: usize,
    ) -> usize;
    fn stage_positions(
        active: *const usize, active_len: usize, internals: *const usize, internals_len: usize, domains: *const usize, domains_len: usize,
        m: usize, owners: *mut usize, owners_len: usize, positions: *mut usize, positions_len: usize,
    );
    fn stage_index(
        cuts: *const usize, cuts_len: usize, planes: *const f64, planes_len: usize, internals: *const usize, internals_len: usize,
        domains: *const usize, domains_len: usize, m: usize, positions: *const usize, positions_len: usize, index: *mut usize,
        index_len: usize,
    );
    fn stage_search(
        points: *const f64, points_len: usize, dimensions: usize, neighbours: usize, active: *const usize, active_len: usize,
        cuts: *const usize, cuts_len: usize, planes: *const f64, planes_len: usize, index: *const usize, index_len: usize,
        internals: *const usize, internals_len: usize, domains: *const usize, domains_len: usize, m: usize, positions: *const usize,
        positions_len: usize, bounds: *const f64, bounds_len: usize, row: usize, near: *mut usize, near_len: usize, far: *mut f64,
        far_len: usize,
    ) -> usize;
    fn stage_scan(
        points: *const f64, points_len: usize, dimensions: usize, neighbours: usize, active: *const usize, active_len: usize, row: usize,
        near: *mut usize, near_len: usize, far: *mut f64, far_len: usize,
    ) -> usize;
    fn stage_overlaps(
        points: *const f64, points_len: usize, dimensions: usize, neighbours: usize, active: *const usize, active_len: usize,
        cuts: *const usize, cuts_len: usize, planes: *const f64, planes_len: usize, internals: *const usize, internals_len: usize,
        domains: *mut usize, domains_len: usize, m: usize, borrowed: *mut usize, borrowed_len: usize, wholes: *mut usize,
        wholes_len: usize,
    ) -> usize;
}

/// The neighbours of each row that was asked: positions and squared distances, and how many they are.
#[derive(PartialEq)]
struct Found {
    neighbours: usize,
    near: Vec<usize>,
    far: Vec<f64>,
    counts: Vec<usize>,
}

impl Found {
    fn new(n: usize, neighbours: usize) -> Found {
        Found { neighbours, near: vec![0; n * neighbours], far: vec![0.0; n * neighbours], counts: vec![0; n] }
    }

    /// What a stage finds for the row at this position, with the lists that it writes.
    fn put(&mut self, p: usize, find: impl FnOnce(&mut [usize], &mut [f64]) -> usize) {
        let range = p * self.neighbours..(p + 1) * self.neighbours;
        self.counts[p] = find(&mut self.near[range.clone()], &mut self.far[range]);
    }
}

/// A level over all rows that is cut, with what the search goes by.
struct Level<'a> {
    coords: &'a [f64],
    d: usize,
    neighbours: usize,
    rows: Vec<usize>,
    lent: Lent,
    leaves: usize,
    bounds: Vec<f64>,
    owners: Vec<usize>,
    positions: Vec<usize>,
    index: Vec<usize>,
}

impl Level<'_> {
    fn new(coords: &[f64], d: usize, leaf: usize, neighbours: usize) -> Level<'_> {
        let n = coords.len() / d;
        let rows: Vec<usize> = (0..n).collect();
        let mut lent = Lent::for_cut(n, d);
        let leaves = lent.cut(Cut::Recorded(stage_leaves), coords, d, leaf, &rows);
        let axis = |a: usize| coords.iter().skip(a).step_by(d).copied();
        let lower = (0..d).map(|a| axis(a).fold(f64::INFINITY, f64::min));
        let bounds = lower.chain((0..d).map(|a| axis(a).fold(f64::NEG_INFINITY, f64::max))).collect();
        let entries = 2 * lent.record(leaves).0.len();
        Level { coords, d, neighbours, rows, lent, leaves, bounds, owners: vec![0; n], positions: vec![0; n], index: vec![0; entries] }
    }

    /// The positions of the leaves' rows, and the index of the record.
    fn file(&mut self) {
        let l = &self.lent;
        let (cuts, planes) = l.record(self.leaves);
        unsafe {
            stage_positions(
                self.rows.as_ptr(), self.rows.len(), l.internals.as_ptr(), l.internals.len(), l.domains.as_ptr(), l.domains.len(),
                self.leaves, self.owners.as_mut_ptr(), self.owners.len(), self.positions.as_mut_ptr(), self.positions.len(),
            );
            stage_index(
                cuts.as_ptr(), cuts.len(), planes.as_ptr(), planes.len(), l.internals.as_ptr(), l.internals.len(), l.domains.as_ptr(),
                l.domains.len(), self.leaves, self.positions.as_ptr(), self.positions.len(), self.index.as_mut_ptr(), self.index.len(),
            );
        }
    }

    fn search(&self, row: usize, near: &mut [usize], far: &mut [f64]) -> usize {
        let l = &self.lent;
        let (cuts, planes) = l.record(self.leaves);
        unsafe {
            stage_search(
                self.coords.as_ptr(), self.coords.len(), self.d, self.neighbours, self.rows.as_ptr(), self.rows.len(), cuts.as_ptr(),
                cuts.len(), planes.as_ptr(), planes.len(), self.index.as_ptr(), self.index.len(), l.internals.as_ptr(),
                l.internals.len(), l.domains.as_ptr(), l.domains.len(), self.leaves, self.positions.as_ptr(), self.positions.len(),
                self.bounds.as_ptr(), self.bounds.len(), row, near.as_mut_ptr(), near.len(), far.as_mut_ptr(), far.len(),
            )
        }
    }

    fn scan(&self, row: usize, near: &mut [usize], far: &mut [f64]) -> usize {
        unsafe {
            stage_scan(
                self.coords.as_ptr(), self.coords.len(), self.d, self.neighbours, self.rows.as_ptr(), self.rows.len(), row,
                near.as_mut_ptr(), near.len(), far.as_mut_ptr(), far.len(),
            )
        }
    }

    /// All rows by the search, in the order in which the leaves have them, as the neighbour stage asks them.
    fn search_all(&mut self, found: &mut Found) {
        self.file();
        for &p in &self.positions {
            found.put(p, |near, far| self.search(self.rows[p], near, far));
        }
    }

    /// Each of so many rows by the scan.
    fn scan_each(&self, step: usize, found: &mut Found) {
        for p in (0..self.rows.len()).step_by(step) {
            found.put(p, |near, far| self.scan(self.rows[p], near, far));
        }
    }

    /// The whole stage, on lists of its own. The answer is how many rows are borrowed.
    fn lend(&self, domains: &mut [usize], borrowed: &mut [usize], wholes: &mut [usize]) -> usize {
        let (internals, (cuts, planes)) = (&self.lent.internals, self.lent.record(self.leaves));
        unsafe {
            stage_overlaps(
                self.coords.as_ptr(), self.coords.len(), self.d, self.neighbours, self.rows.as_ptr(), self.rows.len(), cuts.as_ptr(),
                cuts.len(), planes.as_ptr(), planes.len(), internals.as_ptr(), internals.len(), domains.as_mut_ptr(), domains.len(),
                self.leaves, borrowed.as_mut_ptr(), borrowed.len(), wholes.as_mut_ptr(), wholes.len(),
            )
        }
    }
}

/// Asserts that both found the same for each of so many rows.
fn same(scanned: &Found, searched: &Found, step: usize) {
    for p in (0..scanned.counts.len()).step_by(step) {
        let from = p * scanned.neighbours;
        let to = from + scanned.counts[p];
        let bits = |far: &[f64]| far[from..to].iter().map(|x| x.to_bits()).collect::<Vec<_>>();
        assert_eq!(scanned.counts[p], searched.counts[p], "of row {p} another number is found");
        assert_eq!(scanned.near[from..to], searched.near[from..to], "of row {p} other rows are found");
        assert_eq!(bits(&scanned.far), bits(&searched.far), "of row {p} other squared distances are found");
    }
}

/// What is compared: wells, the leaf threshold and the neighbour count, how often, and every how many rows the scan is asked for.
struct Input<'a> {
    kind: &'a str,
    coords: &'a [f64],
    d: usize,
    leaf: usize,
    neighbours: usize,
    turns: usize,
    step: usize,
}

/// Compares scan and search on one input and prints its line. The answer is the ratio search / scan.
fn line(input: &Input) -> f64 {
    let Input { kind, coords, d, leaf, neighbours, turns, step } = *input;
    let n = coords.len() / d;
    let level = RefCell::new(Level::new(coords, d, leaf, neighbours));
    let (mut scanned, mut searched) = (Found::new(n, neighbours), Found::new(n, neighbours));
    let (scan, search) =
        compared(turns, || level.borrow().scan_each(step, &mut scanned), || level.borrow_mut().search_all(&mut searched));
    let scan = scan * step as f64;
    same(&scanned, &searched, step);
    let level = level.into_inner();
    let pairs = 2 * n * (neighbours + 1);
    let (mut domains, mut borrowed, mut wholes) = (level.lent.domains.clone(), vec![0; pairs], vec![0; 10 * n + pairs]);
    let mut lent = 0;
    let (stage, _) = compared(turns, || lent = level.lend(&mut domains, &mut borrowed, &mut wholes), || ());
    let owned: usize = domains.chunks(ROW_NUMBERS).take(level.leaves).map(|row| row[stage::packed::BORROWED_COUNT]).sum();
    assert_eq!(lent, owned, "the borrowed rows of the leaves");
    println!("{n:>9} {d:>4} {leaf:>5} {neighbours:>11} {kind:<9} {scan:>12.3} {search:>11.3} {:>8.4} {stage:>10.3}", search / scan);
    search / scan
}

/// Wells about a hundred places.
fn clusters(n: usize, d: usize, unit: &mut impl FnMut() -> f64) -> Vec<f64> {
    let places: Vec<f64> = (0..100 * d).map(|_| unit() * 1000.0).collect();
    (0..n).flat_map(|i| (0..d).map(|a| places[i % 100 * d + a] + unit() + unit() + unit()).collect::<Vec<_>>()).collect()
}

/// Random wells, which the scan is asked for one and all; then other thresholds, neighbour counts and wells of the larger size.
fn neighbours(unit: &mut impl FnMut() -> f64) {
    println!("the nearest rows of all rows: processor milliseconds");
    println!("    wells  dim  leaf  neighbours points         scan ms   search ms    ratio   stage ms");
    let mut greatest = 0.0f64;
    for (n, turns) in [(1_000, 40), (200_000, 1)] {
        for d in [2, 3] {
            let coords: Vec<f64> = (0..n * d).map(|_| unit() * 1000.0).collect();
            let ratio = line(&Input { kind: "random", coords: &coords, d, leaf: 64, neighbours: 16, turns, step: 1 });
            greatest = greatest.max(if n == 200_000 { ratio } else { 0.0 });
        }
    }
    println!("greatest ratio at 200,000 wells: {greatest:.4}");
    println!("the same where the scan is asked for every 200th row");
    let n = 200_000;
    for d in [2, 3] {
        let random: Vec<f64> = (0..n * d).map(|_| unit() * 1000.0).collect();
        let input = Input { kind: "random", coords: &random, d, leaf: 64, neighbours: 16, turns: 3, step: 200 };
        for leaf in [8, 256, 4_096] {
            line(&Input { leaf, ..input });
        }
        line(&Input { neighbours: 64, ..input });
        let (clusters, lattice) = (clusters(n, d, unit), lattice(n, d));
        let together: Vec<f64> = (0..n * d).map(|at| random[at % d]).collect();
        // every square is 0, and every one is infinite
        let [near, far] = [1e-180, 1e200].map(|size| random.iter().map(|x| x * size).collect::<Vec<f64>>());
        for (kind, coords) in [("clusters", &clusters), ("lattice", &lattice), ("one place", &together), ("too near", &near), ("too far", &far)] {
            line(&Input { kind, coords, ..input });
        }
    }
}

/// The whole build of random wells.
fn builds(unit: &mut impl FnMut() -> f64) {
    println!("whole builds, leaf 64, neighbours 16, factor 8, Auto: processor milliseconds");
    println!("    wells  dim        ms  levels");
    let params = DDMParams { leaf_threshold: 64, overlap_knn: 16, coarse_reduction_factor: 8, coarse_threshold: SizePolicy::Auto };
    for (n, turns) in [(1_000, 20), (10_000, 5), (50_000, 3), (200_000, 3), (1_048_576, 1)] {
        for d in [2, 3] {
            let coords: Vec<f64> = (0..n * d).map(|_| unit() * 1000.0).collect();
            let mut sizes = Vec::new();
            let built = || sizes = build(&coords, d, params).unwrap().levels().map(|level| level.rows().len()).collect();
            let (time, _) = compared(turns, built, || ());
            println!("{n:>9} {d:>4} {time:>9.1}  {sizes:?}");
        }
    }
}

fn main() {
    let mut unit = units();
    neighbours(&mut unit);
    builds(&mut unit);
}
