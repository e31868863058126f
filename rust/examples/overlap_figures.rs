//! Figures, not a test: the neighbour stage of an earlier commit and the present one, in one run, on the same input.
//!
//!     rust/figures.sh --against COMMIT
//!
//! For each input it prints the processor milliseconds of both and the ratio now / before; at the end the greatest ratio. No two rows of an
//! input stand at one place, so both must lend the same rows. Before version 0.9.0 the stage scanned every pair; `search_figures` times the
//! scan and the search of one library.
mod stage;

use stage::{against, compared, exported, lattice, stretches, units, Against, Cut, Lent};
use std::cell::RefCell;
use std::ffi::c_void;

const LEAF: usize = 64;

/// The neighbour stage as rust/stages exports it.
type Searching = unsafe extern "C" fn(
    points: *const f64, points_len: usize, dimensions: usize, neighbours: usize, active: *const usize, active_len: usize,
    cuts: *const usize, cuts_len: usize, planes: *const f64, planes_len: usize, internals: *const usize, internals_len: usize,
    domains: *mut usize, domains_len: usize, m: usize, borrowed: *mut usize, borrowed_len: usize, wholes: *mut usize, wholes_len: usize,
) -> usize;

/// The neighbour stage before it went by the record.
type Scanning = unsafe extern "C" fn(
    points: *const f64, points_len: usize, dimensions: usize, neighbours: usize, active: *const usize, active_len: usize,
    internals: *const usize, internals_len: usize, domains: *mut usize, domains_len: usize, m: usize,
    borrowed: *mut usize, borrowed_len: usize, wholes: *mut usize, wholes_len: usize,
) -> usize;

#[derive(Clone, Copy)]
enum Overlaps {
    Searching(Searching),
    Scanning(Scanning),
}

/// The stages of each library, and the numbers of its domain rows.
#[derive(Clone, Copy)]
struct Stages {
    cuts: [Cut; 2],
    overlaps: [Overlaps; 2],
    row_numbers: [usize; 2],
}

impl Stages {
    fn of(against: &Against) -> Stages {
        let [before, now] = against.libraries.map(|library| exported(library, c"stage_overlaps"));
        let searching = |found| Overlaps::Searching(unsafe { std::mem::transmute::<*mut c_void, Searching>(found) });
        let scanning = |found| Overlaps::Scanning(unsafe { std::mem::transmute::<*mut c_void, Scanning>(found) });
        let before = if against.had_records() { searching(before) } else { scanning(before) };
        Stages { cuts: against.cuts(), overlaps: [before, searching(now)], row_numbers: against.row_numbers() }
    }
}

/// A level that is cut, with the lists that the stage writes to. Each library has domain rows of its own.
struct Level<'a> {
    coords: &'a [f64],
    d: usize,
    neighbours: usize,
    rows: Vec<usize>,
    /// What the present library cut: its own rows and its record.
    now: Lent,
    domains: [Vec<usize>; 2],
    leaves: usize,
    borrowed: Vec<usize>,
    wholes: Vec<usize>,
}

impl Level<'_> {
    fn new(cuts: [Cut; 2], coords: &[f64], d: usize, neighbours: usize) -> Level<'_> {
        let n = coords.len() / d;
        let rows: Vec<usize> = (0..n).collect();
        let [(leaves, before), (_, now)] = cuts.map(|cut| {
            let mut lent = Lent::for_cut(n, d);
            (lent.cut(cut, coords, d, LEAF, &rows), lent)
        });
        let (domains, pairs) = ([before.domains, now.domains.clone()], 2 * n * (neighbours + 1));
        Level { coords, d, neighbours, rows, now, domains, leaves, borrowed: vec![0; pairs], wholes: vec![0; 10 * n + pairs] }
    }

    /// The stage of one library: 0 the earlier one, 1 the present one.
    fn lend(&mut self, stages: Stages, which: usize) -> usize {
        let (coords, d, neighbours, leaves, rows, domains) =
            (self.coords, self.d, self.neighbours, self.leaves, &self.rows, &mut self.domains[which]);
        let (internals, (cuts, planes)) = (&self.now.internals, self.now.record(leaves));
        let (borrowed, wholes) = (&mut self.borrowed, &mut self.wholes);
        match stages.overlaps[which] {
            Overlaps::Searching(stage) => unsafe {
                stage(
                    coords.as_ptr(), coords.len(), d, neighbours, rows.as_ptr(), rows.len(), cuts.as_ptr(), cuts.len(), planes.as_ptr(),
                    planes.len(), internals.as_ptr(), internals.len(), domains.as_mut_ptr(), domains.len(), leaves,
                    borrowed.as_mut_ptr(), borrowed.len(), wholes.as_mut_ptr(), wholes.len(),
                )
            },
            Overlaps::Scanning(stage) => unsafe {
                stage(
                    coords.as_ptr(), coords.len(), d, neighbours, rows.as_ptr(), rows.len(), internals.as_ptr(), internals.len(),
                    domains.as_mut_ptr(), domains.len(), leaves, borrowed.as_mut_ptr(), borrowed.len(), wholes.as_mut_ptr(), wholes.len(),
                )
            },
        }
    }
}

/// Compares the stages on one level and prints its line. The answer is the ratio now / before.
fn line(stages: Stages, kind: &str, mut level: Level, turns: usize) -> f64 {
    let [before, now] = [0, 1].map(|which| {
        let lent = level.lend(stages, which);
        (level.borrowed[..lent].to_vec(), stretches(&level.domains[which], stages.row_numbers[which], level.leaves))
    });
    assert!(before == now, "the borrowed rows differ");
    let (n, d, k) = (level.rows.len(), level.d, level.neighbours);
    // the same lists for both but for the domain rows, so that no address favours either
    let level = RefCell::new(level);
    let lend = |which| level.borrow_mut().lend(stages, which);
    let (a, b) = compared(turns, || lend(0), || lend(1));
    println!("{n:>9} {d:>4} {k:>10} {kind:<8} {a:>10.3} {b:>10.3} {:>7.3}", b / a);
    b / a
}

fn main() {
    let stages = Stages::of(&against());
    let mut unit = units();
    let mut greatest = 0.0f64;
    println!("the neighbour stage: processor milliseconds, leaf {LEAF}");
    println!("     rows  dim neighbours points    before ms     now ms   ratio");
    for (n, turns) in [(1_000, 40), (10_000, 9), (20_000, 3)] {
        for d in [2, 3] {
            let random: Vec<f64> = (0..n * d).map(|_| unit() * 1000.0).collect();
            for (kind, coords) in [("random", random), ("lattice", lattice(n, d))] {
                for neighbours in [0, 1, 16, 64] {
                    greatest = greatest.max(line(stages, kind, Level::new(stages.cuts, &coords, d, neighbours), turns));
                }
            }
        }
    }
    println!("greatest ratio: {greatest:.3}");
}
