//! Figures, not a test: the build over the live slots of a table against the build of its compacted points, an edit of a large table
//! against one pass over its flags in plain Rust, and closing its gaps against the same in plain Rust, in turns in one run.
//!
//!     cd rust && cargo run --release --offline --example table_figures
//!
//! For each input it prints the processor milliseconds of both, and the ratio library / other. Every other slot is retired, so the build
//! over slots names rows that the other one does not; both must give leaves of the same sizes.
#[path = "stage/mod.rs"]
mod stage;

use rekvashu::{build, DDMParams, Table, Tree};
use stage::{compared, units};

/// A table of 2n slots, of which the odd ones are retired.
fn half_retired(points: &[f64], d: usize) -> Table {
    let n = points.len() / d;
    let mut table = Table::new(2 * n, d).unwrap();
    for point in points.chunks(d) {
        table.add(point).unwrap();
        table.add(point).unwrap();
    }
    for slot in 0..n {
        table.retire(2 * slot + 1).unwrap();
    }
    table
}

fn sizes(tree: &Tree) -> Vec<usize> {
    tree.levels().flat_map(|level| level.leaves().map(|leaf| leaf.own().len()).collect::<Vec<_>>()).collect()
}

fn builds(n: usize, d: usize, turns: usize) {
    let mut unit = units();
    let points: Vec<f64> = (0..n * d).map(|_| unit()).collect();
    let table = half_retired(&points, d);
    let params = DDMParams { leaf_threshold: 64, overlap_knn: 16, coarse_reduction_factor: 8, ..DDMParams::default() };
    assert_eq!(sizes(&table.build(params).unwrap()), sizes(&build(&points, d, params).unwrap()));
    let (slots, compacted) = compared(turns, || table.build(params), || build(&points, d, params));
    println!("build {n} wells, {d} dimensions: {slots:.2} ms over slots, {compacted:.2} compacted, ratio {:.3}", slots / compacted);
}

/// What plain Rust has to do for an edit: count the live flags, and find the lowest that is not.
fn pass(flags: &[u8]) -> (usize, Option<usize>) {
    (flags.iter().filter(|&&flag| flag != 0).count(), flags.iter().position(|&flag| flag == 0))
}

fn edits(n: usize, turns: usize) {
    let mut flags = vec![1u8; n];
    flags[n - 1] = 0;
    let mut table = Table::new(n, 1).unwrap();
    for slot in 0..n {
        table.add(&[slot as f64]).unwrap();
    }
    let (library, plain) = compared(turns, || (table.retire(n - 1).unwrap(), table.add(&[1.0]).unwrap()), || (pass(&flags), pass(&flags)));
    println!("retire and add, {n} slots: {library:.3} ms, plain passes {plain:.3}, ratio {:.2}", library / plain);
}

/// Closing in plain Rust: the live flags are counted, the wells move down, and the list from old slot to new is handed back.
fn closed(flags: &mut [u8], coordinates: &mut [f64], d: usize, live: usize) -> Option<Vec<usize>> {
    if flags.iter().filter(|&&flag| flag != 0).count() != live {
        return None;
    }
    let (slots, mut next) = (flags.len(), 0);
    let mut rename = Vec::with_capacity(slots);
    for (slot, &flag) in flags.iter().enumerate() {
        if flag == 0 {
            rename.push(slots);
            continue;
        }
        coordinates.copy_within(slot * d..(slot + 1) * d, next * d);
        rename.push(next);
        next += 1;
    }
    flags[..next].fill(1);
    flags[next..].fill(0);
    coordinates[next * d..].fill(0.0);
    Some(rename)
}

/// Every turn closes a table of its own, of n slots of which the odd ones are retired.
fn closings(n: usize, d: usize, turns: usize) {
    let (mut unit, wells) = (units(), n / 2);
    let points: Vec<f64> = (0..wells * d).map(|_| unit()).collect();
    let table = half_retired(&points, d);
    let flags: Vec<u8> = (0..n).map(|slot| u8::from(slot % 2 == 0)).collect();
    let coordinates: Vec<f64> = points.chunks(d).flat_map(|point| [point, point].concat()).collect();
    let (mut ours, mut theirs) = (vec![table; turns], vec![(flags, coordinates); turns]);
    let (mut ours, mut theirs) = (ours.iter_mut(), theirs.iter_mut());
    let plain_turn = |(flags, coordinates): &mut (Vec<u8>, Vec<f64>)| closed(flags, coordinates, d, wells).unwrap();
    let (library, plain) = compared(turns, || ours.next().unwrap().close().unwrap(), || plain_turn(theirs.next().unwrap()));
    println!("close {n} slots, {d} dimensions: {library:.3} ms, plain Rust {plain:.3}, ratio {:.2}", library / plain);
}

fn main() {
    for (n, turns) in [(1_000, 41), (10_000, 5)] {
        for d in [2, 3] {
            builds(n, d, turns);
        }
    }
    for n in [1_000, 10_000, 65_536] {
        edits(n, 41);
    }
    for n in [1_000, 10_000, 65_536] {
        for d in [2, 3] {
            closings(n, d, 41);
        }
    }
}
