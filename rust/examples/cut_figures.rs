//! Figures, not a test: the cut stage of an earlier commit and the present one, in one run, on the same input.
//!
//!     rust/figures.sh --against COMMIT
//!
//! For each input it prints the processor milliseconds of both, the ratio now / before, and the entries of the working room that each
//! wrote; at the end the greatest ratio. Both must give the same leaves. Since version 0.9.0 the stage writes the record of its cuts too.
mod stage;

use stage::{against, compared, lattice, stretches, touched_floats, touched_wholes, units, Cut, Lent};
use std::cell::RefCell;

/// The cut stage of each library, and the numbers of its domain rows.
#[derive(Clone, Copy)]
struct Stages {
    cuts: [Cut; 2],
    row_numbers: [usize; 2],
}

/// Both stages once, on lists of their own: the same leaves, and what each wrote of the room (whole numbers, floats).
fn same_leaves(stages: Stages, coords: &[f64], d: usize, leaf: usize, rows: &[usize]) -> [(usize, usize); 2] {
    let [(m, before), (k, now)] = stages.cuts.map(|stage| {
        let mut lent = Lent::for_cut(rows.len(), d);
        (lent.cut(stage, coords, d, leaf, rows), lent)
    });
    assert_eq!(m, k, "the numbers of leaves differ");
    assert!(before.internals == now.internals, "the internals differ");
    let [old, new] = stages.row_numbers;
    assert!(stretches(&before.domains, old, m) == stretches(&now.domains, new, m), "the domain rows differ");
    assert!(before.boxes == now.boxes, "the boxes differ");
    [before, now].map(|lent| (touched_wholes(&lent.wholes), touched_floats(&lent.floats)))
}

/// Compares the stages on one input and prints its line. The answer is the ratio now / before.
fn line(stages: Stages, kind: &str, coords: &[f64], d: usize, leaf: usize, turns: usize) -> f64 {
    let n = coords.len() / d;
    let rows: Vec<usize> = (0..n).collect();
    let [before, now] = same_leaves(stages, coords, d, leaf, &rows);
    // the same lists for both, so that no address favours either
    let lent = RefCell::new(Lent::for_cut(n, d));
    let cut = |stage| lent.borrow_mut().cut(stage, coords, d, leaf, &rows);
    let (a, b) = compared(turns, || cut(stages.cuts[0]), || cut(stages.cuts[1]));
    println!(
        "{n:>9} {d:>4} {leaf:>5} {kind:<8} {a:>10.4} {b:>10.4} {:>7.3} {:>14} {:>11} {:>14} {:>11}",
        b / a, before.0, now.0, before.1, now.1
    );
    b / a
}

fn main() {
    let against = against();
    let stages = Stages { cuts: against.cuts(), row_numbers: against.row_numbers() };
    let mut unit = units();
    let mut greatest = 0.0f64;
    println!("the cut stage: processor milliseconds, and the whole numbers and floats of the room that were written");
    println!("     rows  dim  leaf points    before ms     now ms   ratio  wholes before  wholes now  floats before  floats now");
    for (n, turns, leaves) in [(1_000, 200, &[64, 1][..]), (10_000, 40, &[64]), (100_000, 15, &[64, 1]), (1_048_576, 7, &[64])] {
        for d in [2, 3] {
            let random: Vec<f64> = (0..n * d).map(|_| unit() * 1000.0).collect();
            for (kind, coords) in [("random", random), ("lattice", lattice(n, d))] {
                for leaf in leaves {
                    greatest = greatest.max(line(stages, kind, &coords, d, *leaf, turns));
                }
            }
        }
    }
    println!("greatest ratio: {greatest:.3}");
}
