//! Figures, not a test: the two builds, and their cut stages, in turns in one run on the same input.
//!
//!     rust/figures.sh --engines
//!
//! For each input it prints the processor milliseconds of the queue's build and of the one that cuts depth first, and the ratio depth first /
//! queue; at the end of each table the greatest ratio. Both must give the same leaves and the same record.
mod stage;

use rekvashu::{build, build_depth_first, DDMParams, SizePolicy};
use stage::packed::record_nodes;
use stage::{compared, lattice, touched_floats, touched_wholes, units, Cut, Lent};
use std::cell::RefCell;

#[link(name = "ddm_stages", kind = "static")]
extern "C" {
    fn stage_leaves(
        points: *const f64, points_len: usize, dimensions: usize, leaf: usize, active: *const usize, active_len: usize,
        internals: *mut usize, internals_len: usize, domains: *mut usize, domains_len: usize, boxes: *mut f64, boxes_len: usize,
        floats: *mut f64, floats_len: usize, wholes: *mut usize, wholes_len: usize, cuts: *mut usize, cuts_len: usize,
        planes: *mut f64, planes_len: usize,
    ) -> usize;
    fn stage_leaves_depth_first(
        points: *const f64, points_len: usize, dimensions: usize, leaf: usize, active: *const usize, active_len: usize,
        internals: *mut usize, internals_len: usize, domains: *mut usize, domains_len: usize, boxes: *mut f64, boxes_len: usize,
        floats: *mut f64, floats_len: usize, wholes: *mut usize, wholes_len: usize, cuts: *mut usize, cuts_len: usize,
        planes: *mut f64, planes_len: usize,
    ) -> usize;
}

const QUEUE: Cut = Cut::Recorded(stage_leaves);
const DEPTH_FIRST: Cut = Cut::Recorded(stage_leaves_depth_first);

/// Both stages once, on lists of their own: the same leaves, and the same record, of as many nodes as these have.
fn same_leaves(coords: &[f64], d: usize, leaf: usize, rows: &[usize]) {
    let [(m, queue), (k, deep)] = [QUEUE, DEPTH_FIRST].map(|stage| {
        let mut lent = Lent::for_cut(rows.len(), d);
        (lent.cut(stage, coords, d, leaf, rows), lent)
    });
    assert_eq!(m, k, "the numbers of leaves differ");
    assert!(queue.internals == deep.internals, "the internals differ");
    assert!(queue.domains == deep.domains, "the domain rows differ");
    assert!(queue.boxes == deep.boxes, "the boxes differ");
    assert!(queue.cuts == deep.cuts && queue.planes == deep.planes, "the records differ");
    let nodes = (touched_wholes(&deep.cuts), touched_floats(&deep.planes));
    assert_eq!(nodes, (record_nodes(m), record_nodes(m)), "the nodes of the record");
}

/// Compares the cut stages on one input and prints its line. The answer is the ratio depth first / queue.
fn stages(kind: &str, coords: &[f64], d: usize, leaf: usize, turns: usize) -> f64 {
    let n = coords.len() / d;
    let rows: Vec<usize> = (0..n).collect();
    same_leaves(coords, d, leaf, &rows);
    // the same lists for both, so that no address favours either
    let lent = RefCell::new(Lent::for_cut(n, d));
    let cut = |stage| lent.borrow_mut().cut(stage, coords, d, leaf, &rows);
    let (a, b) = compared(turns, || cut(QUEUE), || cut(DEPTH_FIRST));
    println!("{n:>9} {d:>4} {leaf:>5} {kind:<8} {a:>10.4} {b:>15.4} {:>7.3}", b / a);
    b / a
}

/// Compares the whole builds on one input and prints its line. The answer is the ratio depth first / queue.
fn builds(coords: &[f64], d: usize, leaf: u32, turns: usize) -> f64 {
    let params = DDMParams { leaf_threshold: leaf, overlap_knn: 16, coarse_reduction_factor: 8, coarse_threshold: SizePolicy::Auto };
    let queue = || build(coords, d, params).unwrap();
    let deep = || build_depth_first(coords, d, params).unwrap();
    assert!(queue() == deep(), "the trees differ");
    let (a, b) = compared(turns, queue, deep);
    println!("{:>9} {leaf:>5} {a:>10.3} {b:>15.3} {:>7.3}", coords.len() / d, b / a);
    b / a
}

fn main() {
    let mut unit = units();
    let mut greatest = 0.0f64;
    println!("whole builds, two dimensions, neighbours 16, factor 8, Auto: processor milliseconds");
    println!("    wells  leaf   queue ms  depth first ms   ratio");
    for (n, turns, leaves) in [(1_000, 200, &[64, 1][..]), (10_000, 20, &[64, 1]), (50_000, 4, &[64])] {
        let coords: Vec<f64> = (0..n * 2).map(|_| unit() * 1000.0).collect();
        for leaf in leaves {
            greatest = greatest.max(builds(&coords, 2, *leaf, turns));
        }
    }
    println!("greatest ratio: {greatest:.3}");
    greatest = 0.0;
    println!("the cut stage: processor milliseconds");
    println!("     rows  dim  leaf points     queue ms  depth first ms   ratio");
    for (n, turns) in [(1_000, 200), (10_000, 40), (100_000, 15), (1_048_576, 7)] {
        for d in [2, 3] {
            let random: Vec<f64> = (0..n * d).map(|_| unit() * 1000.0).collect();
            for (kind, coords) in [("random", random), ("lattice", lattice(n, d))] {
                for leaf in [64, 1] {
                    greatest = greatest.max(stages(kind, &coords, d, leaf, turns));
                }
            }
        }
    }
    println!("greatest ratio: {greatest:.3}");
}
