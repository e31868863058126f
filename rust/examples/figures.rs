//! Figures, not a test: the library and a plain Rust implementation of document 01 in one run, one thread, both built for release.
//!
//!     rust/figures.sh
//!
//! For each size it prints processor milliseconds of the whole build and of each stage of the first level (cut, neighbours,
//! sampling), the ratio library / plain Rust, and how much of the room is touched, by the cut and by all three; at the end the root
//! against the hardware's.
#[path = "../tests/plain/mod.rs"]
mod plain;
mod stage;

use rekvashu::{build, build_sizes, square_root, DDMParams, SizePolicy};
use stage::packed::box_floats;
use stage::{compared, touched_floats, touched_wholes, units, Cut, Lent};
use std::hint::black_box;

#[link(name = "ddm_stages", kind = "static")]
extern "C" {
    fn stage_leaves(
        points: *const f64, points_len: usize, dimensions: usize, leaf: usize, active: *const usize, active_len: usize,
        internals: *mut usize, internals_len: usize, domains: *mut usize, domains_len: usize, boxes: *mut f64, boxes_len: usize,
        floats: *mut f64, floats_len: usize, wholes: *mut usize, wholes_len: usize, cuts: *mut usize, cuts_len: usize,
        planes: *mut f64, planes_len: usize,
    ) -> usize;
    fn stage_overlaps(
        points: *const f64, points_len: usize, dimensions: usize, neighbours: usize, active: *const usize, active_len: usize,
        cuts: *const usize, cuts_len: usize, planes: *const f64, planes_len: usize, internals: *const usize, internals_len: usize,
        domains: *mut usize, domains_len: usize, m: usize, borrowed: *mut usize, borrowed_len: usize, wholes: *mut usize,
        wholes_len: usize,
    ) -> usize;
    fn stage_coarse_points(
        points: *const f64, points_len: usize, dimensions: usize, size: usize, level_points: *mut usize, level_points_len: usize,
        a: usize, internals: *const usize, internals_len: usize, domains: *const usize, domains_len: usize, m: usize,
        floats: *mut f64, floats_len: usize, wholes: *mut usize, wholes_len: usize,
    ) -> usize;
}

fn line(what: &str, (ours, theirs): (f64, f64)) {
    println!("  {what:<28} {ours:>10.3} ms {theirs:>10.3} ms   ratio {:.2}", ours / theirs);
}

/// What the queue has of a domain that waits: start, count, depth, and the place of its node.
const WAITING: usize = 4;

/// What one cut writes of its room, for a rows and m leaves: whole numbers of the ordering (one a row), of the packed leaves (one a
/// row) and of the queue (four for each of the m - 1 domains that wait), and floats of the queue (their boxes). It writes no others.
fn cut_room(coords: &[f64], d: usize, leaf: usize, rows: &[usize]) {
    let a = rows.len();
    let mut lent = Lent::for_cut(a, d);
    let m = lent.cut(Cut::Recorded(stage_leaves), coords, d, leaf, rows);
    let (wholes, floats) = (2 * a + WAITING * (m - 1), box_floats(d) * (m - 1));
    let [ordering, packed, queue] = [0..a, a..2 * a, 2 * a..wholes].map(|range| touched_wholes(&lent.wholes[range]));
    let boxes = touched_floats(&lent.floats[..floats]);
    println!("  room touched by the cut: ordering {ordering}, packed leaves {packed}, queue {queue} whole numbers and {boxes} floats");
    let past = (touched_wholes(&lent.wholes[wholes..]), touched_floats(&lent.floats[floats..]));
    assert_eq!(past, (0, 0), "whole numbers and floats past the room of the cut");
}

/// The three stages of the first level, each on the same input as the plain ones.
fn stages(coords: &[f64], d: usize, s: &plain::Settings, turns: usize) {
    let n = coords.len() / d;
    let sizes = build_sizes(n, d, s.neighbours).unwrap();
    let rows: Vec<usize> = (0..n).collect();
    let points = plain::Points { coords, d };
    let mut lent = Lent::new(n, sizes.domains, sizes.boxes, sizes.floats, sizes.wholes, sizes.cuts);
    let mut m = 0;
    let ours = || m = lent.cut(Cut::Recorded(stage_leaves), coords, d, s.leaf as usize, &rows);
    // the plain one makes no record
    line("cut and its record", compared(turns, ours, || plain::leaves(&points, s.leaf, &rows)));
    let leaves = plain::leaves(&points, s.leaf, &rows);
    assert_eq!(m, leaves.len());
    let (cuts, planes) = lent.record(m);
    let (cuts, planes) = (cuts.to_vec(), planes.to_vec());
    let Lent { internals, mut domains, mut floats, mut wholes, .. } = lent;
    let mut borrowed = vec![0usize; sizes.borrowed];
    let turns = if n > 20_000 { 1 } else { turns };
    let overlaps = compared(turns, || unsafe {
        stage_overlaps(
            coords.as_ptr(), coords.len(), d, s.neighbours as usize, rows.as_ptr(), n, cuts.as_ptr(), cuts.len(), planes.as_ptr(),
            planes.len(), internals.as_ptr(), n, domains.as_mut_ptr(), domains.len(), m, borrowed.as_mut_ptr(), borrowed.len(),
            wholes.as_mut_ptr(), wholes.len(),
        )
    }, || {
        let mut leaves = leaves.clone();
        plain::borrow(&points, s.neighbours, &rows, &mut leaves);
        leaves
    });
    // the plain one scans every pair
    line("neighbours and overlaps", overlaps);
    let c = plain::threshold(s.policy, n);
    let size = plain::level_size(n, c, plain::reductions(n, c, s.factor));
    let mut level_points = vec![0usize; sizes.level_points];
    level_points[..n].copy_from_slice(&rows);
    let mut next = 0;
    let sampling = compared(turns, || unsafe {
        next = stage_coarse_points(
            coords.as_ptr(), coords.len(), d, size, level_points.as_mut_ptr(), level_points.len(), n, internals.as_ptr(), n,
            domains.as_ptr(), domains.len(), m, floats.as_mut_ptr(), floats.len(), wholes.as_mut_ptr(), wholes.len(),
        )
    }, || plain::send(&points, &leaves, size));
    assert_eq!(&level_points[n..n + next], &plain::send(&points, &leaves, size)[..]);
    // the plain one makes no covers
    line("quotas, sampling and covers", sampling);
    let (whole, float) = (touched_wholes(&wholes), touched_floats(&floats));
    cut_room(coords, d, s.leaf as usize, &rows);
    println!("  room touched by all three: {whole} of {} whole numbers, {float} of {} floats", wholes.len(), floats.len());
}

fn main() {
    let params = DDMParams { leaf_threshold: 64, overlap_knn: 16, coarse_reduction_factor: 8, coarse_threshold: SizePolicy::Auto };
    let s = plain::Settings {
        leaf: params.leaf_threshold,
        neighbours: params.overlap_knn,
        factor: params.coarse_reduction_factor,
        policy: plain::Policy::Auto,
    };
    let mut unit = units();
    println!("leaf {}, neighbours {}, factor {}, Auto; library, plain Rust", s.leaf, s.neighbours, s.factor);
    for n in [1_000usize, 10_000, 50_000] {
        for d in [2, 3] {
            let coords: Vec<f64> = (0..n * d).map(|_| unit() * 1000.0).collect();
            println!("{n} wells, {d} dimensions");
            let turns = if n <= 1_000 { 20 } else if n <= 10_000 { 3 } else { 1 };
            line("build", compared(turns, || build(&coords, d, params).unwrap(), || plain::build(&coords, d, &s).unwrap()));
            stages(&coords, d, &s, turns);
        }
    }
    let values: Vec<f64> = (0..1_000_000).map(|_| unit() * 1e6).collect();
    println!("root of 1,000,000 values");
    line("root", compared(5, || values.iter().map(|x| square_root(*x).unwrap()).sum::<f64>(), || values.iter().map(|x| black_box(*x).sqrt()).sum::<f64>()));
}
