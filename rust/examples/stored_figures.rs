//! Figures, not a test: a stored tree of 1,048,576 wells, loaded and written by the library and by plain Rust, in turns in one run, against
//! a copy of the file's bytes.
//!
//!     cargo run --release --offline --example stored_figures
//!
//! The tree is made here and passes the tests: a lattice in two dimensions, cut into square leaves of 64 wells that borrow the wells
//! around them, then levels of every 64th and every 4,096th well, and the coarse one. (A build of that size scans for most of an hour.)
#[path = "../tests/plain/mod.rs"]
mod plain;

use plain::stored;
use rekvashu::{build_sizes, load, DDMParams, SizePolicy};
use std::hint::black_box;
use std::time::Instant;

extern "C" {
    fn ddm_store(
        points: *const f64, points_len: usize, dimensions: usize, leaf_threshold: u32, overlap_knn: u32,
        coarse_reduction_factor: u32, policy: u32, coarse_threshold: u32, tree: *const usize, tree_len: usize,
        level_points: *const usize, level_points_len: usize, internals: *const usize, internals_len: usize, domains: *const usize,
        domains_len: usize, boxes: *const f64, boxes_len: usize, borrowed: *const usize, borrowed_len: usize, file: *mut u8,
        file_len: usize, result: *mut usize, result_len: usize,
    ) -> usize;
}

const SIDE: usize = 1024;
const AXES: usize = 2;

/// A level over every `step`th well of each axis, in square leaves of `width` wells.
fn level(step: usize, width: usize) -> plain::Level {
    let many = SIDE / step;
    let row = |x: usize, y: usize| y * step * SIDE + x * step;
    let rows = (0..many * many).map(|i| row(i % many, i / many)).collect();
    let mut leaves = Vec::new();
    for top in (0..many).step_by(width) {
        for left in (0..many).step_by(width) {
            let (right, bottom) = ((left + width).min(many), (top + width).min(many));
            let (mut own, mut borrowed) = (Vec::new(), Vec::new());
            for y in top.saturating_sub(1)..(bottom + 1).min(many) {
                for x in left.saturating_sub(1)..(right + 1).min(many) {
                    let inside = (left..right).contains(&x) && (top..bottom).contains(&y);
                    if inside { own.push(row(x, y)) } else { borrowed.push(row(x, y)) }
                }
            }
            let (lower, upper) = (vec![left as f64, top as f64], vec![right as f64, bottom as f64]);
            // so often halved the level has as many wells as the leaf
            let depth = (many * many / own.len()).ilog2() as usize;
            // the covers are not those of a sample, which the loader does not ask
            leaves.push(plain::Leaf { own, borrowed, lower, upper, cover: width as f64, depth });
        }
    }
    plain::Level { rows, leaves }
}

fn coarse(step: usize) -> plain::Level {
    let rows = level(step, SIDE).rows;
    let leaf = plain::Leaf { own: rows.clone(), borrowed: vec![], lower: vec![], upper: vec![], cover: 0.0, depth: 0 };
    plain::Level { leaves: vec![leaf], rows }
}

/// The packed lists as a build hands them out: at full length.
fn lent(packed: &stored::Packed) -> stored::Packed {
    let sizes = build_sizes(SIDE * SIDE, AXES, 16).unwrap();
    let wholes = |front: &[usize], entries: usize| {
        let mut list = vec![0; entries];
        list[..front.len()].copy_from_slice(front);
        list
    };
    let mut boxes = vec![0.0; sizes.boxes];
    boxes[..packed.boxes.len()].copy_from_slice(&packed.boxes);
    stored::Packed {
        level_points: wholes(&packed.level_points, sizes.level_points),
        internals: wholes(&packed.internals, sizes.internals),
        domains: wholes(&packed.domains, sizes.domains),
        borrowed: wholes(&packed.borrowed, sizes.borrowed),
        boxes,
        rows: packed.rows.clone(),
        leaves: packed.leaves.clone(),
    }
}

/// The library's writer, over lists at full length.
fn write(points: &[f64], l: &stored::Packed, bytes: usize) -> Vec<u8> {
    let mut slot = vec![0, l.rows.len()];
    slot.extend(l.rows.iter().copied().chain([0; 4]).take(4));
    slot.extend(l.leaves.iter().copied().chain([0; 4]).take(4));
    let (mut file, mut result) = (Vec::with_capacity(bytes), [0usize; 2]);
    let number = unsafe {
        ddm_store(
            points.as_ptr(), points.len(), AXES, 64, 16, 64, 1, 256, slot.as_ptr(), slot.len(), l.level_points.as_ptr(),
            l.level_points.len(), l.internals.as_ptr(), l.internals.len(), l.domains.as_ptr(), l.domains.len(), l.boxes.as_ptr(),
            l.boxes.len(), l.borrowed.as_ptr(), l.borrowed.len(), file.as_mut_ptr(), bytes, result.as_mut_ptr(), 2,
        )
    };
    let [place, written] = result;
    assert_eq!((number, place, written), (0, 0, bytes));
    // the call says that it wrote them
    unsafe { file.set_len(bytes) };
    file
}

fn milliseconds(mut work: impl FnMut()) -> f64 {
    let start = Instant::now();
    work();
    start.elapsed().as_secs_f64() * 1e3
}

fn main() {
    let params = DDMParams { leaf_threshold: 64, overlap_knn: 16, coarse_reduction_factor: 64, coarse_threshold: SizePolicy::Fixed(256) };
    let settings = plain::Settings { leaf: 64, neighbours: 16, factor: 64, policy: plain::Policy::Fixed(256) };
    let points: Vec<f64> = (0..SIDE * SIDE).flat_map(|i| [(i % SIDE) as f64, (i / SIDE) as f64]).collect();
    let tree = [level(1, 8), level(8, 8), coarse(64)];
    let packed = stored::packed(&tree, AXES);
    let file = stored::store(&points, AXES, &settings, &packed);
    let loaded = load(&points, AXES, params, &file).unwrap();
    assert_eq!(loaded.to_bytes(&points, params).unwrap(), file);
    println!("{} wells, {} bytes, {} leaves", SIDE * SIDE, file.len(), packed.leaves.iter().sum::<usize>());
    let full = lent(&packed);
    assert_eq!(write(&points, &full, file.len()), file);
    let mut best = [f64::INFINITY; 5];
    let mut copy = vec![0u8; file.len()];
    for _ in 0..15 {
        let times = [
            milliseconds(|| black_box(&mut copy).copy_from_slice(black_box(&file))),
            milliseconds(|| drop(black_box(load(&points, AXES, params, black_box(&file)).unwrap()))),
            milliseconds(|| drop(black_box(stored::load(&points, AXES, &settings, black_box(&file)).unwrap()))),
            milliseconds(|| drop(black_box(write(black_box(&points), &full, file.len())))),
            milliseconds(|| {
                assert!(stored::passes(black_box(&points), AXES, &settings, &packed));
                drop(black_box(stored::store(black_box(&points), AXES, &settings, &packed)))
            }),
        ];
        for (least, time) in best.iter_mut().zip(times) {
            *least = least.min(time);
        }
    }
    let [copied, ours, plain, written, plainly] = best;
    println!("copy {copied:.1} ms");
    println!("load {ours:.1} ms: {:.1} copies, {:.2} of plain Rust ({plain:.1} ms)", ours / copied, ours / plain);
    println!("write {written:.1} ms: {:.1} copies, {:.2} of plain Rust ({plainly:.1} ms)", written / copied, written / plainly);
}
