//! Figures, not a test: the public sampling of an earlier commit and the present one, in one run, on the same input.
//!
//!     rust/figures.sh --against COMMIT
//!
//! For each input it prints the processor milliseconds of both and the ratio now / before; at the end the greatest ratio for each share of
//! the rows that is wanted. Both must take the same rows, and up to 8,192 rows the cover is tested against the plain implementation's.
#[path = "../tests/plain/mod.rs"]
mod plain;
mod stage;

use stage::packed::{COVER_SLOT, SAMPLE_SLOT};
use stage::{against, compared, exported, units, Against};
use std::cell::RefCell;
use std::ffi::c_void;

/// The distances that one turn takes at least.
const BUSY: usize = 1 << 20;

/// Sampling as c/ddm.h has it.
type Covered = unsafe extern "C" fn(
    points: *const f64, points_len: usize, dimensions: usize, wanted: usize, seed: usize, out: *mut usize, out_len: usize,
    floats: *mut f64, floats_len: usize, wholes: *mut usize, wholes_len: usize, cover: *mut f64, cover_len: usize,
    result: *mut usize, result_len: usize,
) -> usize;

/// Sampling before there were covers.
type Bare = unsafe extern "C" fn(
    points: *const f64, points_len: usize, dimensions: usize, wanted: usize, seed: usize, out: *mut usize, out_len: usize,
    floats: *mut f64, floats_len: usize, wholes: *mut usize, wholes_len: usize, result: *mut usize, result_len: usize,
) -> usize;

#[derive(Clone, Copy)]
enum Sampling {
    Covered(Covered),
    Bare(Bare),
}

/// The sampling of each library, by the version that it is of.
fn samplings(against: &Against) -> [Sampling; 2] {
    let [before, now] = against.libraries.map(|library| exported(library, c"ddm_sample"));
    let covered = |found| Sampling::Covered(unsafe { std::mem::transmute::<*mut c_void, Covered>(found) });
    let bare = |found| Sampling::Bare(unsafe { std::mem::transmute::<*mut c_void, Bare>(found) });
    [if against.had_covers() { covered(before) } else { bare(before) }, covered(now)]
}

/// The lists and slots of a call.
struct Lent {
    out: Vec<usize>,
    floats: Vec<f64>,
    wholes: Vec<usize>,
    cover: [f64; COVER_SLOT],
    slot: [usize; SAMPLE_SLOT],
}

impl Lent {
    fn new(n: usize) -> Lent {
        Lent { out: vec![0; n], floats: vec![0.0; 2 * n], wholes: vec![0; n], cover: [0.0; COVER_SLOT], slot: [0; SAMPLE_SLOT] }
    }

    fn sample(&mut self, sampling: Sampling, coords: &[f64], d: usize, wanted: usize) {
        let Lent { out, floats, wholes, cover, slot } = self;
        let number = unsafe {
            match sampling {
                Sampling::Covered(call) => call(
                    coords.as_ptr(), coords.len(), d, wanted, 0, out.as_mut_ptr(), out.len(), floats.as_mut_ptr(), floats.len(),
                    wholes.as_mut_ptr(), wholes.len(), cover.as_mut_ptr(), cover.len(), slot.as_mut_ptr(), slot.len(),
                ),
                Sampling::Bare(call) => call(
                    coords.as_ptr(), coords.len(), d, wanted, 0, out.as_mut_ptr(), out.len(), floats.as_mut_ptr(), floats.len(),
                    wholes.as_mut_ptr(), wholes.len(), slot.as_mut_ptr(), slot.len(),
                ),
            }
        };
        assert_eq!(number, 0, "the sample is refused");
    }
}

/// Compares both on one input and prints its line. The answer is the ratio now / before.
fn line(samplings: [Sampling; 2], coords: &[f64], d: usize, wanted: usize, turns: usize) -> f64 {
    let n = coords.len() / d;
    // the same lists for both, so that no address favours either
    let lent = RefCell::new(Lent::new(n));
    let sample = |sampling| lent.borrow_mut().sample(sampling, coords, d, wanted);
    let [before, now] = samplings.map(|sampling| {
        sample(sampling);
        lent.borrow().out[..wanted].to_vec()
    });
    assert!(before == now, "the samples differ");
    let cover = lent.borrow().cover[0];
    if n <= 8_192 {
        let rows: Vec<usize> = (0..n).collect();
        assert_eq!(cover.to_bits(), plain::cover(&plain::Points { coords, d }, &rows, &now).to_bits(), "the cover");
    }
    // a short call is made so often that the clock can tell
    let times = (BUSY / (n * wanted)).max(1);
    let many = |sampling| (0..times).for_each(|_| sample(sampling));
    let (a, b) = compared(turns, || many(samplings[0]), || many(samplings[1]));
    let (a, b) = (a / times as f64, b / times as f64);
    println!("{n:>9} {d:>4} {wanted:>7} {a:>12.4} {b:>12.4} {:>7.3} {cover:>10.3}", b / a);
    b / a
}

fn main() {
    let against = against();
    let samplings = samplings(&against);
    let mut unit = units();
    // of one row, an eighth of them, and all
    let mut greatest = [0.0f64; 3];
    println!("sampling: processor milliseconds");
    println!("     rows  dim  wanted    before ms       now ms   ratio      cover");
    for (n, turns) in [(1_024, [40, 40, 20]), (8_192, [40, 7, 3]), (65_536, [40, 3, 1])] {
        for d in [2, 3] {
            let coords: Vec<f64> = (0..n * d).map(|_| unit() * 1000.0).collect();
            for ((wanted, turns), most) in [1, n / 8, n].into_iter().zip(turns).zip(&mut greatest) {
                *most = most.max(line(samplings, &coords, d, wanted, turns));
            }
        }
    }
    println!("greatest ratio: {:.3} for one row, {:.3} for an eighth, {:.3} for all", greatest[0], greatest[1], greatest[2]);
}
