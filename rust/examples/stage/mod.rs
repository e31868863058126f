//! What the figures share: processor time, work in turns, random numbers, stages out of shared libraries, and the cut stage with the
//! lists that it is lent. Each of the figures uses a part of it.
#![allow(dead_code)]

#[path = "../../src/packed.rs"]
pub mod packed;

use packed::{box_floats, record_nodes, DEPTH, ROW_NUMBERS};
use std::ffi::{c_char, c_int, c_void, CStr, CString};
use std::hint::black_box;

extern "C" {
    fn clock_gettime(id: i32, time: *mut [i64; 2]) -> i32;
    fn dlopen(path: *const c_char, flags: c_int) -> *mut c_void;
    fn dlsym(library: *mut c_void, name: *const c_char) -> *mut c_void;
    fn dlerror() -> *const c_char;
}

const RTLD_LOCAL: c_int = 0;
const RTLD_NOW: c_int = 2;

/// The first version whose domain rows and samples have covers, the first one whose domain rows have depths, and the first one whose queue
/// records the cuts.
const COVERS: usize = 500;
const DEPTHS: usize = 600;
const RECORDS: usize = 900;

/// What a comparison with an earlier commit is given: two shared libraries, the earlier one and the present one, and the earlier version.
pub struct Against {
    pub libraries: [*mut c_void; 2],
    version: usize,
}

impl Against {
    /// Whether the earlier library has covers.
    pub fn had_covers(&self) -> bool {
        self.version >= COVERS
    }

    /// The numbers of a domain row in each library: before there were depths, those in front of the depth.
    pub fn row_numbers(&self) -> [usize; 2] {
        [if self.version >= DEPTHS { ROW_NUMBERS } else { DEPTH }, ROW_NUMBERS]
    }

    /// Whether the queue of the earlier library records the cuts, and its neighbour stage is lent them.
    pub fn had_records(&self) -> bool {
        self.version >= RECORDS
    }

    /// The cut stage of each library.
    pub fn cuts(&self) -> [Cut; 2] {
        let [before, now] = self.libraries.map(|library| exported(library, c"stage_leaves"));
        let recorded = |found| Cut::Recorded(unsafe { std::mem::transmute::<*mut c_void, RecordedCut>(found) });
        let bare = |found| Cut::Bare(unsafe { std::mem::transmute::<*mut c_void, BareCut>(found) });
        [if self.had_records() { recorded(before) } else { bare(before) }, recorded(now)]
    }
}

/// The stretches of the first m domain rows, of so many numbers each.
pub fn stretches(domains: &[usize], numbers: usize, m: usize) -> Vec<usize> {
    domains.chunks(numbers).take(m).flat_map(|row| row[..DEPTH].to_vec()).collect()
}

/// The libraries and the version that the command names.
pub fn against() -> Against {
    let words: Vec<String> = std::env::args().skip(1).collect();
    let ([before, now], Some(version)) = (&words[..words.len().min(2)], words.get(2).and_then(|word| word.parse().ok())) else {
        eprintln!("two shared libraries and the version of the first are needed: BEFORE NOW VERSION");
        std::process::exit(2);
    };
    let libraries = [before, now].map(|path| {
        let name = CString::new(path.as_str()).unwrap();
        let library = unsafe { dlopen(name.as_ptr(), RTLD_NOW | RTLD_LOCAL) };
        assert!(!library.is_null(), "{}", unsafe { CStr::from_ptr(dlerror()) }.to_string_lossy());
        library
    });
    assert!(libraries[0] != libraries[1], "one library twice");
    Against { libraries, version }
}

/// What this library exports under this name.
pub fn exported(library: *mut c_void, name: &CStr) -> *mut c_void {
    let stage = unsafe { dlsym(library, name.as_ptr()) };
    assert!(!stage.is_null(), "a library has no {}", name.to_string_lossy());
    stage
}

/// Processor milliseconds of this process.
fn cpu() -> f64 {
    let mut t = [0i64; 2];
    unsafe { clock_gettime(2, &mut t) };
    t[0] as f64 * 1e3 + t[1] as f64 * 1e-6
}

fn timed<T>(mut work: impl FnMut() -> T) -> f64 {
    let start = cpu();
    black_box(work());
    cpu() - start
}

/// Both kinds of work in turns, the best of several each. Which goes first is swapped each turn.
pub fn compared<A, B>(turns: usize, mut one: impl FnMut() -> A, mut other: impl FnMut() -> B) -> (f64, f64) {
    let (mut a, mut b) = (f64::INFINITY, f64::INFINITY);
    for turn in 0..turns {
        if turn % 2 == 0 {
            a = a.min(timed(&mut one));
        }
        b = b.min(timed(&mut other));
        if turn % 2 == 1 {
            a = a.min(timed(&mut one));
        }
    }
    (a, b)
}

/// Random numbers from 0 up to 1, the same in each run.
pub fn units() -> impl FnMut() -> f64 {
    let mut state = 0x9e37_79b9_7f4a_7c15u64;
    move || {
        state ^= state << 13;
        state ^= state >> 7;
        state ^= state << 17;
        (state >> 11) as f64 / (1u64 << 53) as f64
    }
}

/// Points of a grid, row by row: many coordinates are equal on each axis.
pub fn lattice(n: usize, d: usize) -> Vec<f64> {
    let side = (1..).find(|side: &usize| side.pow(d as u32) >= n).unwrap();
    (0..n).flat_map(|i| (0..d).map(move |axis| (i / side.pow(axis as u32) % side) as f64)).collect()
}

/// The cut stage as rust/stages exports it.
pub type RecordedCut = unsafe extern "C" fn(
    points: *const f64, points_len: usize, dimensions: usize, leaf: usize, active: *const usize, active_len: usize,
    internals: *mut usize, internals_len: usize, domains: *mut usize, domains_len: usize, boxes: *mut f64, boxes_len: usize,
    floats: *mut f64, floats_len: usize, wholes: *mut usize, wholes_len: usize, cuts: *mut usize, cuts_len: usize,
    planes: *mut f64, planes_len: usize,
) -> usize;

/// The cut stage before the queue recorded its cuts.
pub type BareCut = unsafe extern "C" fn(
    points: *const f64, points_len: usize, dimensions: usize, leaf: usize, active: *const usize, active_len: usize,
    internals: *mut usize, internals_len: usize, domains: *mut usize, domains_len: usize, boxes: *mut f64, boxes_len: usize,
    floats: *mut f64, floats_len: usize, wholes: *mut usize, wholes_len: usize,
) -> usize;

#[derive(Clone, Copy)]
pub enum Cut {
    Recorded(RecordedCut),
    Bare(BareCut),
}

/// The room is filled with these, which no stage writes: the points have no negative coordinate.
pub const NO_WHOLE: usize = usize::MAX;
pub const NO_FLOAT: f64 = -7.5;

/// The lists of a level: what the cut writes, its working room (`floats`, `wholes`) and its record.
pub struct Lent {
    pub internals: Vec<usize>,
    pub domains: Vec<usize>,
    pub boxes: Vec<f64>,
    pub floats: Vec<f64>,
    pub wholes: Vec<usize>,
    pub cuts: Vec<usize>,
    pub planes: Vec<f64>,
}

impl Lent {
    /// Lists of these lengths.
    pub fn new(internals: usize, domains: usize, boxes: usize, floats: usize, wholes: usize, record: usize) -> Lent {
        Lent {
            internals: vec![0; internals],
            domains: vec![0; domains],
            boxes: vec![0.0; boxes],
            floats: vec![NO_FLOAT; floats],
            wholes: vec![NO_WHOLE; wholes],
            cuts: vec![NO_WHOLE; record],
            planes: vec![NO_FLOAT; record],
        }
    }

    /// Lists that are long enough to cut `n` rows.
    pub fn for_cut(n: usize, d: usize) -> Lent {
        let leaves = 2 * n;
        // of their record the stage asks for one entry more than it has nodes
        let record = record_nodes(leaves) + 1;
        Lent::new(n, ROW_NUMBERS * leaves, box_floats(d) * leaves, box_floats(d) * leaves, 10 * n, record)
    }

    /// Cuts the rows into leaves. The answer is their number.
    pub fn cut(&mut self, stage: Cut, coords: &[f64], d: usize, leaf: usize, rows: &[usize]) -> usize {
        let l = self;
        match stage {
            Cut::Recorded(stage) => unsafe {
                stage(
                    coords.as_ptr(), coords.len(), d, leaf, rows.as_ptr(), rows.len(), l.internals.as_mut_ptr(), l.internals.len(),
                    l.domains.as_mut_ptr(), l.domains.len(), l.boxes.as_mut_ptr(), l.boxes.len(), l.floats.as_mut_ptr(),
                    l.floats.len(), l.wholes.as_mut_ptr(), l.wholes.len(), l.cuts.as_mut_ptr(), l.cuts.len(), l.planes.as_mut_ptr(),
                    l.planes.len(),
                )
            },
            Cut::Bare(stage) => unsafe {
                stage(
                    coords.as_ptr(), coords.len(), d, leaf, rows.as_ptr(), rows.len(), l.internals.as_mut_ptr(), l.internals.len(),
                    l.domains.as_mut_ptr(), l.domains.len(), l.boxes.as_mut_ptr(), l.boxes.len(), l.floats.as_mut_ptr(),
                    l.floats.len(), l.wholes.as_mut_ptr(), l.wholes.len(),
                )
            },
        }
    }

    /// The record of a level with so many leaves: its whole numbers and its planes.
    pub fn record(&self, leaves: usize) -> (&[usize], &[f64]) {
        (&self.cuts[..record_nodes(leaves)], &self.planes[..record_nodes(leaves)])
    }
}

/// The whole numbers of the room that were written.
pub fn touched_wholes(room: &[usize]) -> usize {
    room.iter().filter(|x| **x != NO_WHOLE).count()
}

/// The floats of the room that were written.
pub fn touched_floats(room: &[f64]) -> usize {
    room.iter().filter(|x| **x != NO_FLOAT).count()
}
