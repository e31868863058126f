//! The static library's functions, each behind a safe one. Every pointer comes with its length from one list, which is all that the
//! library asks: its functions have no preconditions, read and write inside these lists only, and no answer depends on what stood in a
//! list that they write. So lists are lent by their capacity, and after an accepted call they get the length that was written.
use crate::lists::Lists;
use crate::packed::*;
use crate::{DDMParams, SizePolicy};

/// The head of a table: how many slots have been given out, and how many of them are live.
#[repr(C)]
#[derive(Clone, Copy, Debug, Default, PartialEq, Eq)]
pub struct Head {
    pub slots: usize,
    pub live: usize,
}

extern "C" {
    fn ddm_version() -> usize;
    fn ddm_build_sizes(n: usize, dimensions: usize, neighbours: u32, result: *mut usize, result_len: usize) -> usize;
    fn ddm_build(
        points: *const f64, points_len: usize, dimensions: usize, leaf_threshold: u32, overlap_knn: u32,
        coarse_reduction_factor: u32, policy: u32, coarse_threshold: u32, level_points: *mut usize, level_points_len: usize,
        internals: *mut usize, internals_len: usize, domains: *mut usize, domains_len: usize, boxes: *mut f64,
        boxes_len: usize, borrowed: *mut usize, borrowed_len: usize, floats: *mut f64, floats_len: usize, wholes: *mut usize,
        wholes_len: usize, cuts: *mut usize, cuts_len: usize, planes: *mut f64, planes_len: usize, result: *mut usize,
        result_len: usize,
    ) -> usize;
    fn ddm_build_depth_first(
        points: *const f64, points_len: usize, dimensions: usize, leaf_threshold: u32, overlap_knn: u32,
        coarse_reduction_factor: u32, policy: u32, coarse_threshold: u32, level_points: *mut usize, level_points_len: usize,
        internals: *mut usize, internals_len: usize, domains: *mut usize, domains_len: usize, boxes: *mut f64,
        boxes_len: usize, borrowed: *mut usize, borrowed_len: usize, floats: *mut f64, floats_len: usize, wholes: *mut usize,
        wholes_len: usize, cuts: *mut usize, cuts_len: usize, planes: *mut f64, planes_len: usize, result: *mut usize,
        result_len: usize,
    ) -> usize;
    fn ddm_add(
        head: *mut Head, flags: *mut u8, flags_len: usize, coordinates: *mut f64, coordinates_len: usize, dimensions: usize,
        point: *const f64, point_len: usize, result: *mut usize, result_len: usize,
    ) -> usize;
    fn ddm_retire(
        head: *mut Head, flags: *mut u8, flags_len: usize, coordinates: *const f64, coordinates_len: usize, dimensions: usize,
        slot: usize,
    ) -> usize;
    fn ddm_close(
        head: *mut Head, flags: *mut u8, flags_len: usize, coordinates: *mut f64, coordinates_len: usize, dimensions: usize,
        rename: *mut usize, rename_len: usize, result: *mut usize, result_len: usize,
    ) -> usize;
    fn ddm_build_slots(
        slots: usize, live: usize, flags: *const u8, flags_len: usize, coordinates: *const f64, coordinates_len: usize,
        dimensions: usize, leaf_threshold: u32, overlap_knn: u32, coarse_reduction_factor: u32, policy: u32, coarse_threshold: u32,
        level_points: *mut usize, level_points_len: usize, internals: *mut usize, internals_len: usize, domains: *mut usize,
        domains_len: usize, boxes: *mut f64, boxes_len: usize, borrowed: *mut usize, borrowed_len: usize, floats: *mut f64,
        floats_len: usize, wholes: *mut usize, wholes_len: usize, cuts: *mut usize, cuts_len: usize, planes: *mut f64,
        planes_len: usize, result: *mut usize, result_len: usize,
    ) -> usize;
    fn ddm_store(
        points: *const f64, points_len: usize, dimensions: usize, leaf_threshold: u32, overlap_knn: u32,
        coarse_reduction_factor: u32, policy: u32, coarse_threshold: u32, tree: *const usize, tree_len: usize,
        level_points: *const usize, level_points_len: usize, internals: *const usize, internals_len: usize, domains: *const usize,
        domains_len: usize, boxes: *const f64, boxes_len: usize, borrowed: *const usize, borrowed_len: usize, file: *mut u8,
        file_len: usize, result: *mut usize, result_len: usize,
    ) -> usize;
    fn ddm_load(
        points: *const f64, points_len: usize, dimensions: usize, leaf_threshold: u32, overlap_knn: u32,
        coarse_reduction_factor: u32, policy: u32, coarse_threshold: u32, file: *const u8, file_len: usize, level_points: *mut usize,
        level_points_len: usize, internals: *mut usize, internals_len: usize, domains: *mut usize, domains_len: usize,
        boxes: *mut f64, boxes_len: usize, borrowed: *mut usize, borrowed_len: usize, result: *mut usize, result_len: usize,
    ) -> usize;
    fn ddm_sample(
        points: *const f64, points_len: usize, dimensions: usize, wanted: usize, seed: usize, out: *mut usize, out_len: usize,
        floats: *mut f64, floats_len: usize, wholes: *mut usize, wholes_len: usize, cover: *mut f64, cover_len: usize,
        result: *mut usize, result_len: usize,
    ) -> usize;
    fn ddm_level_size(a: usize, c: u32, r: u32, result: *mut usize, result_len: usize) -> usize;
    fn ddm_quotas(
        sizes: *const usize, sizes_len: usize, wanted: usize, quotas: *mut usize, quotas_len: usize, wholes: *mut usize,
        wholes_len: usize, result: *mut usize, result_len: usize,
    ) -> usize;
    fn ddm_square_root(x: f64, result: *mut f64, result_len: usize) -> usize;
}

pub fn version() -> usize {
    unsafe { ddm_version() }
}

pub fn build_sizes(n: usize, dimensions: usize, neighbours: u32, result: &mut [usize; SIZES_SLOT]) -> usize {
    unsafe { ddm_build_sizes(n, dimensions, neighbours, result.as_mut_ptr(), result.len()) }
}

/// The policy as the library takes it: its number, and the threshold.
fn policy(params: &DDMParams) -> (u32, u32) {
    match params.coarse_threshold {
        SizePolicy::Auto => (0, 0),
        SizePolicy::Fixed(c) => (1, c),
    }
}

/// Gives the lists of a tree their lengths, by what the library has reported and written.
///
/// # Safety
/// The slot is that of an accepted build or load into these lists.
unsafe fn tree_written(l: &mut Lists, dimensions: usize, result: &[usize; BUILD_SLOT]) {
    let rows: usize = result[SLOT_ROWS..SLOT_ROWS + MOST_LEVELS].iter().sum();
    let leaves: usize = result[SLOT_DOMAINS..SLOT_DOMAINS + MOST_LEVELS].iter().sum();
    // the front of these lists is written: a row of each level, a domain row of each leaf
    unsafe {
        written(&mut l.level_points, rows);
        written(&mut l.internals, rows);
        written(&mut l.domains, ROW_NUMBERS * leaves);
        written(&mut l.boxes, row_floats(dimensions) * leaves);
    }
    let last = &l.domains[ROW_NUMBERS * (leaves - 1)..];
    let borrowed = last[BORROWED_START] + last[BORROWED_COUNT];
    // and the last leaf's borrowed rows end the list of these
    unsafe { written(&mut l.borrowed, borrowed) };
}

/// Gives the lists of a tree and those of its record their lengths; the working room stays empty.
///
/// # Safety
/// The slot is that of an accepted build into these lists.
unsafe fn build_written(l: &mut Lists, dimensions: usize, result: &[usize; BUILD_SLOT]) {
    let fine = &result[SLOT_DOMAINS..SLOT_DOMAINS + result[SLOT_LEVELS] - 1];
    let nodes = fine.iter().map(|&domains| record_nodes(domains)).sum();
    // each fine level's record is written to the front of both lists, one after the other
    unsafe {
        tree_written(l, dimensions, result);
        written(&mut l.cuts, nodes);
        written(&mut l.planes, nodes);
    }
}

/// Builds into the lists, and after an accepted call gives each its length.
pub fn build(points: &[f64], dimensions: usize, params: DDMParams, lists: &mut Lists, result: &mut [usize; BUILD_SLOT]) -> usize {
    let (policy, threshold) = policy(&params);
    let l = &mut *lists;
    let number = unsafe {
        ddm_build(
            points.as_ptr(), points.len(), dimensions, params.leaf_threshold, params.overlap_knn,
            params.coarse_reduction_factor, policy, threshold, l.level_points.as_mut_ptr(), l.level_points.capacity(),
            l.internals.as_mut_ptr(), l.internals.capacity(), l.domains.as_mut_ptr(), l.domains.capacity(), l.boxes.as_mut_ptr(),
            l.boxes.capacity(), l.borrowed.as_mut_ptr(), l.borrowed.capacity(), l.floats.as_mut_ptr(), l.floats.capacity(),
            l.wholes.as_mut_ptr(), l.wholes.capacity(), l.cuts.as_mut_ptr(), l.cuts.capacity(), l.planes.as_mut_ptr(),
            l.planes.capacity(), result.as_mut_ptr(), result.len(),
        )
    };
    if number == 0 {
        unsafe { build_written(l, dimensions, result) };
    }
    number
}

/// Builds depth first into the lists, and after an accepted call gives each its length.
pub fn build_depth_first(
    points: &[f64], dimensions: usize, params: DDMParams, lists: &mut Lists, result: &mut [usize; BUILD_SLOT],
) -> usize {
    let (policy, threshold) = policy(&params);
    let l = &mut *lists;
    let number = unsafe {
        ddm_build_depth_first(
            points.as_ptr(), points.len(), dimensions, params.leaf_threshold, params.overlap_knn,
            params.coarse_reduction_factor, policy, threshold, l.level_points.as_mut_ptr(), l.level_points.capacity(),
            l.internals.as_mut_ptr(), l.internals.capacity(), l.domains.as_mut_ptr(), l.domains.capacity(), l.boxes.as_mut_ptr(),
            l.boxes.capacity(), l.borrowed.as_mut_ptr(), l.borrowed.capacity(), l.floats.as_mut_ptr(), l.floats.capacity(),
            l.wholes.as_mut_ptr(), l.wholes.capacity(), l.cuts.as_mut_ptr(), l.cuts.capacity(), l.planes.as_mut_ptr(),
            l.planes.capacity(), result.as_mut_ptr(), result.len(),
        )
    };
    if number == 0 {
        unsafe { build_written(l, dimensions, result) };
    }
    number
}

/// Builds over the live slots of a table into the lists, and after an accepted call gives each its length.
pub fn build_slots(
    head: Head, flags: &[u8], coordinates: &[f64], dimensions: usize, params: DDMParams, lists: &mut Lists,
    result: &mut [usize; BUILD_SLOT],
) -> usize {
    let (policy, threshold) = policy(&params);
    let l = &mut *lists;
    let number = unsafe {
        ddm_build_slots(
            head.slots, head.live, flags.as_ptr(), flags.len(), coordinates.as_ptr(), coordinates.len(), dimensions,
            params.leaf_threshold, params.overlap_knn, params.coarse_reduction_factor, policy, threshold,
            l.level_points.as_mut_ptr(), l.level_points.capacity(), l.internals.as_mut_ptr(), l.internals.capacity(),
            l.domains.as_mut_ptr(), l.domains.capacity(), l.boxes.as_mut_ptr(), l.boxes.capacity(), l.borrowed.as_mut_ptr(),
            l.borrowed.capacity(), l.floats.as_mut_ptr(), l.floats.capacity(), l.wholes.as_mut_ptr(), l.wholes.capacity(),
            l.cuts.as_mut_ptr(), l.cuts.capacity(), l.planes.as_mut_ptr(), l.planes.capacity(), result.as_mut_ptr(), result.len(),
        )
    };
    if number == 0 {
        unsafe { build_written(l, dimensions, result) };
    }
    number
}

/// Adds a point to a table, whose head, flags and coordinates are changed where they are.
pub fn add(
    head: &mut Head, flags: &mut [u8], coordinates: &mut [f64], dimensions: usize, point: &[f64], result: &mut [usize; ADD_SLOT],
) -> usize {
    unsafe {
        ddm_add(
            head, flags.as_mut_ptr(), flags.len(), coordinates.as_mut_ptr(), coordinates.len(), dimensions, point.as_ptr(),
            point.len(), result.as_mut_ptr(), result.len(),
        )
    }
}

/// Retires a slot of a table.
pub fn retire(head: &mut Head, flags: &mut [u8], coordinates: &[f64], dimensions: usize, slot: usize) -> usize {
    unsafe { ddm_retire(head, flags.as_mut_ptr(), flags.len(), coordinates.as_ptr(), coordinates.len(), dimensions, slot) }
}

/// Closes the gaps of a table, writes the list from old slot to new to `rename`, and after an accepted call gives that its length.
pub fn close(
    head: &mut Head, flags: &mut [u8], coordinates: &mut [f64], dimensions: usize, rename: &mut Vec<usize>,
    result: &mut [usize; CLOSE_SLOT],
) -> usize {
    let slots = head.slots;
    let number = unsafe {
        ddm_close(
            head, flags.as_mut_ptr(), flags.len(), coordinates.as_mut_ptr(), coordinates.len(), dimensions, rename.as_mut_ptr(),
            rename.capacity(), result.as_mut_ptr(), result.len(),
        )
    };
    if number == 0 {
        // an accepted call writes one entry for each slot that there was
        unsafe { written(rename, slots) };
    }
    number
}

/// Loads into the five lists of a tree, and after an accepted call gives each its length.
pub fn load(
    points: &[f64], dimensions: usize, params: DDMParams, file: &[u8], lists: &mut Lists, result: &mut [usize; BUILD_SLOT],
) -> usize {
    let (policy, threshold) = policy(&params);
    let l = &mut *lists;
    let number = unsafe {
        ddm_load(
            points.as_ptr(), points.len(), dimensions, params.leaf_threshold, params.overlap_knn,
            params.coarse_reduction_factor, policy, threshold, file.as_ptr(), file.len(), l.level_points.as_mut_ptr(),
            l.level_points.capacity(), l.internals.as_mut_ptr(), l.internals.capacity(), l.domains.as_mut_ptr(),
            l.domains.capacity(), l.boxes.as_mut_ptr(), l.boxes.capacity(), l.borrowed.as_mut_ptr(), l.borrowed.capacity(),
            result.as_mut_ptr(), result.len(),
        )
    };
    if number == 0 {
        unsafe { tree_written(l, dimensions, result) };
    }
    number
}

/// Writes the file of the tree in the five lists to `file`, and after an accepted call gives that its length. The lists are lent by their
/// capacity too: the writer reads what the counts and domain rows name, which is their front, and nothing behind it.
#[allow(clippy::too_many_arguments)]
pub fn store(
    points: &[f64], dimensions: usize, params: DDMParams, tree: &[usize; BUILD_SLOT], lists: &Lists, file: &mut Vec<u8>,
    result: &mut [usize; STORE_SLOT],
) -> usize {
    let (policy, threshold) = policy(&params);
    let number = unsafe {
        ddm_store(
            points.as_ptr(), points.len(), dimensions, params.leaf_threshold, params.overlap_knn,
            params.coarse_reduction_factor, policy, threshold, tree.as_ptr(), tree.len(), lists.level_points.as_ptr(),
            lists.level_points.capacity(), lists.internals.as_ptr(), lists.internals.capacity(), lists.domains.as_ptr(), lists.domains.capacity(),
            lists.boxes.as_ptr(), lists.boxes.capacity(), lists.borrowed.as_ptr(), lists.borrowed.capacity(), file.as_mut_ptr(),
            file.capacity(), result.as_mut_ptr(), result.len(),
        )
    };
    if number == 0 {
        // an accepted call writes as many bytes as it says
        unsafe { written(file, result[STORE_BYTES]) };
    }
    number
}

/// Samples into `out`, and after an accepted call gives it its length.
#[allow(clippy::too_many_arguments)]
pub fn sample(
    points: &[f64], dimensions: usize, wanted: usize, seed: usize, out: &mut Vec<usize>, floats: &mut Vec<f64>,
    wholes: &mut Vec<usize>, cover: &mut [f64; COVER_SLOT], result: &mut [usize; SAMPLE_SLOT],
) -> usize {
    let number = unsafe {
        ddm_sample(
            points.as_ptr(), points.len(), dimensions, wanted, seed, out.as_mut_ptr(), out.capacity(), floats.as_mut_ptr(),
            floats.capacity(), wholes.as_mut_ptr(), wholes.capacity(), cover.as_mut_ptr(), cover.len(), result.as_mut_ptr(),
            result.len(),
        )
    };
    if number == 0 {
        // an accepted call writes as many rows as it says
        unsafe { written(out, result[SAMPLE_WRITTEN]) };
    }
    number
}

pub fn level_size(a: usize, c: u32, r: u32, result: &mut [usize; LEVEL_SIZE_SLOT]) -> usize {
    unsafe { ddm_level_size(a, c, r, result.as_mut_ptr(), result.len()) }
}

/// Writes the quotas to `out`, and after an accepted call gives it its length.
pub fn quotas(sizes: &[usize], wanted: usize, out: &mut Vec<usize>, wholes: &mut Vec<usize>, result: &mut [usize; QUOTA_SLOT]) -> usize {
    let number = unsafe {
        ddm_quotas(
            sizes.as_ptr(), sizes.len(), wanted, out.as_mut_ptr(), out.capacity(), wholes.as_mut_ptr(), wholes.capacity(),
            result.as_mut_ptr(), result.len(),
        )
    };
    if number == 0 {
        // an accepted call writes one entry for each leaf, and says so
        unsafe { written(out, result[QUOTA_WRITTEN]) };
    }
    number
}

pub fn square_root(x: f64, result: &mut [f64; ROOT_SLOT]) -> usize {
    unsafe { ddm_square_root(x, result.as_mut_ptr(), result.len()) }
}

/// The list's length after a call that wrote its first entries.
///
/// # Safety
/// The first `entries` entries have been written.
unsafe fn written<T>(list: &mut Vec<T>, entries: usize) {
    assert!(entries <= list.capacity(), "the library wrote past a list");
    list.set_len(entries);
}
