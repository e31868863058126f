//! The table of wells against a plain one: sequences of edits and closings, refusals, the build over its live slots, and the build before
//! closing against the one after it.
mod plain;

use plain::random::{Random, KINDS};
use plain::stored::Packed;
use plain::{table, trees, Level};
use rekvashu::{build, DDMParams, Error, Refusal, SizePolicy, Table};

#[path = "../src/packed.rs"]
#[allow(dead_code)]
mod packed;

use packed::{ADD_PLACE, ADD_SLOT, ADD_TAKEN, CLOSE_PLACE, CLOSE_SLOT, CLOSE_SLOTS};

// the archive comes with the crate
extern "C" {
    fn ddm_add(
        head: *mut [usize; 2], flags: *mut u8, flags_len: usize, coordinates: *mut f64, coordinates_len: usize, dimensions: usize,
        point: *const f64, point_len: usize, result: *mut usize, result_len: usize,
    ) -> usize;
    fn ddm_retire(
        head: *mut [usize; 2], flags: *mut u8, flags_len: usize, coordinates: *const f64, coordinates_len: usize, dimensions: usize,
        slot: usize,
    ) -> usize;
    fn ddm_close(
        head: *mut [usize; 2], flags: *mut u8, flags_len: usize, coordinates: *mut f64, coordinates_len: usize, dimensions: usize,
        rename: *mut usize, rename_len: usize, result: *mut usize, result_len: usize,
    ) -> usize;
}

fn refused(number: usize, place: usize) -> Error {
    Refusal::new(number, place).into()
}

/// A plain table without wells, in whose lists stands what no answer may depend on.
fn empty(capacity: usize, d: usize) -> table::Table {
    table::Table { slots: 0, live: 0, flags: vec![9; capacity], coordinates: vec![f64::NAN; capacity * d] }
}

/// A point, sometimes of another length or with a coordinate that is not finite.
fn point(random: &mut Random, d: usize) -> Vec<f64> {
    let kind = random.below(KINDS);
    let many = if random.below(30) == 0 { random.below(5) } else { d };
    let mut point: Vec<f64> = (0..many).map(|_| random.coordinate(kind)).collect();
    if many > 0 && random.below(20) == 0 {
        point[random.below(many)] = [f64::NAN, f64::INFINITY, f64::NEG_INFINITY][random.below(3)];
    }
    point
}

fn settings(random: &mut Random) -> DDMParams {
    DDMParams {
        leaf_threshold: random.below(9) as u32,
        overlap_knn: random.below(6) as u32,
        coarse_reduction_factor: 2 + random.below(4) as u32,
        coarse_threshold: if random.below(8) == 0 { SizePolicy::Auto } else { SizePolicy::Fixed(1 + random.below(9) as u32) },
    }
}

/// The wells of both tables are the same, slot for slot and bit for bit.
fn same_wells(ours: &Table, theirs: &table::Table, d: usize) -> bool {
    let bits = |point: &[f64]| point.iter().map(|x| x.to_bits()).collect::<Vec<_>>();
    (ours.slots(), ours.len(), ours.is_empty()) == (theirs.slots, theirs.live, theirs.live == 0)
        && ours.live().eq(theirs.live_slots())
        && (0..theirs.flags.len() + 2).all(|slot| match ours.point(slot) {
            Some(point) => theirs.live_slots().contains(&slot) && bits(point) == bits(&theirs.coordinates[slot * d..(slot + 1) * d]),
            None => !theirs.live_slots().contains(&slot),
        })
}

/// Levels with each row named by its slot.
fn renamed(levels: Vec<Level>, slots: &[usize]) -> Vec<Level> {
    let name = |rows: &mut Vec<usize>| rows.iter_mut().for_each(|row| *row = slots[*row]);
    let mut levels = levels;
    for level in &mut levels {
        name(&mut level.rows);
        for leaf in &mut level.leaves {
            name(&mut leaf.own);
            name(&mut leaf.borrowed);
        }
    }
    levels
}

/// The lists of a tree, and the bits of their floats.
fn lists(levels: &[Level], d: usize) -> (Packed, Vec<u64>) {
    let lists = plain::stored::packed(levels, d);
    let bits = lists.boxes.iter().map(|x| x.to_bits()).collect();
    (lists, bits)
}

/// The table's tree is the plain one, and that of the live points with each row named by its slot; its record is that of both. The refusal's
/// number, 0 for none.
fn same_builds(ours: &Table, theirs: &table::Table, d: usize, params: DDMParams) -> usize {
    let live = theirs.live_slots();
    let points: Vec<f64> = live.iter().flat_map(|i| theirs.coordinates[i * d..(i + 1) * d].to_vec()).collect();
    match (ours.build(params), build(&points, d, params), theirs.build(d, &trees::settings(params))) {
        (Ok(tree), Ok(other), Ok(levels)) => {
            let records = plain::records(&theirs.coordinates, d, params.leaf_threshold, &levels);
            assert!(trees::has_records(&tree, &records) && trees::has_records(&other, &records), "{theirs:?} {params:?}");
            let tree = lists(&trees::levels(&tree), d);
            assert_eq!(tree, lists(&levels, d), "{theirs:?} {params:?}");
            assert_eq!(tree, lists(&renamed(trees::levels(&other), &live), d), "{theirs:?} {params:?}");
            0
        }
        (Err(ours), Err(other), Err(number)) => {
            assert_eq!((ours, other), (refused(number, 0), refused(number, 0)), "{theirs:?} {params:?}");
            number
        }
        (ours, other, theirs) => panic!("{:?}, {:?}, {:?}", ours.err(), other.err(), theirs.err()),
    }
}

/// Closes both tables: the same list, and the tree built before, its rows renamed by the list, is the one built after, with the same record.
/// The refusal's number of the builds, 0 for none.
fn same_closing(ours: &mut Table, theirs: &mut table::Table, d: usize, params: DDMParams) -> usize {
    let before = ours.build(params);
    let mut due = vec![usize::MAX; theirs.slots];
    assert_eq!(theirs.close(d, &mut due), Ok(theirs.live));
    let names = ours.close().unwrap();
    assert_eq!(names, due, "{theirs:?}");
    match (before, ours.build(params)) {
        (Ok(before), Ok(after)) => {
            let renamed = renamed(trees::levels(&before), &names);
            assert_eq!(lists(&renamed, d), lists(&trees::levels(&after), d), "{names:?} {params:?}");
            let [fine @ .., _] = &trees::records(&before)[..] else { panic!("a tree without levels") };
            assert!(trees::has_records(&after, fine), "{names:?} {params:?}");
            0
        }
        (Err(before), Err(after)) => {
            assert_eq!(before, after);
            before.refusal().unwrap().number
        }
        (before, after) => panic!("{:?}, {:?}", before.err(), after.err()),
    }
}

#[test]
fn random_edits_and_builds() {
    let mut random = Random(0x5eed_0070);
    let mut seen = [0; 23];
    let mut about_closing = [0; 23];
    for _ in 0..300 {
        let (d, capacity) = (1 + random.below(3), random.below(40));
        let (mut ours, mut theirs) = (Table::new(capacity, d).unwrap(), empty(capacity, d));
        assert_eq!((ours.capacity(), ours.dimension()), (capacity, d));
        for _ in 0..100 {
            if random.below(15) == 0 {
                about_closing[same_closing(&mut ours, &mut theirs, d, settings(&mut random))] += 1;
            } else if random.below(5) < 3 {
                let point = point(&mut random, d);
                let due = theirs.add(d, &point);
                seen[due.err().map_or(0, |(number, _)| number)] += 1;
                assert_eq!(ours.add(&point), due.map_err(|(number, place)| refused(number, place)), "{point:?} to {theirs:?}");
            } else {
                let slot = if random.below(50) == 0 { usize::MAX } else { random.below(theirs.slots + 2) };
                let due = theirs.retire(d, slot);
                seen[due.err().unwrap_or(0)] += 1;
                assert_eq!(ours.retire(slot), due.map_err(|number| refused(number, 0)), "{slot} of {theirs:?}");
            }
            assert!(same_wells(&ours, &theirs, d), "{ours:?} {theirs:?}");
            if random.below(5) == 0 {
                seen[same_builds(&ours, &theirs, d, settings(&mut random))] += 1;
            }
        }
    }
    // each outcome came up often enough to be tested
    println!("outcomes 0 to 22: {seen:?}");
    assert!([0, 2, 6, 7, 9, 10, 21, 22].iter().all(|number| seen[*number] > 30), "{seen:?}");
    println!("builds about closing: {about_closing:?}");
    assert!([0, 2, 6, 9].iter().all(|number| about_closing[*number] > 20), "{about_closing:?}");
}

/// The numbers of the edits among the lent tables.
const RETIRING: usize = 0;
const ADDING: usize = 1;
const CLOSING: usize = 2;

/// Edits of lent lists, whose head, flags and coordinates may be wrong: the library's answer and table are the plain ones.
#[test]
fn random_edits_of_lent_tables() {
    let mut random = Random(0x5eed_0071);
    let mut seen = [[0; 28]; 3];
    for _ in 0..30_000 {
        let (capacity, slots) = (random.below(9), random.below(12));
        let mut d = 1 + random.below(3);
        let flags: Vec<u8> = (0..capacity).map(|_| [0, 1, 1, 2, 255][random.below(5)]).collect();
        let live = flags.iter().take(slots).filter(|flag| **flag != 0).count();
        let many = if random.below(6) == 0 { random.below(capacity * d + 1) } else { capacity * d + random.below(3) };
        let coordinates = (0..many).map(|_| [f64::NAN, 5.0, -0.0][random.below(3)]).collect();
        let live = if random.below(6) == 0 { random.below(9) } else { live };
        let mut theirs = table::Table { slots: if random.below(3) == 0 { slots } else { slots.min(capacity) }, live, flags, coordinates };
        if random.below(20) == 0 {
            d = [0, 4][random.below(2)];
        }
        let (mut head, mut flags, mut coordinates) = ([theirs.slots, theirs.live], theirs.flags.clone(), theirs.coordinates.clone());
        let (point, slot) = (point(&mut random, d.clamp(1, 3)), random.below(slots + 2));
        let kind = random.below(3);
        if kind == ADDING {
            let mut result = [usize::MAX; ADD_SLOT];
            let number = unsafe {
                ddm_add(
                    &mut head, flags.as_mut_ptr(), flags.len(), coordinates.as_mut_ptr(), coordinates.len(), d, point.as_ptr(),
                    point.len(), result.as_mut_ptr(), ADD_SLOT,
                )
            };
            let due = theirs.add(d, &point).map_or_else(|(number, place)| (number, place, 0), |slot| (0, 0, slot));
            assert_eq!((number, result[ADD_PLACE], result[ADD_TAKEN]), due, "{d} {point:?} {theirs:?}");
            seen[kind][number] += 1;
        } else if kind == CLOSING {
            let mut result = [usize::MAX; CLOSE_SLOT];
            let entries = (theirs.slots + random.below(3)).saturating_sub(random.below(10) / 8);
            let mut names: Vec<usize> = (0..entries).map(|i| 777 + i).collect();
            let mut expected = names.clone();
            let number = unsafe {
                ddm_close(
                    &mut head, flags.as_mut_ptr(), flags.len(), coordinates.as_mut_ptr(), coordinates.len(), d, names.as_mut_ptr(),
                    names.len(), result.as_mut_ptr(), CLOSE_SLOT,
                )
            };
            let due = theirs.close(d, &mut expected).map_or_else(|number| (number, 0, 0), |slots| (0, 0, slots));
            assert_eq!((number, result[CLOSE_PLACE], result[CLOSE_SLOTS]), due, "{d} {theirs:?}");
            assert_eq!(names, expected, "{d} {theirs:?}");
            seen[kind][number] += 1;
        } else {
            let number = unsafe {
                ddm_retire(&mut head, flags.as_mut_ptr(), flags.len(), coordinates.as_ptr(), coordinates.len(), d, slot)
            };
            assert_eq!(number, theirs.retire(d, slot).err().unwrap_or(0), "{d} {slot} {theirs:?}");
            seen[kind][number] += 1;
        }
        let bits = |list: &[f64]| list.iter().map(|x| x.to_bits()).collect::<Vec<_>>();
        assert_eq!((head, &flags), ([theirs.slots, theirs.live], &theirs.flags));
        assert_eq!(bits(&coordinates), bits(&theirs.coordinates));
    }
    println!("adding: {:?}; retiring: {:?}; closing: {:?}", seen[ADDING], seen[RETIRING], seen[CLOSING]);
    assert!([0, 1, 11, 27, 7, 10, 21].iter().all(|number| seen[ADDING][*number] > 100), "{:?}", seen[ADDING]);
    assert!([0, 1, 11, 27, 22].iter().all(|number| seen[RETIRING][*number] > 100), "{:?}", seen[RETIRING]);
    assert!([0, 1, 11, 27].iter().all(|number| seen[CLOSING][*number] > 100), "{:?}", seen[CLOSING]);
}

#[test]
fn slots_are_given_out_again() {
    let mut table = Table::new(3, 1).unwrap();
    let add = |table: &mut Table, x: f64| table.add(&[x]);
    assert_eq!([0.0, 1.0, 2.0].map(|x| add(&mut table, x)), [Ok(0), Ok(1), Ok(2)]);
    assert_eq!(add(&mut table, 3.0), Err(refused(21, 0)));
    assert_eq!([2, 0, 0, 3].map(|slot| table.retire(slot)), [Ok(()), Ok(()), Err(refused(22, 0)), Err(refused(22, 0))]);
    assert_eq!((table.live().collect::<Vec<_>>(), table.len(), table.slots()), (vec![1], 1, 3));
    assert_eq!((table.point(0), table.point(1), table.point(3)), (None, Some(&[1.0][..]), None));
    assert_eq!([3.0, 4.0, 5.0].map(|x| add(&mut table, x)), [Ok(0), Ok(2), Err(refused(21, 0))]);
    assert_eq!(table.live().rev().map(|slot| table.point(slot).unwrap()[0]).collect::<Vec<_>>(), [4.0, 1.0, 3.0]);
}

#[test]
fn gaps_are_closed() {
    let mut table = Table::new(7, 2).unwrap();
    assert_eq!(table.close(), Ok(vec![]));
    for x in [0.0, 1.0, -0.0, 3.0, 4.0, 5.0] {
        table.add(&[x, -x]).unwrap();
    }
    assert_eq!(table.close(), Ok(vec![0, 1, 2, 3, 4, 5]));
    for slot in [0, 3, 5] {
        table.retire(slot).unwrap();
    }
    assert_eq!(table.close(), Ok(vec![6, 0, 1, 6, 2, 6]));
    assert_eq!((table.slots(), table.len(), table.capacity(), table.live().collect::<Vec<_>>()), (3, 3, 7, vec![0, 1, 2]));
    let points: Vec<_> = (0..4).map(|slot| table.point(slot)).collect();
    assert_eq!(points, [Some(&[1.0, -1.0][..]), Some(&[0.0; 2]), Some(&[4.0, -4.0]), None]);
    // the sign of a zero goes with it
    assert_eq!(table.point(1).unwrap().iter().map(|x| x.is_sign_negative()).collect::<Vec<_>>(), [true, false]);
    assert_eq!(table.add(&[9.0, 9.0]), Ok(3));
    for slot in 0..4 {
        table.retire(slot).unwrap();
    }
    assert_eq!((table.close(), table.slots(), table.is_empty()), (Ok(vec![4; 4]), 0, true));
    assert_eq!(Table::new(0, 3).unwrap().close(), Ok(vec![]));
}

#[test]
fn refusals() {
    for d in [0, 4, usize::MAX] {
        assert_eq!(Table::new(1, d).unwrap_err(), refused(1, 0));
    }
    let mut none = Table::new(0, 2).unwrap();
    for (point, number, place) in [(&[0.0][..], 7, 0), (&[f64::NAN; 3], 7, 0), (&[0.0, f64::NAN], 10, 1), (&[0.0, 0.0], 21, 0)] {
        assert_eq!(none.add(point), Err(refused(number, place)));
    }
    assert_eq!((none.retire(0), none.build(DDMParams::default())), (Err(refused(22, 0)), Err(refused(6, 0))));
    let zero = DDMParams { leaf_threshold: 0, ..DDMParams::default() };
    assert_eq!(none.build(zero), Err(refused(2, 0)));
}

#[test]
fn the_largest_table() {
    let mut table = Table::new(usize::MAX, 1).unwrap();
    assert_eq!(table.capacity(), 1_048_576);
    assert_eq!(table.add(&[1.0]), Ok(0));
    assert_eq!(table.retire(1_048_576), Err(refused(22, 0)));
}

/// A tree over slots is no tree over points that could be stored, unless the live slots are the first ones.
#[test]
fn only_a_tree_over_the_first_slots_is_stored() {
    let mut table = Table::new(4, 1).unwrap();
    for x in [0.0, 1.0, 3.0, 7.0] {
        table.add(&[x]).unwrap();
    }
    let params = DDMParams { coarse_threshold: SizePolicy::Fixed(2), ..DDMParams::default() };
    let points = [0.0, 1.0, 3.0, 7.0];
    let tree = table.build(params).unwrap();
    assert_eq!(tree, build(&points, 1, params).unwrap());
    assert_eq!(tree.to_bytes(&points, params), build(&points, 1, params).unwrap().to_bytes(&points, params));
    table.retire(3).unwrap();
    let three = &points[..3];
    assert_eq!(table.build(params).unwrap().to_bytes(three, params), build(three, 1, params).unwrap().to_bytes(three, params));
    table.retire(1).unwrap();
    assert_eq!(table.build(params).unwrap().to_bytes(&[0.0, 3.0], params), Err(refused(20, 0)));
    // closing leaves no other slots
    assert_eq!(table.close(), Ok(vec![0, 4, 1, 4]));
    let two = &[0.0, 3.0];
    assert_eq!(table.build(params).unwrap().to_bytes(two, params), build(two, 1, params).unwrap().to_bytes(two, params));
}
