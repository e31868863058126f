//! The library against the plain implementation: random jobs by all three builds, whose search for neighbours has to find what the plain scan
//! of every pair finds; refusals, and the sizes around each limit.
mod plain;

use plain::jobs::{job, Wells, NEIGHBOURS, WELLS};
use plain::random::Random;
use plain::trees::{has_records, settings};
use rekvashu::{build, build_depth_first, level_size, quotas, sample, square_root, DDMParams, Error, Refusal, SizePolicy, Table, Tree};

/// How many random jobs there are: fewer without optimisation.
const JOBS: usize = if cfg!(debug_assertions) { 4_000 } else { 20_000 };

fn bits(xs: &[f64]) -> Vec<u64> {
    xs.iter().map(|x| x.to_bits()).collect()
}

/// Whether a tree is the plain one, whose rows it names by this list.
fn same_tree(tree: &Tree, levels: &[plain::Level], names: &[usize]) -> bool {
    let same_rows = |ours: &[usize], theirs: &[usize]| ours.iter().copied().eq(theirs.iter().map(|&row| names[row]));
    tree.len() == levels.len()
        && tree.levels().zip(levels).all(|(ours, theirs)| {
            same_rows(ours.rows(), &theirs.rows)
                && ours.len() == theirs.leaves.len()
                && ours.leaves().zip(&theirs.leaves).all(|(a, b)| {
                    same_rows(a.own(), &b.own)
                        && same_rows(a.borrowed(), &b.borrowed)
                        && match a.bounds() {
                            Some((lower, upper)) => bits(lower) == bits(&b.lower) && bits(upper) == bits(&b.upper),
                            None => ours.is_coarse(),
                        }
                        && a.cover().to_bits() == b.cover.to_bits()
                        && a.depth() == b.depth
                })
        })
}

fn refused(number: usize, place: usize) -> Error {
    Refusal::new(number, place).into()
}

/// A table of these wells, with retired slots in front of some of them, and the slots that the wells have.
fn table(coords: &[f64], d: usize) -> (Table, Vec<usize>) {
    let n = coords.len() / d;
    let mut random = Random(1 + n as u64);
    let gaps: Vec<usize> = (0..n).map(|_| if random.below(5) == 0 { 1 + random.below(3) } else { 0 }).collect();
    let mut table = Table::new(n + gaps.iter().sum::<usize>(), d).unwrap();
    let mut slots = Vec::new();
    for (well, gap) in coords.chunks(d).zip(gaps) {
        for _ in 0..gap {
            table.add(well).unwrap();
        }
        slots.push(table.add(well).unwrap());
    }
    let retired: Vec<usize> = table.live().filter(|slot| slots.binary_search(slot).is_err()).collect();
    for slot in retired {
        table.retire(slot).unwrap();
    }
    (table, slots)
}

/// What each build answers: the two over points, and the one over the slots of a table where these wells can be in one; with the names of the
/// wells.
fn builds(coords: &[f64], d: usize, p: DDMParams) -> Vec<(Result<Tree, Error>, Vec<usize>)> {
    let rows: Vec<usize> = (0..coords.len()).collect();
    let mut answers = vec![(build(coords, d, p), rows.clone()), (build_depth_first(coords, d, p), rows)];
    if (1..=3).contains(&d) && coords.len() % d == 0 && coords.iter().all(|x| x.is_finite()) {
        let (table, slots) = table(coords, d);
        answers.push((table.build(p), slots));
    }
    answers
}

/// The answer of each build is the plain one: tree and record, or refusal. The levels, none where the job is refused.
fn check(coords: &[f64], d: usize, p: DDMParams) -> Vec<plain::Level> {
    let expected = plain::build(coords, d, &settings(p));
    for (answer, names) in builds(coords, d, p) {
        match (answer, &expected) {
            (Ok(tree), Ok(levels)) => {
                assert!(same_tree(&tree, levels, &names), "trees differ: {d} {p:?} {coords:?}");
                let records = plain::records(coords, d, p.leaf_threshold, levels);
                assert!(has_records(&tree, &records), "records differ: {d} {p:?} {coords:?}");
            }
            (Err(ours), Err((number, place))) => assert_eq!(ours, refused(*number, *place), "{d} {p:?} {coords:?}"),
            (ours, theirs) => panic!("{:?} against {:?}: {d} {p:?} {coords:?}", ours.err(), theirs.as_ref().err()),
        }
    }
    expected.unwrap_or_default()
}

/// 0 for an empty leaf, 1 for a cover of 0, 3 for an infinite one, and 2 for any other.
fn kind_of_cover(leaf: &plain::Leaf) -> usize {
    match leaf.cover {
        _ if leaf.own.is_empty() => 0,
        0.0 => 1,
        f64::INFINITY => 3,
        _ => 2,
    }
}

/// The most rows that are the same as one of them, itself counted.
fn most_same(coords: &[f64], d: usize, same: fn(&[f64], &[f64]) -> bool) -> usize {
    let count = |p| coords.chunks(d).filter(|q| same(p, q)).count();
    coords.chunks(d).map(count).max().unwrap()
}

/// What the random jobs had in them, so that it is tested often enough.
#[derive(Debug, Default)]
struct Seen {
    /// Trees with a fine level: with duplicates, and with more rows at distance zero than a row takes.
    duplicates: usize,
    crowded: usize,
    /// Fine leaves by the kind of their cover, and fine levels with one depth and with two.
    covers: [usize; 4],
    depths: [usize; 2],
    /// Trees with a fine level: by how the wells lie, by the neighbour counts that are listed, and with the leaf threshold 1 or above n.
    wells: [usize; WELLS.len()],
    neighbours: [usize; NEIGHBOURS.len()],
    thresholds: [usize; 2],
}

impl Seen {
    fn add(&mut self, job: &plain::jobs::Job, levels: &[plain::Level]) {
        let [fine @ .., _] = levels else { return };
        for leaf in fine.iter().flat_map(|level| &level.leaves) {
            self.covers[kind_of_cover(leaf)] += 1;
        }
        for level in fine {
            self.depths[usize::from(level.leaves[0].depth < level.leaves.last().unwrap().depth)] += 1;
        }
        if fine.is_empty() {
            return;
        }
        let (d, p, n) = (job.d, job.params, job.coords.len() / job.d);
        self.duplicates += usize::from(most_same(&job.coords, d, |a, b| a == b) > 1);
        let at_zero = most_same(&job.coords, d, |a, b| plain::distance_sq(a, b) == 0.0);
        self.crowded += usize::from(at_zero > p.overlap_knn as usize + 1);
        self.wells[WELLS.iter().position(|wells| *wells == job.wells).unwrap()] += 1;
        if let Some(which) = NEIGHBOURS.iter().position(|count| *count == p.overlap_knn) {
            self.neighbours[which] += 1;
        }
        self.thresholds[0] += usize::from(p.leaf_threshold == 1);
        self.thresholds[1] += usize::from(p.leaf_threshold as usize > n);
    }

    /// How many trees with a fine level had wells that lie so.
    fn lying(&self, wells: Wells) -> usize {
        self.wells[WELLS.iter().position(|each| *each == wells).unwrap()]
    }
}

/// The plain implementation scans every pair, and the library searches.
#[test]
fn search_against_scan() {
    let mut random = Random(0x5eed_0001);
    let mut seen = Seen::default();
    for number in 0..JOBS {
        let job = job(&mut random, number);
        seen.add(&job, &check(&job.coords, job.d, job.params));
    }
    println!("trees with a fine level: {} with duplicates, {} with more at distance zero than a row takes", seen.duplicates, seen.crowded);
    assert!(seen.duplicates > JOBS / 2 && seen.crowded > JOBS / 4, "{seen:?}");
    let [empty, none, some, infinite] = seen.covers;
    println!("fine leaves: {empty} empty, {none} with the cover 0, {some} with another, {infinite} with an infinite one");
    assert!(seen.covers.iter().all(|many| *many > JOBS / 2), "{seen:?}");
    println!("fine levels: {} with one depth, {} with two", seen.depths[0], seen.depths[1]);
    assert!(seen.depths.iter().all(|many| *many > JOBS / 20), "{seen:?}");
    for wells in [Wells::Scattered, Wells::Nested, Wells::Lattice, Wells::Shuffled, Wells::Together, Wells::Half, Wells::Hundreds] {
        println!("wells {wells:?}: {} trees with a fine level", seen.lying(wells));
        assert!(seen.lying(wells) > JOBS / 20, "{seen:?}");
    }
    println!("neighbours {NEIGHBOURS:?}: {:?}; leaf threshold 1 and above n: {:?}", seen.neighbours, seen.thresholds);
    assert!(seen.neighbours.iter().chain(&seen.thresholds).all(|many| *many > JOBS / 20), "{seen:?}");
}

#[test]
fn larger_jobs() {
    let mut random = Random(0x5eed_0002);
    for n in [511, 512, 513, 1000, 1500] {
        for d in 1..=3 {
            for kind in [0, 1] {
                let coords: Vec<f64> = (0..n * d).map(|_| random.coordinate(kind)).collect();
                check(&coords, d, DDMParams { leaf_threshold: 20, ..DDMParams::default() });
            }
        }
    }
}

#[test]
fn refusals() {
    let mut random = Random(0x5eed_0003);
    let odd = [0u32, 1, 2, 3, 64, 65, 4_294_967_295];
    for _ in 0..4_000 {
        let d = random.below(5);
        let mut coords: Vec<f64> = (0..random.below(12)).map(|_| random.coordinate(1)).collect();
        if !coords.is_empty() && random.below(3) == 0 {
            let at = random.below(coords.len());
            coords[at] = [f64::NAN, f64::INFINITY, f64::NEG_INFINITY][random.below(3)];
        }
        let mut number = || odd[random.below(7)];
        let p = DDMParams {
            leaf_threshold: number(),
            overlap_knn: number(),
            coarse_reduction_factor: number(),
            coarse_threshold: SizePolicy::Fixed(number()),
        };
        check(&coords, d, p);
    }
}

#[test]
fn sizes_around_each_limit() {
    let p = |c: u32, k: u32| DDMParams { leaf_threshold: 2, overlap_knn: k, coarse_reduction_factor: 2, coarse_threshold: SizePolicy::Fixed(c) };
    for n in [1usize, 7, 8, 9, 31, 32, 33, 56, 57] {
        for k in [0, 64, 65] {
            let coords: Vec<f64> = (0..n).map(|i| ((i * 7919) % 101) as f64).collect();
            check(&coords, 1, p(7, k));
        }
    }
    assert_eq!(build(&vec![0.0; 1_048_577], 1, p(1, 0)).unwrap_err(), refused(8, 0));
    // 1,048,576 points pass that test: the next refusal, 9, is the one that shows
    assert_eq!(build(&vec![0.0; 1_048_576], 1, p(1, 0)).unwrap_err(), refused(9, 0));
}

#[test]
fn other_functions() {
    let mut random = Random(0x5eed_0004);
    for _ in 0..2_000 {
        let sizes: Vec<usize> = (0..random.below(9)).map(|_| random.below(7)).collect();
        let s = random.below(40);
        assert_eq!(quotas(&sizes, s).unwrap(), plain::quotas(&sizes, s));
        let (a, c, r) = (2 + random.below(3000), random.below(3000) as u32, random.below(5) as u32);
        let size = level_size(a, c, r);
        if c == 0 {
            assert_eq!(size.unwrap_err().number, 4);
        } else if a <= c as usize {
            assert_eq!(size.unwrap_err().number, 14);
        } else if r == 0 || r > 3 {
            assert_eq!(size.unwrap_err().number, 9);
        } else {
            assert_eq!(size.unwrap(), plain::level_size(a, c as usize, r));
        }
        let n = 1 + random.below(30);
        let kind = random.below(5);
        let coords: Vec<f64> = (0..2 * n).map(|_| random.coordinate(kind)).collect();
        let (wanted, seed) = (1 + random.below(n), random.below(n));
        let rows: Vec<usize> = (0..n).collect();
        let points = plain::Points { coords: &coords, d: 2 };
        let (ours, theirs) = (sample(&coords, 2, wanted, seed).unwrap(), plain::sample(&points, &rows, wanted, seed));
        assert_eq!(ours.rows, theirs);
        assert_eq!(ours.cover.to_bits(), plain::cover(&points, &rows, &theirs).to_bits(), "{wanted} from {seed} of {coords:?}");
        let x = f64::from_bits(random.next());
        match square_root(x) {
            Ok(root) => assert_eq!(root.to_bits(), x.sqrt().to_bits()),
            Err(refused) => assert!(refused.number == 15 && (x.is_nan() || x < 0.0)),
        }
    }
    assert_eq!(sample(&[0.0, 1.0], 1, 0, 0).unwrap_err(), refused(13, 0));
    assert_eq!(sample(&[0.0, 1.0], 1, 1, 2).unwrap_err(), refused(13, 0));
    assert_eq!(sample(&[0.0, f64::INFINITY], 1, 1, 0).unwrap_err(), refused(10, 1));
    assert_eq!(quotas(&[1_048_576, 1], 4).unwrap_err(), refused(8, 0));
}
