//! The three builds against a plain implementation, list by list: trees, cut records, refusals, and that nothing else is written.
mod plain;

use plain::random::{Random, KINDS};
use plain::{trees, Node, Policy, Settings};
use rekvashu::{build, build_depth_first, load, DDMParams, NodeKind, SizePolicy};

#[path = "../src/packed.rs"]
#[allow(dead_code)]
mod packed;

use packed::*;

// the archive comes with the crate
extern "C" {
    fn ddm_build(
        points: *const f64, points_len: usize, dimensions: usize, leaf_threshold: u32, overlap_knn: u32,
        coarse_reduction_factor: u32, policy: u32, coarse_threshold: u32, level_points: *mut usize, level_points_len: usize,
        internals: *mut usize, internals_len: usize, domains: *mut usize, domains_len: usize, boxes: *mut f64,
        boxes_len: usize, borrowed: *mut usize, borrowed_len: usize, floats: *mut f64, floats_len: usize, wholes: *mut usize,
        wholes_len: usize, cuts: *mut usize, cuts_len: usize, planes: *mut f64, planes_len: usize, result: *mut usize,
        result_len: usize,
    ) -> usize;
    fn ddm_build_depth_first(
        points: *const f64, points_len: usize, dimensions: usize, leaf_threshold: u32, overlap_knn: u32,
        coarse_reduction_factor: u32, policy: u32, coarse_threshold: u32, level_points: *mut usize, level_points_len: usize,
        internals: *mut usize, internals_len: usize, domains: *mut usize, domains_len: usize, boxes: *mut f64,
        boxes_len: usize, borrowed: *mut usize, borrowed_len: usize, floats: *mut f64, floats_len: usize, wholes: *mut usize,
        wholes_len: usize, cuts: *mut usize, cuts_len: usize, planes: *mut f64, planes_len: usize, result: *mut usize,
        result_len: usize,
    ) -> usize;
    fn ddm_build_slots(
        slots: usize, live: usize, flags: *const u8, flags_len: usize, coordinates: *const f64, coordinates_len: usize,
        dimensions: usize, leaf_threshold: u32, overlap_knn: u32, coarse_reduction_factor: u32, policy: u32, coarse_threshold: u32,
        level_points: *mut usize, level_points_len: usize, internals: *mut usize, internals_len: usize, domains: *mut usize,
        domains_len: usize, boxes: *mut f64, boxes_len: usize, borrowed: *mut usize, borrowed_len: usize, floats: *mut f64,
        floats_len: usize, wholes: *mut usize, wholes_len: usize, cuts: *mut usize, cuts_len: usize, planes: *mut f64,
        planes_len: usize, result: *mut usize, result_len: usize,
    ) -> usize;
}

/// The builds. That over slots is given a table of which every slot is live, so that its rows are those of the points.
#[derive(Clone, Copy, Debug)]
enum Build {
    Queue,
    DepthFirst,
    Slots,
}

const BUILDS: [Build; 3] = [Build::Queue, Build::DepthFirst, Build::Slots];

#[derive(Clone, Debug)]
struct Job {
    coords: Vec<f64>,
    d: usize,
    settings: Settings,
    /// The list that is one entry too short, in the order of the call.
    short: Option<usize>,
}

/// Most jobs are good; some have a short list, a bad coordinate, a bad setting, or several of these.
fn job(random: &mut Random) -> Job {
    let (n, kind) = (1 + random.below(90), random.below(KINDS));
    let mut d = 1 + random.below(3);
    let mut coords: Vec<f64> = (0..n * d).map(|_| random.coordinate(kind)).collect();
    if random.below(6) == 0 {
        let at = random.below(coords.len());
        coords[at] = [f64::NAN, f64::INFINITY, f64::NEG_INFINITY][random.below(3)];
    }
    let mut settings = Settings {
        leaf: 1 + random.below(12) as u32,
        neighbours: random.below(12) as u32,
        factor: 2 + random.below(5) as u32,
        policy: Policy::Fixed(1 + random.below(30) as u32),
    };
    if random.below(10) == 0 {
        match random.below(8) {
            0 => d = [0, 4][random.below(2)],
            1 => settings.leaf = 0,
            2 => settings.factor = 1,
            3 => settings.policy = Policy::Fixed(0),
            4 => settings.neighbours = 65,
            5 => coords.clear(),
            6 => coords.push(0.0),
            _ => settings.policy = Policy::Auto,
        }
    }
    Job { coords, d, settings, short: (random.below(4) == 0).then(|| random.below(SIZES_SLOT)) }
}

impl Job {
    /// The job as a table has it: of whole points alone.
    fn whole(&self) -> Job {
        let mut job = self.clone();
        job.coords.truncate(self.points() * self.axes());
        job
    }

    /// A number of axes that there is, for the lengths of the lists.
    fn axes(&self) -> usize {
        self.d.clamp(1, 3)
    }

    fn points(&self) -> usize {
        self.coords.len() / self.axes()
    }
}

/// What stands in every list before a call, and the entries behind those that are lent, which no call may write.
const NO_WHOLE: usize = 0x5a5a_5a5a;
const NO_FLOAT: f64 = -7.25e77;
const SPARE: usize = 2;

/// The lists of one call and its slot.
struct Lent {
    lent: [usize; SIZES_SLOT],
    level_points: Vec<usize>,
    internals: Vec<usize>,
    domains: Vec<usize>,
    boxes: Vec<f64>,
    borrowed: Vec<usize>,
    floats: Vec<f64>,
    wholes: Vec<usize>,
    cuts: Vec<usize>,
    planes: Vec<f64>,
    slot: [usize; BUILD_SLOT],
}

impl Lent {
    /// Lists for the job: of the stated lengths, but for the one that is short.
    fn new(job: &Job) -> Lent {
        let mut lent = plain::stated(job.points(), job.axes(), job.settings.neighbours);
        if let Some(list) = job.short {
            lent[list] = lent[list].saturating_sub(1);
        }
        let wholes = |list: usize| vec![NO_WHOLE; lent[list] + SPARE];
        let floats = |list: usize| vec![NO_FLOAT; lent[list] + SPARE];
        Lent {
            level_points: wholes(SIZES_LEVEL_POINTS),
            internals: wholes(SIZES_INTERNALS),
            domains: wholes(SIZES_DOMAINS),
            boxes: floats(SIZES_BOXES),
            borrowed: wholes(SIZES_BORROWED),
            floats: floats(SIZES_FLOATS),
            wholes: wholes(SIZES_WHOLES),
            cuts: wholes(SIZES_CUTS),
            planes: floats(SIZES_PLANES),
            slot: [NO_WHOLE; BUILD_SLOT],
            lent,
        }
    }

    fn build(&mut self, build: Build, job: &Job) -> usize {
        let (s, (policy, threshold), l) = (&job.settings, policy(job), self.lent);
        let call = match build {
            Build::Slots => return self.build_slots(job),
            Build::Queue => ddm_build,
            Build::DepthFirst => ddm_build_depth_first,
        };
        unsafe {
            call(
                job.coords.as_ptr(), job.coords.len(), job.d, s.leaf, s.neighbours, s.factor, policy, threshold,
                self.level_points.as_mut_ptr(), l[SIZES_LEVEL_POINTS], self.internals.as_mut_ptr(), l[SIZES_INTERNALS],
                self.domains.as_mut_ptr(), l[SIZES_DOMAINS], self.boxes.as_mut_ptr(), l[SIZES_BOXES], self.borrowed.as_mut_ptr(),
                l[SIZES_BORROWED], self.floats.as_mut_ptr(), l[SIZES_FLOATS], self.wholes.as_mut_ptr(), l[SIZES_WHOLES],
                self.cuts.as_mut_ptr(), l[SIZES_CUTS], self.planes.as_mut_ptr(), l[SIZES_PLANES], self.slot.as_mut_ptr(), BUILD_SLOT,
            )
        }
    }

    fn build_slots(&mut self, job: &Job) -> usize {
        let (s, (policy, threshold), l) = (&job.settings, policy(job), self.lent);
        let (n, flags) = (job.points(), vec![1; job.points()]);
        unsafe {
            ddm_build_slots(
                n, n, flags.as_ptr(), n, job.coords.as_ptr(), job.coords.len(), job.d, s.leaf, s.neighbours, s.factor, policy, threshold,
                self.level_points.as_mut_ptr(), l[SIZES_LEVEL_POINTS], self.internals.as_mut_ptr(), l[SIZES_INTERNALS],
                self.domains.as_mut_ptr(), l[SIZES_DOMAINS], self.boxes.as_mut_ptr(), l[SIZES_BOXES], self.borrowed.as_mut_ptr(),
                l[SIZES_BORROWED], self.floats.as_mut_ptr(), l[SIZES_FLOATS], self.wholes.as_mut_ptr(), l[SIZES_WHOLES],
                self.cuts.as_mut_ptr(), l[SIZES_CUTS], self.planes.as_mut_ptr(), l[SIZES_PLANES], self.slot.as_mut_ptr(), BUILD_SLOT,
            )
        }
    }

    /// The two working rooms are untouched; of an accepted call only what stands behind the lent entries.
    fn room_kept(&self, accepted: bool) -> bool {
        let from = |list: usize| if accepted { self.lent[list] } else { 0 };
        is_filled(&self.floats[from(SIZES_FLOATS)..], &NO_FLOAT) && is_filled(&self.wholes[from(SIZES_WHOLES)..], &NO_WHOLE)
    }
}

fn policy(job: &Job) -> (u32, u32) {
    match job.settings.policy {
        Policy::Auto => (0, 0),
        Policy::Fixed(c) => (1, c),
    }
}

fn is_filled<T: PartialEq>(list: &[T], fill: &T) -> bool {
    list.iter().all(|x| x == fill)
}

/// Whether a list has this front, and nothing was written behind it. Whole numbers as they are, floats by their bits.
fn holds(list: &[usize], front: &[usize]) -> bool {
    list.len() >= front.len() && list[..front.len()] == *front && is_filled(&list[front.len()..], &NO_WHOLE)
}

fn holds_floats(list: &[f64], front: &[f64]) -> bool {
    let same = |(x, y): (&f64, &f64)| x.to_bits() == y.to_bits();
    list.len() >= front.len() && list.iter().zip(front).all(same) && is_filled(&list[front.len()..], &NO_FLOAT)
}

/// What a call is to leave behind: its number, its slot, the five lists and the record.
#[derive(Default)]
struct Outcome {
    number: usize,
    slot: [usize; BUILD_SLOT],
    tree: plain::stored::Packed,
    record: Vec<Vec<Node>>,
}

fn outcome(job: &Job, lent: &[usize; SIZES_SLOT]) -> Outcome {
    let mut out = Outcome::default();
    if let Some((number, place)) = plain::lent_refusal(&job.coords, job.d, &job.settings, lent) {
        out.number = number;
        out.slot[SLOT_PLACE] = place;
        return out;
    }
    let levels = plain::build(&job.coords, job.d, &job.settings).unwrap();
    out.slot[SLOT_LEVELS] = levels.len();
    for (i, level) in levels.iter().enumerate() {
        out.slot[SLOT_ROWS + i] = level.rows.len();
        out.slot[SLOT_DOMAINS + i] = level.leaves.len();
    }
    out.tree = plain::stored::packed(&levels, job.d);
    out.record = plain::records(&job.coords, job.d, job.settings.leaf, &levels);
    out
}

fn same_tree(lent: &Lent, expected: &Outcome) -> bool {
    let tree = &expected.tree;
    lent.slot == expected.slot
        && holds(&lent.level_points, &tree.level_points)
        && holds(&lent.internals, &tree.internals)
        && holds(&lent.domains, &tree.domains)
        && holds_floats(&lent.boxes, &tree.boxes)
        && holds(&lent.borrowed, &tree.borrowed)
        && lent.room_kept(expected.number == 0)
}

fn same_record(lent: &Lent, expected: &Outcome) -> bool {
    let (cuts, planes): (Vec<usize>, Vec<f64>) = expected.record.iter().flatten().map(Node::lent).unzip();
    holds(&lent.cuts, &cuts) && holds_floats(&lent.planes, &planes)
}

/// What a build of the job leaves behind, on lists of its own, is the plain outcome.
fn check(build: Build, job: &Job, expected: &Outcome) {
    let mut lent = Lent::new(job);
    assert_eq!(lent.build(build, job), expected.number, "{build:?} {job:?}");
    assert!(same_tree(&lent, expected), "another tree: {build:?} {job:?}");
    assert!(same_record(&lent, expected), "another record: {build:?} {job:?}");
    for (domains, record) in expected.slot[SLOT_DOMAINS..SLOT_DOMAINS + MOST_LEVELS].iter().zip(&expected.record) {
        assert_eq!(record_nodes(*domains), record.len());
    }
}

/// Each build of the job leaves the same behind, and the plain outcome says what; but a table has no point that lacks a coordinate.
fn check_each(job: &Job) -> Outcome {
    let expected = outcome(job, &Lent::new(job).lent);
    check(Build::Queue, job, &expected);
    check(Build::DepthFirst, job, &expected);
    let whole = job.whole();
    if whole.coords.len() == job.coords.len() {
        check(Build::Slots, job, &expected);
    } else {
        check(Build::Slots, &whole, &outcome(&whole, &Lent::new(&whole).lent));
    }
    expected
}

/// How many random jobs there are: fewer without optimisation.
const JOBS: usize = if cfg!(debug_assertions) { 4_000 } else { 20_000 };

#[test]
fn random_jobs() {
    let mut random = Random(0x5eed_0018);
    let (mut seen, mut recorded, mut short) = ([0; 12], 0, [0; SIZES_SLOT]);
    for _ in 0..JOBS {
        let job = job(&mut random);
        let expected = check_each(&job);
        seen[expected.number] += 1;
        recorded += usize::from(!expected.record.is_empty());
        if let (11, Some(list)) = (expected.number, job.short) {
            short[list] += 1;
        }
    }
    // each outcome came up often enough to be tested (8 needs over a million points)
    println!("outcomes 0 to 11: {seen:?}; with a record: {recorded}; refused for each list: {short:?}");
    assert!(recorded > JOBS / 4 && [0, 9, 10, 11].iter().all(|number| seen[*number] > JOBS / 40), "{seen:?}");
    assert!((1..8).all(|number| seen[number] > JOBS / 400) && short.iter().all(|many| *many > JOBS / 100), "{seen:?} {short:?}");
}

/// Each list with one entry fewer than the documents state, of 12n for the record and of 40n + 8n(K + 1) whole numbers of room, is refused by
/// each build, and no list is written; with what they state it is not.
#[test]
fn lists_that_are_one_entry_too_short() {
    for (n, d, neighbours) in [(1, 1, 0), (1, 3, 64), (5, 2, 1), (33, 3, 16), (90, 1, 64)] {
        let coords = (0..n * d).map(|i| ((i * 7919) % 101) as f64).collect();
        let settings = Settings { leaf: 2, neighbours, factor: 8, policy: Policy::Fixed(1) };
        let good = Job { coords, d, settings, short: None };
        let k = neighbours as usize;
        let record_and_room = [SIZES_CUTS, SIZES_PLANES, SIZES_WHOLES, SIZES_FLOATS].map(|list| Lent::new(&good).lent[list]);
        assert_eq!(record_and_room, [n * 12, n * 12, n * 40 + n * 8 * (k + 1), n * 32]);
        assert_eq!(check_each(&good).number, 0);
        for list in 0..SIZES_SLOT {
            assert_eq!(check_each(&Job { short: Some(list), ..good.clone() }).number, 11, "{list}");
        }
    }
}

fn params(s: &Settings) -> DDMParams {
    let coarse_threshold = match s.policy {
        Policy::Auto => SizePolicy::Auto,
        Policy::Fixed(c) => SizePolicy::Fixed(c),
    };
    DDMParams { leaf_threshold: s.leaf, overlap_knn: s.neighbours, coarse_reduction_factor: s.factor, coarse_threshold }
}

/// The crate's own calls: equal trees, the plain record with its depths from both builds, and none from a loaded tree.
#[test]
fn nodes_by_level() {
    let mut random = Random(0x5eed_0019);
    let (mut accepted, mut nodes) = (0, 0);
    for _ in 0..3_000 {
        let job = Job { short: None, ..job(&mut random) };
        let params = params(&job.settings);
        let (queue, deep) = (build(&job.coords, job.d, params), build_depth_first(&job.coords, job.d, params));
        assert_eq!(queue, deep, "{job:?}");
        let (Ok(queue), Ok(deep)) = (queue, deep) else { continue };
        let levels = plain::build(&job.coords, job.d, &job.settings).unwrap();
        let records = plain::records(&job.coords, job.d, job.settings.leaf, &levels);
        assert!(trees::has_records(&queue, &records) && trees::has_records(&deep, &records), "{job:?}");
        for level in queue.levels() {
            for node in level.nodes() {
                if let NodeKind::Leaf(number) = node.kind {
                    assert_eq!(level.leaf(number).unwrap().depth(), node.depth, "{job:?}");
                }
            }
            nodes += level.nodes().len();
        }
        let loaded = load(&job.coords, job.d, params, &queue.to_bytes(&job.coords, params).unwrap()).unwrap();
        assert!(loaded == queue && loaded.levels().all(|level| level.nodes().next().is_none()));
        accepted += 1;
    }
    assert!(accepted > 1_000 && nodes > 10_000, "{accepted} trees, {nodes} nodes");
}

/// For points on a line with one neighbour and factor 2 every build writes these whole numbers and, where they are given, these planes.
fn on_a_line(points: &[f64], leaf: u32, threshold: u32, cuts: &[usize], planes: Option<&[f64]>) {
    let settings = Settings { leaf, neighbours: 1, factor: 2, policy: Policy::Fixed(threshold) };
    let job = Job { coords: points.to_vec(), d: 1, settings, short: None };
    for build in BUILDS {
        let mut lent = Lent::new(&job);
        assert_eq!(lent.build(build, &job), 0);
        assert!(holds(&lent.cuts, cuts), "{build:?} {points:?}");
        assert!(planes.map_or(true, |planes| holds_floats(&lent.planes, planes)), "{build:?} {points:?}");
    }
}

#[test]
fn rows_of_the_table() {
    let seven = [0, 0, 3, 4, 0, 5, 6];
    on_a_line(&[0.0, 1.0, 3.0, 7.0], 2, 2, &seven, Some(&[3.0, 1.0, 0.0, 0.0, 7.0, 0.0, 0.0]));
    // numbers by depth are not places from the left
    let by_depth = [0, 0, 0, 3, 4, 0, 0, 7, 8, 0, 9, 10, 0, 0, 5, 6, 0, 0, 11, 12, 0, 13, 14];
    on_a_line(&[0.0, 1.0, 2.0, 3.0, 4.0, 5.0], 1, 3, &by_depth, None);
    // a plane keeps the sign of a zero
    on_a_line(&[-0.0, 0.0], 1, 1, &seven, Some(&[0.0, -0.0, 0.0, 0.0, 0.0, 0.0, 0.0]));
    on_a_line(&[0.0, -0.0], 1, 1, &seven, Some(&[-0.0, 0.0, 0.0, 0.0, -0.0, 0.0, 0.0]));
    // no fine level
    on_a_line(&[0.0, 1.0], 1, 2, &[], Some(&[]));
}
