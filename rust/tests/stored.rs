//! The stored tree: what is written loads again, and a damaged file is refused or is the file of another tree.
#[path = "plain/mod.rs"]
mod plain;

use plain::{stored, trees};
use rekvashu::{build, load, DDMParams, SizePolicy};

/// Numbers that look random, the same in each run.
struct Random(u64);

impl Random {
    fn next(&mut self) -> u64 {
        self.0 = self.0.wrapping_mul(6364136223846793005).wrapping_add(1442695040888963407);
        let x = self.0 ^ (self.0 >> 29);
        x.wrapping_mul(0xBF58476D1CE4E5B9) >> 16
    }

    fn below(&mut self, n: usize) -> usize {
        (self.next() % n as u64) as usize
    }
}

fn params(leaf: u32, neighbours: u32, factor: u32, policy: SizePolicy) -> DDMParams {
    DDMParams { leaf_threshold: leaf, overlap_knn: neighbours, coarse_reduction_factor: factor, coarse_threshold: policy }
}

/// A job with up to `most` points: dimension, points, settings.
fn job(random: &mut Random, most: usize) -> (usize, Vec<f64>, DDMParams) {
    let (d, n) = (1 + random.below(3), 1 + random.below(most));
    let range = [3, 50, 100_000][random.below(3)];
    let points = (0..n * d).map(|_| random.below(range) as f64 - range as f64 / 2.0).collect();
    let c = (n as u32).div_ceil(1 + random.below(8) as u32);
    let policy = if random.below(4) == 0 { SizePolicy::Auto } else { SizePolicy::Fixed(c) };
    (d, points, params(1 + random.below(6) as u32, random.below(9) as u32, 2 + random.below(9) as u32, policy))
}

fn number(points: &[f64], d: usize, p: DDMParams, file: &[u8]) -> usize {
    load(points, d, p, file).err().map_or(0, |error| error.refusal().unwrap().number)
}

#[test]
fn what_is_written_loads_again() {
    let mut random = Random(1);
    for _ in 0..2_000 {
        let (d, points, p) = job(&mut random, 120);
        let tree = build(&points, d, p).unwrap();
        let file = tree.to_bytes(&points, p).unwrap();
        assert_eq!(file, stored::file(&points, d, &trees::settings(p), &trees::levels(&tree)));
        let again = load(&points, d, p, &file).unwrap();
        assert_eq!(again, tree);
        assert_eq!(again.to_bytes(&points, p).unwrap(), file);
    }
}

fn three() -> Vec<(usize, Vec<f64>, DDMParams)> {
    vec![
        (1, vec![0.0, 1.0, 3.0, 7.0], params(2, 1, 2, SizePolicy::Fixed(2))),
        (2, (0..16).map(|i| ((7 * i * i) % 23) as f64).collect(), params(1, 2, 3, SizePolicy::Fixed(2))),
        (3, (0..18).map(|i| ((i * i * 5) % 31) as f64 - 9.0).collect(), params(2, 3, 2, SizePolicy::Auto)),
    ]
}

#[test]
fn each_byte_of_three_files_counts() {
    for (d, points, p) in three() {
        let file = build(&points, d, p).unwrap().to_bytes(&points, p).unwrap();
        if d == 1 {
            assert_eq!(file.len(), 330);
        }
        for at in 0..file.len() {
            assert_eq!(number(&points, d, p, &file[..at]), 20, "cut at {at}");
            for flip in 1..=255u8 {
                let mut other = file.clone();
                other[at] ^= flip;
                let expected = stored::load(&points, d, &trees::settings(p), &other);
                assert_eq!(number(&points, d, p, &other), expected.err().unwrap_or(0), "byte {at} changed by {flip}");
            }
        }
        assert_eq!(number(&points, d, p, &[&file[..], &[0]].concat()), 20);
    }
}

#[test]
fn an_accepted_file_is_what_the_writer_makes_of_it() {
    let mut random = Random(2);
    let (mut accepted, mut refused) = (0, 0);
    while accepted + refused < 100_000 {
        let (d, points, p) = job(&mut random, 24);
        let file = build(&points, d, p).unwrap().to_bytes(&points, p).unwrap();
        for _ in 0..50 {
            let mut other = file.clone();
            for _ in 0..1 + random.below(3) {
                let at = if random.below(8) == 0 { random.below(file.len()) } else { (24 + points.len() * 10).min(file.len() - 1) + random.below(file.len() - (24 + points.len() * 10).min(file.len() - 1)) };
                other[at] = [random.below(256) as u8, random.below(4) as u8, other[at] ^ 1, 0][random.below(4)];
            }
            match load(&points, d, p, &other) {
                Ok(tree) => {
                    assert_eq!(tree.to_bytes(&points, p).unwrap(), other);
                    accepted += 1;
                }
                Err(error) => {
                    assert!([18, 19, 20].contains(&error.refusal().unwrap().number));
                    refused += 1;
                }
            }
        }
    }
    assert!(accepted > 1_000 && refused > 10_000, "{accepted} accepted, {refused} refused");
}

/// The cover of the coarse domain stands before the depth that ends a file: it is kept as it is, unless it is a NaN or left out.
#[test]
fn the_coarse_cover_is_any_value_but_a_nan() {
    for (d, points, p) in three() {
        let file = build(&points, d, p).unwrap().to_bytes(&points, p).unwrap();
        let (rest, end) = (file.len() - 12, file.len() - 4);
        let with = |bits: u64| [&file[..rest], &bits.to_le_bytes(), &file[end..]].concat();
        assert_eq!(with(0), file);
        for cover in [-0.0, 1.0, 5e-324, f64::INFINITY, f64::NEG_INFINITY] {
            let other = with(cover.to_bits());
            let tree = load(&points, d, p, &other).unwrap();
            assert_eq!(tree.levels().last().unwrap().leaf(0).unwrap().cover().to_bits(), cover.to_bits());
            assert_eq!(tree.to_bytes(&points, p).unwrap(), other);
        }
        for nan in [0x7ff0_0000_0000_0001, 0x7ff8_0000_0000_0000, 0xfff0_0000_0000_0001, u64::MAX] {
            assert_eq!(number(&points, d, p, &with(nan)), 20);
        }
        assert_eq!(number(&points, d, p, &[&file[..rest], &file[end..]].concat()), 20);
    }
}

/// The depth of the coarse domain ends a file, and is 0.
#[test]
fn the_coarse_depth_is_zero() {
    for (d, points, p) in three() {
        let file = build(&points, d, p).unwrap().to_bytes(&points, p).unwrap();
        let with = |depth: u32| [&file[..file.len() - 4], &depth.to_le_bytes()].concat();
        assert_eq!(with(0), file);
        for depth in [1, 2, 21, 22, 32, 64, 256, 1 << 31, u32::MAX] {
            assert_eq!(number(&points, d, p, &with(depth)), 20);
        }
        // left out, or too long
        assert_eq!(number(&points, d, p, &file[..file.len() - 4]), 20);
        assert_eq!(number(&points, d, p, &[&file[..], &[0; 4]].concat()), 20);
    }
}

/// Depths of leaves over five wells: a tree is loaded where they never fall, are not above 21, and fit the leaves' sizes.
#[test]
fn depths_of_leaves_fit_their_sizes() {
    let (points, p) = (vec![0.0, 1.0, 2.0, 3.0, 4.0], params(1, 0, 5, SizePolicy::Fixed(1)));
    let leaf = |own: Vec<usize>, depth| plain::Leaf { own, borrowed: vec![], lower: vec![0.0], upper: vec![4.0], cover: 0.0, depth };
    let mut seen = [0; 2];
    for (size, first, second) in (0..6).flat_map(|size| (0..24).flat_map(move |first| (0..24).map(move |second| (size, first, second)))) {
        let leaves = vec![leaf((0..size).collect(), first), leaf((size..5).collect(), second)];
        let coarse = plain::Level { rows: vec![0], leaves: vec![plain::Leaf { lower: vec![], upper: vec![], ..leaf(vec![0], 0) }] };
        let tree = [plain::Level { rows: (0..5).collect(), leaves }, coarse];
        let file = stored::file(&points, 1, &trees::settings(p), &tree);
        let fits = |own: usize, depth: u32| depth <= 21 && (own == 5 / 2usize.pow(depth) || own == 5 / 2usize.pow(depth) + 1);
        let expected = if first <= second && fits(size, first as u32) && fits(5 - size, second as u32) { 0 } else { 20 };
        assert_eq!(stored::load(&points, 1, &trees::settings(p), &file).err().unwrap_or(0), expected);
        assert_eq!(number(&points, 1, p, &file), expected, "{size} at depth {first}, and the others at {second}");
        if expected == 0 {
            let tree = load(&points, 1, p, &file).unwrap();
            assert_eq!(tree.level(0).unwrap().leaves().map(|leaf| leaf.depth()).collect::<Vec<_>>(), [first, second]);
            assert_eq!(tree.to_bytes(&points, p).unwrap(), file);
        }
        seen[usize::from(expected == 0)] += 1;
    }
    assert!(seen.iter().all(|many| *many > 20), "{seen:?}");
}

#[test]
fn other_settings_and_points_are_told_apart() {
    for (d, points, p) in three() {
        let file = build(&points, d, p).unwrap().to_bytes(&points, p).unwrap();
        let more = DDMParams { leaf_threshold: p.leaf_threshold + 1, ..p };
        assert_eq!(number(&points, d, more, &file), 18);
        let mut moved = points.clone();
        moved[d] = -moved[d] - 1.0;
        assert_eq!(number(&moved, d, p, &file), 19);
        assert_eq!(number(&moved, d, more, &file), 18);
        assert_eq!(number(&points[d..], d, p, &file), 19);
        assert_eq!(number(&moved, d, more, &file[1..]), 20);
        assert_eq!(number(&points, d, DDMParams { leaf_threshold: 0, ..p }, &file[1..]), 2);
        moved[0] = f64::INFINITY;
        assert_eq!(number(&moved, d, p, b""), 10);
    }
    // a zero's sign is a bit of a point
    let (d, points, p) = &three()[0];
    let file = build(points, *d, *p).unwrap().to_bytes(points, *p).unwrap();
    assert_eq!(number(&[-0.0, 1.0, 3.0, 7.0], *d, *p, &file), 19);
}

#[test]
fn a_tree_is_not_written_for_other_points() {
    let (d, points, p) = three().remove(1);
    let tree = build(&points, d, p).unwrap();
    let refused = |points: &[f64], p| tree.to_bytes(points, p).unwrap_err().refusal().unwrap().number;
    assert_eq!(refused(&points[2..], p), 20);
    assert_eq!(refused(&points, DDMParams { leaf_threshold: 0, ..p }), 2);
    assert_eq!(refused(&vec![0.0; 2 * 1_048_577], p), 8);
}
