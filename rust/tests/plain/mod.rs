//! Document 01 with requests 2, 4, 5, 6 and 9 of document 02 in plain Rust, from the papers alone: what the library's answers are compared with.
//! Of request 9 it has what a build is lent. It finds neighbours by the scan that the library's search has to agree with.
#![allow(dead_code)]

pub mod jobs;
pub mod random;
pub mod stored;
pub mod table;
pub mod trees;

#[derive(Clone, Copy, Debug)]
pub enum Policy {
    Auto,
    Fixed(u32),
}

#[derive(Clone, Copy, Debug)]
pub struct Settings {
    pub leaf: u32,
    pub neighbours: u32,
    pub factor: u32,
    pub policy: Policy,
}

#[derive(Clone, Debug, PartialEq)]
pub struct Leaf {
    pub own: Vec<usize>,
    pub borrowed: Vec<usize>,
    pub lower: Vec<f64>,
    pub upper: Vec<f64>,
    pub cover: f64,
    pub depth: usize,
}

#[derive(Clone, Debug, PartialEq)]
pub struct Level {
    pub rows: Vec<usize>,
    pub leaves: Vec<Leaf>,
}

pub struct Points<'a> {
    pub coords: &'a [f64],
    pub d: usize,
}

impl Points<'_> {
    fn at(&self, i: usize, a: usize) -> f64 {
        self.coords[i * self.d + a]
    }

    pub fn row(&self, i: usize) -> &[f64] {
        &self.coords[i * self.d..(i + 1) * self.d]
    }
}

pub fn distance_sq(p: &[f64], q: &[f64]) -> f64 {
    let mut sum = 0.0;
    for (x, y) in p.iter().zip(q) {
        let t = x - y;
        sum += t * t;
    }
    sum
}

// ---- refusals: the number and the place

pub fn refusal(coords: &[f64], d: usize, s: &Settings) -> Option<(usize, usize)> {
    settings_refusal(coords, d, s).or_else(|| coordinate_refusal(coords))
}

/// The refusal of a build that is lent these entries of each list.
pub fn lent_refusal(coords: &[f64], d: usize, s: &Settings, lent: &[usize; 9]) -> Option<(usize, usize)> {
    let refused = settings_refusal(coords, d, s);
    if refused.is_some() {
        return refused;
    }
    let short = lent.iter().zip(stated(coords.len() / d, d, s.neighbours)).any(|(lent, stated)| *lent < stated);
    if short { Some((11, 0)) } else { coordinate_refusal(coords) }
}

/// What a domain row has in the list of the domains: where its own rows start and how many they are, the same of the borrowed ones, and its
/// depth.
pub const ROW_NUMBERS: usize = 5;

/// A box: its bounds.
pub fn box_floats(d: usize) -> usize {
    2 * d
}

/// What a domain row has in the list of the boxes: its box, then its cover.
pub fn row_floats(d: usize) -> usize {
    box_floats(d) + 1
}

/// The entries that each list of a build needs: level_points, internals, domains, boxes, borrowed, floats, wholes, cuts, planes.
pub fn stated(n: usize, d: usize, neighbours: u32) -> [usize; 9] {
    let (domains, near) = (6 * n + 1, neighbours as usize + 1);
    [4 * n, 4 * n, ROW_NUMBERS * domains, row_floats(d) * domains, 6 * n * near, 32 * n, 40 * n + 8 * n * near, 12 * n, 12 * n]
}

fn coordinate_refusal(coords: &[f64]) -> Option<(usize, usize)> {
    coords.iter().position(|x| !x.is_finite()).map(|at| (10, at))
}

fn settings_refusal(coords: &[f64], d: usize, s: &Settings) -> Option<(usize, usize)> {
    if !(1..=3).contains(&d) {
        return Some((1, 0));
    }
    if s.leaf == 0 {
        return Some((2, 0));
    }
    if s.factor < 2 {
        return Some((3, 0));
    }
    if let Policy::Fixed(0) = s.policy {
        return Some((4, 0));
    }
    if s.neighbours > 64 {
        return Some((5, 0));
    }
    if coords.is_empty() {
        return Some((6, 0));
    }
    if coords.len() % d != 0 {
        return Some((7, 0));
    }
    let n = coords.len() / d;
    if n > 1_048_576 {
        return Some((8, 0));
    }
    let c = threshold(s.policy, n) as u128;
    if c * (s.factor as u128).pow(3) < n as u128 {
        return Some((9, 0));
    }
    None
}

// ---- level arithmetic

pub fn threshold(policy: Policy, n: usize) -> usize {
    match policy {
        Policy::Auto => n.div_ceil(32).clamp(512, 4096),
        Policy::Fixed(c) => c as usize,
    }
}

pub fn reductions(n: usize, c: usize, f: u32) -> u32 {
    let mut k = 0;
    let mut product = c as u128;
    while product < n as u128 {
        product *= f as u128;
        k += 1;
    }
    k
}

pub fn level_size(a: usize, c: usize, r: u32) -> usize {
    let goal = c as u128 * (a as u128).pow(r - 1);
    let mut m = (goal as f64).powf(1.0 / r as f64) as u128;
    while m.pow(r) >= goal && m > 0 {
        m -= 1;
    }
    while m.pow(r) < goal {
        m += 1;
    }
    (m as usize).min(a - 1).max(1)
}

pub fn quotas(sizes: &[usize], s: usize) -> Vec<usize> {
    let s = s.min(sizes.iter().sum());
    let nonempty = sizes.iter().filter(|w| **w > 0).count();
    let first = usize::from(s >= nonempty);
    let mut out: Vec<usize> = sizes.iter().map(|w| first.min(*w)).collect();
    let rest = s - out.iter().sum::<usize>();
    let caps: Vec<usize> = sizes.iter().zip(&out).map(|(w, g)| w - g).collect();
    let pool = caps.iter().sum::<usize>().max(1);
    for (q, cap) in out.iter_mut().zip(&caps) {
        *q += rest * cap / pool;
    }
    let left = s - out.iter().sum::<usize>();
    let mut order: Vec<usize> = (0..sizes.len()).collect();
    order.sort_by_key(|i| (std::cmp::Reverse(rest * caps[*i] % pool), *i));
    for i in &order[..left] {
        out[*i] += 1;
    }
    out
}

// ---- sampling

pub fn seed(points: &Points, rows: &[usize]) -> usize {
    let mut center = vec![0.0; points.d];
    for (a, c) in center.iter_mut().enumerate() {
        for i in rows {
            *c += points.at(*i, a);
        }
        *c /= rows.len() as f64;
    }
    let mut best = 0;
    let mut near = distance_sq(&center, points.row(rows[0])).sqrt();
    for (t, i) in rows.iter().enumerate().skip(1) {
        let far = distance_sq(&center, points.row(*i)).sqrt();
        if far < near {
            best = t;
            near = far;
        }
    }
    best
}

/// Farthest point sampling from the place `seed` of the list of rows.
pub fn sample(points: &Points, rows: &[usize], wanted: usize, seed: usize) -> Vec<usize> {
    let mut least = vec![f64::INFINITY; rows.len()];
    let mut free = vec![true; rows.len()];
    let mut out = vec![rows[seed]];
    let mut last = seed;
    free[seed] = false;
    while out.len() < wanted {
        let mut best: Option<usize> = None;
        for t in 0..rows.len() {
            let d = distance_sq(points.row(rows[last]), points.row(rows[t])).sqrt();
            if d < least[t] {
                least[t] = d;
            }
            if free[t] && best.map_or(true, |b| least[t] > least[b]) {
                best = Some(t);
            }
        }
        last = best.unwrap();
        free[last] = false;
        out.push(rows[last]);
    }
    out
}

/// How far the worst of the rows that were not chosen is from the nearest one that was: 0 where all were chosen, infinite where there are
/// rows and none was.
pub fn cover(points: &Points, rows: &[usize], chosen: &[usize]) -> f64 {
    let apart = |i: usize, j: usize| distance_sq(points.row(i), points.row(j)).sqrt();
    let nearest = |i: usize| chosen.iter().map(|j| apart(i, *j)).fold(f64::INFINITY, f64::min);
    let left_out = rows.iter().filter(|i| !chosen.contains(i));
    left_out.map(|i| nearest(*i)).fold(0.0, f64::max)
}

// ---- one level

struct Domain {
    rows: Vec<usize>,
    lower: Vec<f64>,
    upper: Vec<f64>,
    depth: usize,
}

/// The whole level, which was not cut yet.
fn root(points: &Points, active: &[usize]) -> Domain {
    let (lower, upper) = bounds(points, active);
    Domain { rows: active.to_vec(), lower, upper, depth: 0 }
}

fn bounds(points: &Points, rows: &[usize]) -> (Vec<f64>, Vec<f64>) {
    let mut lower = points.row(rows[0]).to_vec();
    let mut upper = lower.clone();
    for i in &rows[1..] {
        for a in 0..points.d {
            let x = points.at(*i, a);
            if x < lower[a] {
                lower[a] = x;
            }
            if x > upper[a] {
                upper[a] = x;
            }
        }
    }
    (lower, upper)
}

/// The axis and the plane of a domain's cut, and its halves.
fn cut(points: &Points, domain: &Domain) -> (usize, f64, Domain, Domain) {
    let (low, high) = bounds(points, &domain.rows);
    let mut axis = 0;
    for a in 1..points.d {
        if high[a] - low[a] > high[axis] - low[axis] {
            axis = a;
        }
    }
    let mut order = domain.rows.clone();
    order.sort_by(|i, j| points.at(*i, axis).partial_cmp(&points.at(*j, axis)).unwrap().then(i.cmp(j)));
    let mut right = order.split_off(order.len() / 2);
    let plane = points.at(right[0], axis);
    order.sort_unstable();
    right.sort_unstable();
    let half = |rows| Domain { rows, lower: domain.lower.clone(), upper: domain.upper.clone(), depth: domain.depth + 1 };
    let (mut left, mut right) = (half(order), half(right));
    left.upper[axis] = plane;
    right.lower[axis] = plane;
    (axis, plane, left, right)
}

pub fn leaves(points: &Points, leaf: u32, active: &[usize]) -> Vec<Leaf> {
    let mut queue = std::collections::VecDeque::from([root(points, active)]);
    let mut out = Vec::new();
    while let Some(domain) = queue.pop_front() {
        let (_, _, left, right) = cut(points, &domain);
        for half in [left, right] {
            if domain.rows.len() as u64 >= 2 * leaf as u64 {
                queue.push_back(half);
            } else {
                let Domain { rows, lower, upper, depth } = half;
                out.push(Leaf { own: rows, borrowed: Vec::new(), lower, upper, cover: 0.0, depth });
            }
        }
    }
    out
}

// ---- the cut record of a level (document 02, request 2)

/// A node: how deep it stands, and what it is.
#[derive(Clone, Copy, Debug, PartialEq)]
pub enum Node {
    Cut { depth: usize, axis: usize, plane: f64 },
    Leaf { depth: usize, number: usize },
}

impl Node {
    pub fn depth(&self) -> usize {
        match *self {
            Node::Cut { depth, .. } | Node::Leaf { depth, .. } => depth,
        }
    }

    /// As lent: a whole number and a float.
    pub fn lent(&self) -> (usize, f64) {
        match *self {
            Node::Cut { axis, plane, .. } => (axis, plane),
            Node::Leaf { number, .. } => (3 + number, 0.0),
        }
    }
}

/// Each cut before its halves, and the left half completely before the right; leaves without their numbers.
fn cuts(points: &Points, leaf: u32, domain: &Domain, out: &mut Vec<Node>) {
    let (axis, plane, left, right) = cut(points, domain);
    out.push(Node::Cut { depth: domain.depth, axis, plane });
    for half in [left, right] {
        if domain.rows.len() as u64 >= 2 * leaf as u64 {
            cuts(points, leaf, &half, out);
        } else {
            out.push(Node::Leaf { depth: half.depth, number: 0 });
        }
    }
}

/// The record of a level with these active rows. Its leaves are numbered by depth, and then from left to right.
pub fn record(points: &Points, leaf: u32, active: &[usize]) -> Vec<Node> {
    let mut nodes = Vec::new();
    cuts(points, leaf, &root(points, active), &mut nodes);
    let mut leaves: Vec<(usize, usize)> = Vec::new();
    for (place, node) in nodes.iter().enumerate() {
        if let Node::Leaf { depth, .. } = node {
            leaves.push((*depth, place));
        }
    }
    leaves.sort_unstable();
    for (k, (depth, place)) in leaves.into_iter().enumerate() {
        nodes[place] = Node::Leaf { depth, number: k };
    }
    nodes
}

/// The records of a tree's fine levels: all but the last.
pub fn records(coords: &[f64], d: usize, leaf: u32, levels: &[Level]) -> Vec<Vec<Node>> {
    levels[..levels.len() - 1].iter().map(|level| record(&Points { coords, d }, leaf, &level.rows)).collect()
}

// ---- overlaps (document 02, request 4)

/// The rows that a row takes: itself, then as many others as there are neighbours, by (squared distance, row). A scan finds them.
pub fn nearest(points: &Points, active: &[usize], row: usize, neighbours: usize) -> Vec<usize> {
    let mut kept: Vec<(f64, usize)> = Vec::with_capacity(neighbours + 1);
    for &i in active.iter().filter(|i| **i != row) {
        let d = distance_sq(points.row(row), points.row(i));
        if kept.len() < neighbours || kept.last().is_some_and(|last| d < last.0) {
            let at = kept.partition_point(|k| k.0 <= d);
            kept.insert(at, (d, i));
            kept.truncate(neighbours);
        }
    }
    std::iter::once(row).chain(kept.into_iter().map(|k| k.1)).collect()
}

pub fn borrow(points: &Points, neighbours: u32, active: &[usize], leaves: &mut [Leaf]) {
    let mut owner = std::collections::HashMap::new();
    for (t, leaf) in leaves.iter().enumerate() {
        for i in &leaf.own {
            owner.insert(*i, t);
        }
    }
    let mut pairs = Vec::new();
    for i in active {
        for j in nearest(points, active, *i, neighbours as usize) {
            if owner[i] != owner[&j] {
                pairs.push((owner[i], j));
                pairs.push((owner[&j], *i));
            }
        }
    }
    pairs.sort_unstable();
    pairs.dedup();
    for (t, i) in pairs {
        leaves[t].borrowed.push(i);
    }
}

// ---- the build

pub fn send(points: &Points, leaves: &[Leaf], size: usize) -> Vec<usize> {
    let sizes: Vec<usize> = leaves.iter().map(|l| l.own.len()).collect();
    let mut next = Vec::new();
    for (leaf, quota) in leaves.iter().zip(quotas(&sizes, size)) {
        if quota > 0 {
            next.extend(sample(points, &leaf.own, quota, seed(points, &leaf.own)));
        }
    }
    next.sort_unstable();
    next
}

/// Gives each leaf the cover of the rows that it sends: those of its own that are in the next level.
pub fn set_covers(points: &Points, leaves: &mut [Leaf], next: &[usize]) {
    for leaf in leaves {
        let sent: Vec<usize> = leaf.own.iter().copied().filter(|i| next.binary_search(i).is_ok()).collect();
        leaf.cover = cover(points, &leaf.own, &sent);
    }
}

pub fn build(coords: &[f64], d: usize, s: &Settings) -> Result<Vec<Level>, (usize, usize)> {
    match refusal(coords, d, s) {
        Some(refused) => Err(refused),
        None => Ok(levels_over(coords, d, s, (0..coords.len() / d).collect())),
    }
}

/// The levels over these rows, ascending: n is their count.
pub fn levels_over(coords: &[f64], d: usize, s: &Settings, rows: Vec<usize>) -> Vec<Level> {
    let points = Points { coords, d };
    let c = threshold(s.policy, rows.len());
    let k = reductions(rows.len(), c, s.factor);
    let mut active = rows;
    let mut levels = Vec::new();
    while active.len() > c {
        let mut leaves = leaves(&points, s.leaf, &active);
        borrow(&points, s.neighbours, &active, &mut leaves);
        let r = k.saturating_sub(levels.len() as u32).max(1);
        let next = send(&points, &leaves, level_size(active.len(), c, r));
        set_covers(&points, &mut leaves, &next);
        levels.push(Level { rows: active, leaves });
        active = next;
    }
    let zeros = vec![0.0; d];
    let leaf = Leaf { own: active.clone(), borrowed: Vec::new(), lower: zeros.clone(), upper: zeros, cover: 0.0, depth: 0 };
    levels.push(Level { rows: active, leaves: vec![leaf] });
    levels
}
