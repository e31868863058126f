//! Requests 1, 5 and 6 of document 02 in plain Rust, written from their words alone: the file of a tree, and a loader with the same tests.
use super::{box_floats, row_floats, Level, Policy, Settings, ROW_NUMBERS};

/// The five lists of a tree, packed level by level and leaf by leaf.
#[derive(Clone, Debug, Default, PartialEq)]
pub struct Packed {
    pub level_points: Vec<usize>,
    pub internals: Vec<usize>,
    pub domains: Vec<usize>,
    pub boxes: Vec<f64>,
    pub borrowed: Vec<usize>,
    pub rows: Vec<usize>,
    pub leaves: Vec<usize>,
}

pub fn packed(tree: &[Level], d: usize) -> Packed {
    let mut lists = Packed::default();
    for level in tree {
        lists.rows.push(level.rows.len());
        lists.leaves.push(level.leaves.len());
        lists.level_points.extend(&level.rows);
        for leaf in &level.leaves {
            lists.domains.extend([lists.internals.len(), leaf.own.len(), lists.borrowed.len(), leaf.borrowed.len(), leaf.depth]);
            lists.internals.extend(&leaf.own);
            lists.borrowed.extend(&leaf.borrowed);
            let start = lists.boxes.len();
            lists.boxes.extend(leaf.lower.iter().chain(&leaf.upper));
            lists.boxes.resize(start + box_floats(d), 0.0);
            lists.boxes.push(leaf.cover);
        }
    }
    lists
}

// ---- the writer

fn number(out: &mut Vec<u8>, x: usize) {
    out.extend((x as u32).to_le_bytes());
}

fn numbers(out: &mut Vec<u8>, xs: &[usize]) {
    for &x in xs {
        number(out, x);
    }
}

fn floats(out: &mut Vec<u8>, xs: &[f64]) {
    for x in xs {
        out.extend(x.to_bits().to_le_bytes());
    }
}

pub fn settings_bytes(d: usize, s: &Settings) -> [u8; 18] {
    let (policy, threshold) = match s.policy {
        Policy::Auto => (0, 0),
        Policy::Fixed(c) => (1, c),
    };
    let mut bytes = [0; 18];
    bytes[0] = d as u8;
    bytes[1..5].copy_from_slice(&s.leaf.to_le_bytes());
    bytes[5..9].copy_from_slice(&s.neighbours.to_le_bytes());
    bytes[9..13].copy_from_slice(&s.factor.to_le_bytes());
    bytes[13] = policy;
    bytes[14..].copy_from_slice(&threshold.to_le_bytes());
    bytes
}

/// The file of packed lists.
pub fn store(coords: &[f64], d: usize, s: &Settings, lists: &Packed) -> Vec<u8> {
    let mut out = Vec::with_capacity(24 + coords.len() * 10 + 8 * lists.level_points.len() + 4 * lists.borrowed.len() + 30 * lists.boxes.len());
    out.extend(b"TH");
    out.extend(settings_bytes(d, s));
    number(&mut out, coords.len() / d);
    for point in coords.chunks(d) {
        out.extend(b"TP");
        floats(&mut out, point);
    }
    let (mut row, mut domain) = (0, 0);
    for (t, (&rows, &leaves)) in lists.rows.iter().zip(&lists.leaves).enumerate() {
        out.extend(b"TL");
        numbers(&mut out, &[rows, leaves]);
        numbers(&mut out, &lists.level_points[row..row + rows]);
        for j in domain..domain + leaves {
            let at = &lists.domains[ROW_NUMBERS * j..ROW_NUMBERS * (j + 1)];
            out.extend(b"TD");
            numbers(&mut out, &[at[1], at[3]]);
            numbers(&mut out, &lists.internals[at[0]..at[0] + at[1]]);
            numbers(&mut out, &lists.borrowed[at[2]..at[2] + at[3]]);
            let row = &lists.boxes[row_floats(d) * j..row_floats(d) * (j + 1)];
            let coarse = t + 1 == lists.rows.len();
            floats(&mut out, if coarse { &row[box_floats(d)..] } else { row });
            number(&mut out, at[4]);
        }
        row += rows;
        domain += leaves;
    }
    out
}

/// Whether the depths in the domain rows of a level of so many rows never fall, are not above 21, and give the leaves' sizes: the rows divided
/// by two to the depth, rounded down, or one more. The coarse domain's is 0.
fn depths_fit(rows: usize, coarse: bool, domains: &[usize]) -> bool {
    let mut before = 0;
    domains.chunks(ROW_NUMBERS).all(|row| {
        let (own, depth, least) = (row[1], row[4], before);
        before = depth;
        if coarse { depth == 0 } else { least <= depth && depth <= 21 && (own == rows >> depth || own == (rows >> depth) + 1) }
    })
}

/// Whether packed lists hold a tree that passes the tests, and their stretches follow one another.
pub fn passes(coords: &[f64], d: usize, s: &Settings, lists: &Packed) -> bool {
    let n = coords.len() / d;
    let (mut row, mut domain, mut lent, mut above) = (0, 0, 0, vec![true; n]);
    for (t, (&rows, &leaves)) in lists.rows.iter().zip(&lists.leaves).enumerate() {
        let last = t + 1 == lists.rows.len();
        let fits = if t == 0 { rows == n } else { 0 < rows && rows < lists.rows[t - 1] };
        let listed = &lists.level_points[row..row + rows];
        if !fits || (leaves == 1) != last || in_set(listed, &above).is_none() {
            return false;
        }
        if !depths_fit(rows, last, &lists.domains[ROW_NUMBERS * domain..ROW_NUMBERS * (domain + leaves)]) {
            return false;
        }
        above.iter_mut().for_each(|x| *x = false);
        listed.iter().for_each(|&i| above[i] = true);
        let (mut left, mut own_at) = (above.clone(), row);
        for j in domain..domain + leaves {
            let at = &lists.domains[ROW_NUMBERS * j..ROW_NUMBERS * (j + 1)];
            if at[0] != own_at || at[2] != lent || at[1] > row + rows - own_at || at[3] > lists.borrowed.len() - lent {
                return false;
            }
            let (own, borrowed) = (&lists.internals[own_at..own_at + at[1]], &lists.borrowed[lent..lent + at[3]]);
            if in_set(own, &left).is_none() {
                return false;
            }
            own.iter().for_each(|&i| (left[i], above[i]) = (false, false));
            if in_set(borrowed, &above).is_none() {
                return false;
            }
            own.iter().for_each(|&i| above[i] = true);
            let (bounds, cover) = lists.boxes[row_floats(d) * j..row_floats(d) * (j + 1)].split_at(box_floats(d));
            if bounds.iter().any(|x| if last { x.to_bits() != 0 } else { x.is_nan() }) || cover[0].is_nan() {
                return false;
            }
            (own_at, lent) = (own_at + at[1], lent + at[3]);
        }
        if own_at != row + rows {
            return false;
        }
        (row, domain) = (row + rows, domain + leaves);
    }
    super::refusal(coords, d, s).is_none() && domain <= 6 * n + 1 && lent <= 6 * n * (s.neighbours as usize + 1)
}

pub fn file(coords: &[f64], d: usize, s: &Settings, tree: &[Level]) -> Vec<u8> {
    store(coords, d, s, &packed(tree, d))
}

// ---- the loader

struct Reader<'a> {
    bytes: &'a [u8],
}

impl<'a> Reader<'a> {
    fn take(&mut self, count: usize) -> Option<&'a [u8]> {
        if self.bytes.len() < count {
            return None;
        }
        let (front, rest) = self.bytes.split_at(count);
        self.bytes = rest;
        Some(front)
    }

    fn mark(&mut self, mark: &[u8; 2]) -> Option<()> {
        (self.take(2)? == mark).then_some(())
    }

    fn number(&mut self) -> Option<usize> {
        Some(u32::from_le_bytes(self.take(4)?.try_into().unwrap()) as usize)
    }

    fn numbers(&mut self, count: usize) -> Option<impl Iterator<Item = usize> + 'a> {
        Some(self.take(4 * count)?.chunks_exact(4).map(|b| u32::from_le_bytes(b.try_into().unwrap()) as usize))
    }

    fn floats(&mut self, count: usize) -> Option<impl Iterator<Item = f64> + 'a> {
        Some(self.take(8 * count)?.chunks_exact(8).map(|b| f64::from_bits(u64::from_le_bytes(b.try_into().unwrap()))))
    }
}

/// What stands in a file: dimension, settings, whether the points are these, and the tree; None for what refusal 20 covers.
pub struct Stood {
    pub settings: [u8; 18],
    pub same_points: bool,
    pub lists: Packed,
}

fn settings_in(bytes: &[u8; 18]) -> Option<(usize, Settings)> {
    let four = |at: usize| u32::from_le_bytes(bytes[at..at + 4].try_into().unwrap());
    let policy = match (bytes[13], four(14)) {
        (0, 0) => Policy::Auto,
        (1, c) => Policy::Fixed(c),
        _ => return None,
    };
    Some((bytes[0] as usize, Settings { leaf: four(1), neighbours: four(5), factor: four(9), policy }))
}

/// Whether rows ascend and are all in the set.
fn in_set(rows: &[usize], set: &[bool]) -> Option<()> {
    let mut least = 0;
    for &row in rows {
        if row < least || !*set.get(row)? {
            return None;
        }
        least = row + 1;
    }
    Some(())
}

/// Rows that ascend and are all in the set, kept.
fn rows_in(rows: impl Iterator<Item = usize>, set: &[bool], out: &mut Vec<usize>) -> Option<()> {
    let mut least = 0;
    for row in rows {
        if row < least || !*set.get(row)? {
            return None;
        }
        out.push(row);
        least = row + 1;
    }
    Some(())
}

/// One level: its rows to the lists, its leaves' too. `above` becomes the set of its rows. Whether it is the coarse one.
fn level(r: &mut Reader, d: usize, n: usize, above: &mut Vec<bool>, lists: &mut Packed) -> Option<bool> {
    r.mark(b"TL")?;
    let (count, domains) = (r.number()?, r.number()?);
    let fits = match lists.rows.last() {
        None => count == n,
        Some(&before) => 0 < count && count < before,
    };
    if !fits {
        return None;
    }
    let (start, row) = (lists.level_points.len(), lists.domains.len());
    rows_in(r.numbers(count)?, above, &mut lists.level_points)?;
    above.iter_mut().for_each(|x| *x = false);
    for &row in &lists.level_points[start..] {
        above[row] = true;
    }
    let mut left = above.clone();
    let mut many = 0;
    for _ in 0..domains {
        r.mark(b"TD")?;
        let (own, borrowed) = (r.number()?, r.number()?);
        let (first, next) = (lists.internals.len(), lists.borrowed.len());
        rows_in(r.numbers(own)?, &left, &mut lists.internals)?;
        for &row in &lists.internals[first..] {
            left[row] = false;
            above[row] = false;
        }
        rows_in(r.numbers(borrowed)?, above, &mut lists.borrowed)?;
        for &row in &lists.internals[first..] {
            above[row] = true;
        }
        many += own;
        // the coarse domain has a cover and no box
        let absent = if domains == 1 { box_floats(d) } else { 0 };
        lists.boxes.extend(std::iter::repeat(0.0).take(absent));
        for x in r.floats(row_floats(d) - absent)? {
            if x.is_nan() {
                return None;
            }
            lists.boxes.push(x);
        }
        lists.domains.extend([first, own, next, borrowed, r.number()?]);
    }
    lists.rows.push(count);
    lists.leaves.push(domains);
    (many == count && depths_fit(count, domains == 1, &lists.domains[row..])).then_some(domains == 1)
}

pub fn stood(bytes: &[u8], coords: &[f64]) -> Option<Stood> {
    let mut r = Reader { bytes };
    r.mark(b"TH")?;
    let settings: [u8; 18] = r.take(18)?.try_into().unwrap();
    let (d, s) = settings_in(&settings)?;
    let n = r.number()?;
    if !(1..=3).contains(&d) || bytes.len() / 10 < n {
        return None;
    }
    let (mut same, mut points) = (n * d == coords.len(), Vec::with_capacity(n * d));
    for i in 0..n {
        r.mark(b"TP")?;
        for (a, x) in r.floats(d)?.enumerate() {
            same = same && coords[i * d + a].to_bits() == x.to_bits();
            points.push(x);
        }
    }
    if super::refusal(&points, d, &s).is_some() {
        return None;
    }
    let mut lists = Packed {
        level_points: Vec::with_capacity(2 * n),
        internals: Vec::with_capacity(2 * n),
        borrowed: Vec::with_capacity(2 * n),
        ..Packed::default()
    };
    let mut above = vec![true; n];
    loop {
        if lists.rows.len() == 4 {
            return None;
        }
        if level(&mut r, d, n, &mut above, &mut lists)? {
            break;
        }
    }
    let fits = lists.domains.len() <= ROW_NUMBERS * (6 * n + 1) && lists.borrowed.len() <= 6 * n * (s.neighbours as usize + 1);
    (r.bytes.is_empty() && fits).then_some(Stood { settings, same_points: same, lists })
}

/// The lists of the file's tree, or the number of the refusal, for settings and points that the build takes.
pub fn load(coords: &[f64], d: usize, s: &Settings, bytes: &[u8]) -> Result<Packed, usize> {
    let Some(stood) = stood(bytes, coords) else { return Err(20) };
    if stood.settings != settings_bytes(d, s) {
        return Err(18);
    }
    if stood.same_points { Ok(stood.lists) } else { Err(19) }
}
