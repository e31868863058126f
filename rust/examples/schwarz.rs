//! One sweep of an overlapping Schwarz preconditioner over a tree, with a small dense solver: restricted additive within a level,
//! multiplicative between levels, the coarse level after each fine one, as in schwarz.rs of `ferreus_rbf`.
//!
//!     cargo run --release --example schwarz
use rekvashu::{build, DDMParams, Leaf, SizePolicy, Tree};

/// The kernel: exp(-r), which is positive definite in every dimension.
fn kernel(p: &[f64], q: &[f64]) -> f64 {
    let square: f64 = p.iter().zip(q).map(|(x, y)| (x - y) * (x - y)).sum();
    (-square.sqrt()).exp()
}

/// Wells and the kernel between them.
pub struct Field {
    pub points: Vec<f64>,
    pub dimension: usize,
}

impl Field {
    fn at(&self, row: usize) -> &[f64] {
        &self.points[row * self.dimension..(row + 1) * self.dimension]
    }

    fn entry(&self, i: usize, j: usize) -> f64 {
        kernel(self.at(i), self.at(j))
    }

    /// The values that these weights give at each well.
    fn values(&self, weights: &[f64]) -> Vec<f64> {
        (0..weights.len()).map(|i| weights.iter().enumerate().map(|(j, w)| w * self.entry(i, j)).sum()).collect()
    }

    /// What is left of the data after these weights.
    pub fn residual(&self, data: &[f64], weights: &[f64]) -> Vec<f64> {
        data.iter().zip(self.values(weights)).map(|(d, v)| d - v).collect()
    }
}

/// Solves a dense system in place, by Gaussian elimination; the matrix is positive definite, so no row is exchanged.
fn solve(mut a: Vec<Vec<f64>>, mut b: Vec<f64>) -> Vec<f64> {
    let n = b.len();
    for k in 0..n {
        for i in k + 1..n {
            let (top, rest) = a.split_at_mut(i);
            let factor = rest[0][k] / top[k][k];
            rest[0].iter_mut().zip(&top[k]).skip(k).for_each(|(x, y)| *x -= factor * y);
            b[i] -= factor * b[k];
        }
    }
    for k in (0..n).rev() {
        let known: f64 = (k + 1..n).map(|j| a[k][j] * b[j]).sum();
        b[k] = (b[k] - known) / a[k][k];
    }
    b
}

/// The answer of one leaf, place by place: its own rows and the borrowed ones take part.
fn local(field: &Field, leaf: Leaf<'_>, residual: &[f64]) -> Vec<f64> {
    let matrix = leaf.rows().map(|i| leaf.rows().map(|j| field.entry(i, j)).collect()).collect();
    solve(matrix, leaf.rows().map(|row| residual[row]).collect())
}

/// Adds the answers of a level's leaves: each row takes that of its owner, since borrowed places are left out.
fn add_level(field: &Field, tree: &Tree, level: usize, residual: &[f64], weights: &mut [f64]) {
    for leaf in tree.level(level).expect("a level of the tree").leaves() {
        let answer = local(field, leaf, residual);
        for (row, value) in leaf.own().iter().zip(answer) {
            weights[*row] += value;
        }
    }
}

/// One sweep: the weights with which the preconditioner answers the data.
pub fn sweep(field: &Field, tree: &Tree, data: &[f64]) -> Vec<f64> {
    let mut weights = vec![0.0; data.len()];
    let coarse = tree.len() - 1;
    for level in 0..coarse {
        add_level(field, tree, level, &field.residual(data, &weights), &mut weights);
        add_level(field, tree, coarse, &field.residual(data, &weights), &mut weights);
    }
    if coarse == 0 {
        add_level(field, tree, coarse, data, &mut weights);
    }
    weights
}

pub fn norm(xs: &[f64]) -> f64 {
    xs.iter().map(|x| x * x).sum::<f64>().sqrt()
}

/// 600 wells on a plane, with a depth to the water at each.
pub fn sample_field() -> (Field, Vec<f64>) {
    let mut state = 12345u32;
    let mut unit = || {
        state = state.wrapping_mul(1_103_515_245).wrapping_add(12345);
        f64::from(state >> 8) / f64::from(1u32 << 24)
    };
    let points: Vec<f64> = (0..1200).map(|_| 20.0 * unit()).collect();
    let data = points.chunks(2).map(|p| (p[0] / 3.0).sin() + 0.1 * p[1]).collect();
    (Field { points, dimension: 2 }, data)
}

/// The tree of the example: three levels.
pub fn sample_tree(field: &Field) -> Tree {
    let params = DDMParams { leaf_threshold: 40, overlap_knn: 12, coarse_reduction_factor: 4, coarse_threshold: SizePolicy::Fixed(60) };
    build(&field.points, field.dimension, params).expect("a tree of the sample field")
}

#[allow(dead_code)]
fn main() {
    let (field, data) = sample_field();
    let tree = sample_tree(&field);
    for (number, level) in tree.levels().enumerate() {
        println!("level {number}: {} wells in {} leaves", level.rows().len(), level.len());
    }
    let left = norm(&field.residual(&data, &sweep(&field, &tree, &data)));
    println!("one sweep leaves {:.1}% of the data", 100.0 * left / norm(&data));
}
