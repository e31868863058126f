//! Says of each job of a batch (examples/job) whether a neighbour cut of its tree falls on a tie, a line each: `clear`, `tie`, or
//! `tie at zero` where one does so at squared distance zero. The trees are the plain implementation's.
mod job;
#[path = "../tests/plain/mod.rs"]
mod plain;

use job::Job;
use plain::{distance_sq, Points, Policy, Settings};

/// The squared distance at which the cut of a row falls on a tie, if it does: of the active rows by distance alone, the row itself among
/// them, the last one taken and the first one left are equally far.
fn tie(points: &Points, active: &[usize], row: usize, neighbours: u32) -> Option<f64> {
    let taken = neighbours as usize + 1;
    if active.len() <= taken {
        return None;
    }
    let mut far: Vec<f64> = active.iter().map(|i| distance_sq(points.row(row), points.row(*i))).collect();
    let (near, first_left, _) = far.select_nth_unstable_by(taken, f64::total_cmp);
    near.contains(first_left).then_some(*first_left)
}

fn verdict(job: &Job) -> &'static str {
    let policy = job.fixed.map_or(Policy::Auto, Policy::Fixed);
    let settings = Settings { leaf: job.leaf, neighbours: job.neighbours, factor: job.factor, policy };
    let levels = plain::build(&job.coords, job.d, &settings).expect("a job that is not refused");
    let points = Points { coords: &job.coords, d: job.d };
    let mut said = "clear";
    for level in &levels[..levels.len() - 1] {
        for row in &level.rows {
            match tie(&points, &level.rows, *row, job.neighbours) {
                Some(far) if far == 0.0 => return "tie at zero",
                Some(_) => said = "tie",
                None => {}
            }
        }
    }
    said
}

fn main() {
    for job in job::jobs() {
        println!("{}", verdict(&job));
    }
}
