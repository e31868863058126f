//! Prints the trees of a batch of jobs (examples/job), for comparisons. For each job: a line `=== NUMBER`, then its tree as the program
//! prints it, or its refusal.
mod job;

use job::Job;
use rekvashu::{build, DDMParams, SizePolicy};
use std::fmt::Write as _;
use std::io::Write;

fn rows(out: &mut String, name: &str, list: &[usize]) {
    let _ = write!(out, " {name}");
    for i in list {
        let _ = write!(out, " {i}");
    }
    if list.is_empty() {
        out.push_str(" -");
    }
}

fn print_tree(job: &Job, out: &mut String) {
    let params = DDMParams {
        leaf_threshold: job.leaf,
        overlap_knn: job.neighbours,
        coarse_reduction_factor: job.factor,
        coarse_threshold: job.fixed.map_or(SizePolicy::Auto, SizePolicy::Fixed),
    };
    let tree = match build(&job.coords, job.d, params) {
        Ok(tree) => tree,
        Err(error) => {
            let refused = error.refusal().expect("memory for the lists");
            let _ = writeln!(out, "refused {} at {}", refused.number, refused.place);
            return;
        }
    };
    let _ = writeln!(out, "levels {}", tree.len());
    for (t, level) in tree.levels().enumerate() {
        let _ = write!(out, "level {t}");
        rows(out, "points", level.rows());
        out.push('\n');
        for (i, leaf) in level.leaves().enumerate() {
            let _ = write!(out, "domain {i}");
            rows(out, "internal", leaf.own());
            rows(out, "overlap", leaf.borrowed());
            out.push_str(" box");
            match leaf.bounds() {
                None => out.push_str(" -"),
                Some((lower, upper)) => lower.iter().chain(upper).for_each(|x| {
                    let _ = write!(out, " {:016x}", x.to_bits());
                }),
            }
            let _ = writeln!(out, " cover {:016x} depth {}", leaf.cover().to_bits(), leaf.depth());
        }
    }
}

fn main() {
    let mut out = String::new();
    for (i, job) in job::jobs().enumerate() {
        let _ = writeln!(out, "=== {i}");
        print_tree(&job, &mut out);
        std::io::stdout().write_all(out.as_bytes()).unwrap();
        out.clear();
    }
}
