//! Calls of 1,048,576 points under a memory limit: they answer, and nothing is aborted.
use rekvashu::{build, build_depth_first, build_sizes, sample, DDMParams, Error, Refusal, SizePolicy};
use std::process::Command;

/// A limit on the address space in KiB: it holds the points (8 MiB), and not the lists of a build (3 GiB).
const LIMIT: usize = 160 * 1024;
const MOST: usize = 1_048_576;

/// What runs under the limit: the test below starts this program again and asks for it.
#[test]
#[ignore = "runs under a memory limit only: the test `large_calls_answer_under_a_limit` starts it"]
fn large_calls() {
    let points = vec![0.0; MOST + 1];
    let full = &points[..MOST];
    let params = DDMParams::default();
    let refused = |number| Error::from(Refusal::new(number, 0));
    let fixed = |c, f| DDMParams { coarse_threshold: SizePolicy::Fixed(c), coarse_reduction_factor: f, ..params };
    assert_eq!(build(full, 4, params), Err(refused(1)));
    assert_eq!(build(full, 1, DDMParams { leaf_threshold: 0, ..params }), Err(refused(2)));
    assert_eq!(build(full, 1, fixed(1, 1)), Err(refused(3)));
    assert_eq!(build(full, 1, fixed(0, 2)), Err(refused(4)));
    assert_eq!(build(full, 1, DDMParams { overlap_knn: 65, ..params }), Err(refused(5)));
    assert_eq!(build(full, 3, params), Err(refused(7)));
    assert_eq!(build(&points, 1, params), Err(refused(8)));
    assert_eq!(build(full, 1, fixed(1, 2)), Err(refused(9)));
    // nothing is wrong with this call, and the lists that it needs can't be had
    assert_eq!(build(full, 1, params), Err(Error::OutOfMemory));
    assert_eq!(build_depth_first(full, 1, params), Err(Error::OutOfMemory));
    assert_eq!(build_depth_first(&points, 1, params), Err(refused(8)));
    assert_eq!(build_sizes(MOST, 1, params.overlap_knn).unwrap().bytes() / MOST, 1120 + 96 + 112 * 17);
    assert_eq!(sample(full, 1, MOST + 1, 0), Err(refused(13)));
    assert_eq!(sample(full, 1, MOST, MOST), Err(refused(13)));
    println!("all calls answered");
}

#[test]
fn large_calls_answer_under_a_limit() {
    let again = std::env::current_exe().unwrap();
    let mut limited = Command::new("sh");
    limited.arg("-c").arg(format!("ulimit -v {LIMIT} && exec \"$0\" \"$@\"")).arg(again);
    let out = limited.args(["--ignored", "--exact", "large_calls", "--nocapture", "--test-threads=1"]).output().unwrap();
    let said = String::from_utf8_lossy(&out.stdout);
    assert!(out.status.success() && said.contains("all calls answered"), "{said}{}", String::from_utf8_lossy(&out.stderr));
}
