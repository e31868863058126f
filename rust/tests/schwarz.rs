//! The Schwarz sweep of the example does what a preconditioner is for.
#[path = "../examples/schwarz.rs"]
mod schwarz;

use rekvashu::{build, DDMParams};
use schwarz::{norm, sample_field, sample_tree, sweep};

#[test]
fn sweeps_bring_the_residual_down() {
    let (field, data) = sample_field();
    let tree = sample_tree(&field);
    assert_eq!(tree.len(), 3);
    let mut left = data.clone();
    for sweeps in 1..=4 {
        let before = norm(&left);
        let weights = sweep(&field, &tree, &left);
        left = field.residual(&left, &weights);
        println!("after {sweeps}: {:.3e}", norm(&left) / norm(&data));
        assert!(norm(&left) < 0.02 * before, "sweep {sweeps} leaves {} of {before}", norm(&left));
    }
}

#[test]
fn a_coarse_level_alone_is_solved_directly() {
    let (field, data) = sample_field();
    let params = DDMParams { coarse_threshold: rekvashu::SizePolicy::Fixed(600), ..DDMParams::default() };
    let tree = build(&field.points, 2, params).unwrap();
    assert_eq!(tree.len(), 1);
    let left = field.residual(&data, &sweep(&field, &tree, &data));
    assert!(norm(&left) < 1e-9 * norm(&data));
}
