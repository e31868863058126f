//! The tree's ways to be read, the settings' defaults, and the words of its refusals.
use rekvashu::{build, build_depth_first, load, sample, DDMParams, Error, Leaf, Level, Mender, Refusal, SizePolicy, Tree};

/// Forty wells on a bent line, three levels.
fn tree() -> Tree {
    let points: Vec<f64> = (0..40).flat_map(|i| [i as f64, ((i * i) % 17) as f64]).collect();
    let params = DDMParams { leaf_threshold: 3, overlap_knn: 4, coarse_reduction_factor: 3, coarse_threshold: SizePolicy::Fixed(6) };
    build(&points, 2, params).unwrap()
}

#[test]
fn defaults_are_those_of_the_type_whose_name_it_takes() {
    let DDMParams { leaf_threshold, overlap_knn, coarse_reduction_factor, coarse_threshold } = DDMParams::default();
    assert_eq!((leaf_threshold, overlap_knn, coarse_reduction_factor, coarse_threshold), (256, 16, 128, SizePolicy::Auto));
    assert_eq!(SizePolicy::default(), SizePolicy::Auto);
}

#[test]
fn levels_and_leaves_by_number() {
    let tree = tree();
    assert_eq!((tree.len(), tree.levels().len(), tree.dimension()), (3, 3, 2));
    assert!(tree.level(3).is_none() && tree.level(usize::MAX).is_none());
    for (i, level) in tree.levels().enumerate() {
        assert_eq!(tree.level(i).unwrap().rows(), level.rows());
        assert_eq!(level.leaves().len(), level.len());
        assert!(level.leaf(level.len()).is_none() && level.leaf(usize::MAX).is_none());
        for (j, leaf) in level.leaves().enumerate() {
            assert_eq!(level.leaf(j).unwrap().own(), leaf.own());
        }
        let mut own: Vec<usize> = level.leaves().flat_map(|leaf| leaf.own()).copied().collect();
        own.sort_unstable();
        assert_eq!(own, level.rows());
    }
}

#[test]
fn iterators_know_how_much_is_left_and_go_both_ways() {
    let tree = tree();
    let mut levels = tree.levels();
    assert_eq!((levels.len(), levels.next().unwrap().rows().len(), levels.len()), (3, 40, 2));
    assert!(levels.next_back().unwrap().is_coarse() && levels.len() == 1);
    let level = tree.level(0).unwrap();
    let forwards: Vec<&[usize]> = level.leaves().map(|leaf| leaf.own()).collect();
    let mut backwards: Vec<&[usize]> = level.leaves().rev().map(|leaf| leaf.own()).collect();
    backwards.reverse();
    assert_eq!(forwards, backwards);
}

#[test]
fn a_leafs_places_are_its_own_rows_and_then_the_borrowed_ones() {
    let tree = tree();
    for leaf in tree.levels().flat_map(|level| level.leaves()) {
        assert_eq!(leaf.rows().collect::<Vec<_>>(), [leaf.own(), leaf.borrowed()].concat());
        assert_eq!((leaf.rows().len(), leaf.len()), (leaf.own().len() + leaf.borrowed().len(), leaf.rows().count()));
        assert_eq!(leaf.rows().next_back(), leaf.borrowed().last().or(leaf.own().last()).copied());
        assert!(!leaf.is_empty());
    }
    // leaf threshold 1 leaves empty leaves behind
    let params = DDMParams { leaf_threshold: 1, overlap_knn: 1, coarse_reduction_factor: 2, coarse_threshold: SizePolicy::Fixed(2) };
    let tree = build(&[0.0, 1.0, 2.0], 1, params).unwrap();
    assert!(tree.level(0).unwrap().leaves().any(|leaf| leaf.is_empty()));
}

#[test]
fn only_the_coarse_domain_has_no_box() {
    for level in tree().levels() {
        for leaf in level.leaves() {
            assert_eq!(leaf.bounds().is_none(), level.is_coarse());
            if let Some((lower, upper)) = leaf.bounds() {
                assert!(lower.len() == 2 && upper.len() == 2 && lower.iter().zip(upper).all(|(l, u)| l <= u));
            }
        }
    }
}

#[test]
fn covers_of_leaves() {
    let covers = |points: &[f64], d, leaf, threshold| -> Vec<Vec<u64>> {
        let coarse_threshold = SizePolicy::Fixed(threshold);
        let params = DDMParams { leaf_threshold: leaf, overlap_knn: 3, coarse_reduction_factor: 2, coarse_threshold };
        let tree = build(points, d, params).unwrap();
        assert_eq!(tree, build_depth_first(points, d, params).unwrap());
        tree.levels().map(|level| level.leaves().map(|leaf| leaf.cover().to_bits()).collect()).collect()
    };
    let bits = |levels: &[&[f64]]| -> Vec<Vec<u64>> { levels.iter().map(|level| level.iter().map(|x| x.to_bits()).collect()).collect() };
    let inf = f64::INFINITY;
    // four leaves of one well, of which two send it
    assert_eq!(covers(&[0.0, 1.0, 3.0, 7.0], 1, 2, 2), bits(&[&[0.0, 0.0, inf, inf], &[0.0]]));
    // with an empty leaf beside each
    assert_eq!(covers(&[0.0, 1.0, 3.0, 7.0], 1, 1, 2), bits(&[&[0.0, 0.0, 0.0, 0.0, 0.0, inf, 0.0, inf], &[0.0]]));
    // two leaves of two wells: over a leaf's own wells, though a borrowed one is nearer; on two axes; at one place; too far; too near
    assert_eq!(covers(&[0.0, 5.0, 6.0, 20.0], 1, 4, 2), bits(&[&[5.0, 14.0], &[0.0]]));
    assert_eq!(covers(&[0.0, 0.0, 3.0, 4.0, 9.0, 0.0, 9.0, 1.0], 2, 4, 2), bits(&[&[5.0, 1.0], &[0.0]]));
    assert_eq!(covers(&[5.0; 4], 1, 4, 2), bits(&[&[0.0, 0.0], &[0.0]]));
    assert_eq!(covers(&[0.0, 1e200, 2e200, 2e200], 1, 4, 2), bits(&[&[inf, 0.0], &[0.0]]));
    assert_eq!(covers(&[0.0, 1e-170, 1.0, 1.0], 1, 4, 2), bits(&[&[0.0, 0.0], &[0.0]]));
    // a coarse level alone
    assert_eq!(covers(&[0.0, 1.0], 1, 1, 2), bits(&[&[0.0]]));
}

#[test]
fn depths_of_leaves() {
    let depths = |n: usize, leaf, factor, threshold| -> Vec<Vec<usize>> {
        let points: Vec<f64> = (0..n).map(|i| i as f64).collect();
        let coarse_threshold = SizePolicy::Fixed(threshold);
        let params = DDMParams { leaf_threshold: leaf, overlap_knn: 1, coarse_reduction_factor: factor, coarse_threshold };
        let tree = build(&points, 1, params).unwrap();
        assert_eq!(tree, build_depth_first(&points, 1, params).unwrap());
        assert_eq!(tree, load(&points, 1, params, &tree.to_bytes(&points, params).unwrap()).unwrap());
        tree.levels().map(|level| level.leaves().map(|leaf| leaf.depth()).collect()).collect()
    };
    assert_eq!(depths(4, 2, 2, 2), [vec![2; 4], vec![0]]);
    // less than twice the threshold, and as much
    assert_eq!(depths(2, 9, 2, 1), [vec![1; 2], vec![0]]);
    assert_eq!(depths(2, 1, 2, 1), [vec![2; 4], vec![0]]);
    // halves of 3 and 4 wells, of which the second are cut once more
    assert_eq!(depths(7, 2, 7, 1), [vec![2, 2, 3, 3, 3, 3], vec![0]]);
    // each level begins anew
    assert_eq!(depths(8, 1, 2, 1), [vec![4; 16], vec![3; 8], vec![2; 4], vec![0]]);
    assert_eq!(depths(5, 1, 2, 5), [vec![0]]);
}

/// Depths never fall from one leaf of a level to the next, and say how many of its rows a leaf has.
#[test]
fn depths_say_how_many_rows_a_leaf_has() {
    let tree = tree();
    for level in tree.levels() {
        let depths: Vec<usize> = level.leaves().map(|leaf| leaf.depth()).collect();
        assert!(depths.windows(2).all(|pair| pair[0] <= pair[1]) && (depths == [0]) == level.is_coarse());
        for leaf in level.leaves() {
            let rows = level.rows().len() >> leaf.depth();
            assert!([rows, rows + 1].contains(&leaf.own().len()));
        }
    }
}

#[test]
fn covers_of_samples() {
    let cover = |points: &[f64], d, wanted| sample(points, d, wanted, 0).unwrap().cover.to_bits();
    let line = [0.0, 3.0, 4.0, 9.0];
    assert_eq!([1, 2, 3, 4].map(|wanted| cover(&line, 1, wanted)), [9.0, 4.0, 1.0, 0.0].map(f64::to_bits));
    assert_eq!(cover(&[0.0, 0.0, 3.0, 4.0], 2, 1), 5f64.to_bits());
    assert_eq!([[5.0, 5.0], [0.0, -0.0], [0.0, 1e-170]].map(|points| cover(&points, 1, 1)), [0; 3]);
    assert_eq!(cover(&[0.0, 1e200], 1, 1), f64::INFINITY.to_bits());
}

#[test]
fn a_tree_that_was_built_has_a_record_and_a_loaded_one_is_equal_without() {
    let (points, params) = ([0.0, 1.0, 3.0, 7.0], DDMParams { coarse_threshold: SizePolicy::Fixed(2), ..DDMParams::default() });
    let (queue, deep) = (build(&points, 1, params).unwrap(), build_depth_first(&points, 1, params).unwrap());
    assert_eq!(queue, deep);
    assert_eq!(queue.to_bytes(&points, params), deep.to_bytes(&points, params));
    let loaded = load(&points, 1, params, &deep.to_bytes(&points, params).unwrap()).unwrap();
    assert_eq!(loaded, deep);
    let nodes = |tree: &Tree| tree.levels().map(|level| level.nodes().count()).collect::<Vec<_>>();
    assert_eq!([nodes(&queue), nodes(&deep), nodes(&loaded)], [[3, 0], [3, 0], [0, 0]]);
    assert_eq!(loaded.to_bytes(&points, params), queue.to_bytes(&points, params));
    let other = |points| build_depth_first(points, 1, params).unwrap();
    // other rows, another box, and another count of levels
    for points in [&[3.0, 1.0, 0.0, 7.0][..], &[0.0, 1.0, 3.0, 8.0], &[0.0, 1.0]] {
        assert_ne!(other(points), deep);
    }
}

#[test]
fn threads_may_read_and_build_at_once() {
    fn shared<T: Send + Sync>() {}
    shared::<Tree>();
    shared::<Level<'_>>();
    shared::<Leaf<'_>>();
    let alone = tree();
    std::thread::scope(|scope| {
        let together: Vec<_> = (0..8).map(|_| scope.spawn(tree)).collect();
        for built in together {
            assert_eq!(built.join().unwrap(), alone);
        }
    });
}

#[test]
fn version_is_the_packages() {
    let part = |text: &str| text.parse::<usize>().unwrap();
    let (major, minor) = (part(env!("CARGO_PKG_VERSION_MAJOR")), part(env!("CARGO_PKG_VERSION_MINOR")));
    let package = major * 10_000 + minor * 100 + part(env!("CARGO_PKG_VERSION_PATCH"));
    assert_eq!(rekvashu::version(), package);
    assert!(include_str!("../../c/ddm.h").contains(&format!("#define DDM_VERSION {package}\n")));
}

#[test]
fn refusals_have_the_words_of_the_other_languages() {
    let python = std::fs::read_to_string(concat!(env!("CARGO_MANIFEST_DIR"), "/../python/rekvashu/refusals.py"));
    let none = Refusal::new(usize::MAX, 0).reason();
    for number in 1..=30 {
        let reason = Refusal::new(number, 0).reason();
        if reason == none {
            assert!(!include_str!("../../c/ddm.h").contains(&format!("case {number}:")), "c/ddm.h has {number}");
            continue;
        }
        assert!(include_str!("../../c/ddm.h").contains(&format!("case {number}: return \"{reason}\";")), "c/ddm.h lacks {number}: {reason}");
        if let Ok(python) = &python {
            assert!(python.contains(&format!("{number}: (\"{reason}\"")), "refusals.py lacks {number}: {reason}");
        }
    }
    let numbers: Vec<usize> = (1..=30).filter(|&number| Refusal::new(number, 0).reason() != none).collect();
    assert_eq!(numbers, (1..=22).chain([27]).collect::<Vec<_>>());
}

#[test]
fn refusals_say_who_can_mend_them() {
    let refused = build(&[0.0], 1, DDMParams { leaf_threshold: 0, ..DDMParams::default() }).unwrap_err();
    assert_eq!(refused.refusal().unwrap().mender(), Mender::Settings);
    assert_eq!(refused.to_string(), "refused 2 at 0: the leaf threshold is 0; whoever sets the station can mend it");
    assert_eq!(Refusal::new(11, 0).mender(), Mender::Program);
    assert_eq!(Refusal::new(16, 20).to_string(), "refused 16 at 20: the job stream is broken; whoever feeds the program can mend it");
    assert_eq!([18, 19, 20].map(|number| Refusal::new(number, 0).mender()), [Mender::Settings, Mender::Points, Mender::File]);
    assert_eq!([21, 22, 27].map(|number| Refusal::new(number, 0).mender()), [Mender::Table, Mender::Table, Mender::Program]);
    assert_eq!(Refusal::new(21, 0).to_string(), "refused 21 at 0: the table is full; whoever edits the table can mend it");
    let refused = build(&[0.0, f64::NAN], 1, DDMParams::default()).unwrap_err();
    assert_eq!(refused.to_string(), "refused 10 at 1: a coordinate is infinite or not a number; whoever brings the points can mend it");
    assert_eq!((Error::OutOfMemory.refusal(), Error::OutOfMemory.to_string()), (None, "there is no memory for the lists".to_string()));
}
