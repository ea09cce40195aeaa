//! The measures: what the rule says of sizes and least counts, for every pair of sizes.

use second::listed::least;
use second::measures::{least_count, searched, similar, Measure, Threshold, MEASURES};

/// Thresholds with small terms, all of them, and some with great ones.
fn thresholds() -> Vec<Threshold> {
    let small = (1..=12).flat_map(|q| (1..=q).map(move |p| (p, q)));
    let great = [(1, 1000), (999, 1000), (1000, 1000), (617, 1000), (618, 1000), (667, 1000), (7, 997), (500, 999)];
    small.chain(great).map(|(p, q)| Threshold::of(p, q).unwrap()).collect()
}

#[test]
fn measures_are_1_to_4() {
    let numbers: Vec<u8> = [0, 1, 2, 3, 4, 5, 256, u32::MAX]
        .into_iter()
        .map(|number| Measure::of(number).map_or_else(|refusal| refusal.number(), |_| 0))
        .collect();
    assert_eq!(numbers, [4, 0, 0, 0, 0, 4, 4, 4]);
}

/// The sizes of short names, and some of long ones.
fn sizes() -> impl Iterator<Item = u32> {
    (3..=40).chain([63, 64, 65, 66, 67, 100, 133, 134, 199, 200, 201, 202])
}

#[test]
fn the_least_count_is_from_1_to_the_smaller_size() {
    for measure in MEASURES {
        for threshold in thresholds() {
            for x in sizes() {
                for y in sizes().filter(|y| searched(measure, threshold, x, *y)) {
                    let t = least_count(measure, threshold, x, y);
                    assert!(1 <= t && t <= x.min(y), "{measure:?} {threshold:?} {x} {y}: {t}");
                    assert!(similar(measure, threshold, x, y, t));
                    assert!(!similar(measure, threshold, x, y, t - 1));
                }
            }
        }
    }
}

/// Of any two sizes, searched or not, and of no features at all.
#[test]
fn the_least_count_is_the_first_from_1_upward() {
    for measure in MEASURES {
        for threshold in thresholds() {
            for (x, y) in (0..=12).flat_map(|x| (0..=12).map(move |y| (x, y))) {
                let t = least_count(measure, threshold, x, y);
                assert!(1 <= t && similar(measure, threshold, x, y, t), "{measure:?} {threshold:?} {x} {y}: {t}");
                assert!(
                    (1..t).all(|c| !similar(measure, threshold, x, y, c)),
                    "{measure:?} {threshold:?} {x} {y}: {t}"
                );
            }
        }
    }
}

/// The least count by products and by fractions. Where a size is not searched there is none up to the smaller size.
#[test]
fn the_least_count_is_that_of_the_definition() {
    for measure in MEASURES {
        for threshold in thresholds() {
            for (x, y) in sizes().flat_map(|x| sizes().map(move |y| (x, y))) {
                let t = if searched(measure, threshold, x, y) { least_count(measure, threshold, x, y) } else { 0 };
                let by_definition = least(measure, threshold, x as usize, y as usize);
                assert_eq!(t as usize, by_definition, "{measure:?} {threshold:?} {x} {y}");
            }
        }
    }
}

#[test]
fn a_size_that_is_not_searched_holds_no_similar_name() {
    for measure in MEASURES {
        for threshold in thresholds() {
            for x in sizes() {
                for y in sizes().filter(|y| !searched(measure, threshold, x, *y)) {
                    assert!(!similar(measure, threshold, x, y, x.min(y)), "{measure:?} {threshold:?} {x} {y}");
                }
            }
        }
    }
}

#[test]
fn likeness_is_the_same_both_ways() {
    for measure in MEASURES {
        for threshold in thresholds() {
            for (x, y) in sizes().flat_map(|x| sizes().map(move |y| (x, y))) {
                assert_eq!(searched(measure, threshold, x, y), searched(measure, threshold, y, x));
                assert_eq!(least_count(measure, threshold, x, y), least_count(measure, threshold, y, x));
            }
        }
    }
}

/// p, q, and both in lowest terms.
const LOWEST: [(u32, u32, u32, u32); 8] = [
    (70, 100, 7, 10),
    (7, 10, 7, 10),
    (1000, 1000, 1, 1),
    (1, 1, 1, 1),
    (500, 1000, 1, 2),
    (617, 1000, 617, 1000),
    (16, 26, 8, 13),
    (999, 999, 1, 1),
];

#[test]
fn thresholds_in_lowest_terms() {
    for (p, q, lower, least) in LOWEST {
        assert_eq!(Threshold::of(p, q).unwrap().lowest(), (lower, least));
    }
}
