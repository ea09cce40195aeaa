//! The counted search against the definition, and the bounds on its touches, on generated indexes and queries.

use std::collections::BTreeSet;

use second::build::{build, register_names, Registered};
use second::features::{features, numbered};
use second::generate::{queries, registers, words};
use second::index::{cut, good_index, Index};
use second::listed::{features_of_index, features_of_names, listed};
use second::measures::{least_count, searched, similar, Measure, Threshold, MEASURES};
use second::random::Random;
use second::search::{judged, search, search_size, search_sizes, AnswerRow, Query};

const LENT: AnswerRow = AnswerRow { id: 7, shared: 7, size: 7, least: 7 };

fn thresholds(random: &mut Random) -> Vec<Threshold> {
    let fixed = [(1, 1000), (1, 4), (1, 2), (617, 1000), (7, 10), (9, 10), (1, 1)];
    let mut found: Vec<Threshold> = fixed.iter().map(|(p, q)| Threshold::of(*p, *q).unwrap()).collect();
    while found.len() < 12 {
        let (p, q) = queries::any_threshold(random);
        found.extend(Threshold::of(p, q).ok());
    }
    found
}

/// The touches of one size, worked out name by name: a name costs a touch for each signature list that holds it, and
/// if there is any, one for each later list up to the one after which it can no longer reach the least count.
fn touches_name_by_name(index: &Index<'_>, size: u32, wanted: &[u32], t: u32) -> u32 {
    let x = wanted.len() as u32;
    let mut order: Vec<(usize, u32)> =
        wanted.iter().map(|feature| (index.list_for(size, *feature).len(), *feature)).collect();
    order.sort_unstable();
    let signatures = (x + 1 - t) as usize;
    let of_name = |id: u32| {
        let holds: Vec<bool> = order.iter().map(|(_, feature)| index.list_for(size, *feature).contains(&id)).collect();
        // In how many of the first so many lists it stands.
        let within = |lists: usize| holds[..lists].iter().filter(|held| **held).count() as u32;
        let met = within(signatures);
        let last = (signatures..order.len()).find(|k| within(k + 1) + x - *k as u32 - 1 < t);
        let tests = last.map_or(order.len(), |k| k + 1) - signatures;
        met + if met > 0 { tests as u32 } else { 0 }
    };
    index.names.iter().filter(|name| name.size == size).map(|name| of_name(name.id)).sum()
}

/// A search of one index for one set of features: the rows are those of the definition, and the bounds hold.
fn held_to_the_definition(index: &Index<'_>, wanted: &[u32], measure: Measure, threshold: Threshold) -> usize {
    let (touches, rows) = search_sizes(index, wanted, measure, threshold);
    let query: BTreeSet<u32> = wanted.iter().copied().collect();
    let by_definition = listed(&query, &features_of_index(index), measure, threshold);
    assert_eq!(rows, by_definition, "{measure:?} {threshold:?}");
    let x = wanted.len() as u32;
    let mut all = 0;
    for size in (3..=202).filter(|size| searched(measure, threshold, x, *size)) {
        let one = search_size(index, size, wanted, measure, threshold);
        let names = index.names.iter().filter(|name| name.size == size).count() as u32;
        assert_eq!(one.least, least_count(measure, threshold, x, size));
        assert_eq!(one.touches, touches_name_by_name(index, size, wanted, one.least));
        assert!(one.touches <= one.postings + one.candidates * (one.least - 1));
        assert!(one.postings + one.candidates * (one.least - 1) <= x * names);
        let mut lengths: Vec<usize> = wanted.iter().map(|feature| index.list_for(size, *feature).len()).collect();
        lengths.sort_unstable();
        let fewest: usize = lengths[..(x + 1 - one.least) as usize].iter().sum();
        assert_eq!(one.postings as usize, fewest);
        assert!(one.rows.iter().all(|row| similar(measure, threshold, x, size, row.shared)));
        assert!(one.rows.iter().all(|row| (row.size, row.least) == (size, one.least) && row.shared >= row.least));
        all += one.touches;
    }
    assert_eq!(touches, all);
    assert!(touches <= 16_896);
    rows.len()
}

#[test]
fn the_counted_search_lists_what_the_definition_lists() {
    let (mut searches, mut rows) = (0, 0);
    for at in 0..600 {
        let mut random = Random::of(5, 1, at);
        let register = registers::small(&mut random);
        let known = register.first().map_or(b"LANE".to_vec(), |name| name.name.clone());
        let words = words::whole(&mut random, &known);
        let index = good_index(&words).unwrap();
        let query = queries::query(&mut random, &words, &[known]);
        let wanted = features(&query.name);
        for measure in MEASURES.into_iter().filter(|_| !wanted.is_empty()) {
            for threshold in thresholds(&mut random) {
                rows += held_to_the_definition(&index, &wanted, measure, threshold);
                searches += 1;
            }
        }
    }
    assert!(searches > 20_000 && rows > 10_000, "{searches} searches, {rows} rows");
}

/// From register bytes to rows: a search of a built index lists the registered names that are similar by their own
/// features.
#[test]
fn a_built_index_lists_the_registers_own_names() {
    for at in 0..400 {
        let mut random = Random::of(6, 2, at);
        let count = random.pick(&[1, 2, 3, 5, 9, 30, 90]);
        let register = registers::of_count(&mut random, count, second::generate::names::fresh);
        let bytes = registers::lines(&register).concat();
        assert_eq!(register_names(&bytes), Ok(register.clone()));
        let mut words = vec![0; 100_000];
        assert_eq!(build(&bytes, &mut words).number, 0);
        let hints: Vec<Vec<u8>> = register.iter().map(|name| name.name.clone()).collect();
        for _ in 0..4 {
            let query = Query { allowance: 16_896, ..queries::query(&mut random, &words, &hints) };
            held_to_the_register(&words, &register, &query);
        }
    }
}

fn held_to_the_register(words: &[u32], register: &[Registered], query: &Query) {
    let mut rows = vec![LENT; 256];
    let answer = search(words, query, &mut rows);
    let Ok((_, measure, threshold)) = judged(words, query) else {
        assert!((1..=5).contains(&answer.number) || answer.number == 12);
        return;
    };
    let wanted = features(&query.name).into_iter().collect();
    let expected = listed(&wanted, &features_of_names(register), measure, threshold);
    assert_eq!(answer.number, 0);
    assert_eq!(rows[..answer.rows], expected);
    assert!(rows[answer.rows..].iter().all(|row| *row == LENT));
    assert!(expected.windows(2).all(|two| two[0].id < two[1].id));
}

/// The allowance decides between answered and 7 alone: from the count upward nothing changes.
#[test]
fn a_larger_allowance_alters_nothing() {
    for at in 0..200 {
        let mut random = Random::of(7, 3, at);
        let words = words::whole(&mut random, b"LANES");
        let query = queries::query(&mut random, &words, &[b"LANE".to_vec()]);
        let Ok((index, measure, threshold)) = judged(&words, &query) else { continue };
        let (count, found) = search_sizes(&index, &features(&query.name), measure, threshold);
        let at_allowance = |allowance: u32| {
            let mut rows = vec![LENT; found.len() + 1];
            (search(&words, &Query { allowance, ..query.clone() }, &mut rows), rows)
        };
        let (answer, rows) = at_allowance(count);
        assert_eq!((answer.number, answer.touches, answer.rows), (0, count, found.len()));
        assert_eq!(rows[..found.len()], found);
        for more in [count + 1, count + 100, u32::MAX] {
            assert_eq!(at_allowance(more), (answer, rows.clone()));
        }
        for less in (0..count).rev().take(3).chain((0..count).take(2)) {
            let (refused, kept) = at_allowance(less);
            assert_eq!((refused.number, refused.touches, refused.rows), (7, less, 0));
            assert!(kept.iter().all(|row| *row == LENT));
        }
    }
}

/// A name with a tab stays in an index that was built before, and is found by its features.
#[test]
fn a_name_with_a_control_character_is_searched() {
    let names = [(5, numbered(b"LA\tNE")), (6, numbered(b"LANE"))];
    let words = second::build::words_of(&names);
    assert!(good_index(&words).is_some());
    let query = Query { measure: 1, p: 8, q: 13, allowance: 10, name: b"LANE".to_vec() };
    let mut rows = vec![LENT; 2];
    let answer = search(&words, &query, &mut rows);
    assert_eq!((answer.number, answer.rows, answer.touches), (0, 2, 10));
    let of_lane = AnswerRow { id: 6, shared: 6, size: 6, least: 4 };
    assert_eq!(rows, [AnswerRow { id: 5, shared: 4, size: 7, least: 4 }, of_lane]);
}

/// Features of an index need not come from any name: the search asks for a query's own features alone.
#[test]
fn features_of_no_name_are_never_met() {
    let names = [(1, vec![0, 1, u32::MAX]), (2, vec![0, 5, 0x0000_4101])];
    let words = second::build::words_of(&names);
    let index = cut(&words).unwrap();
    let (touches, rows) = search_sizes(&index, &features(b"A"), Measure::Overlap, Threshold::of(1, 3).unwrap());
    assert_eq!((touches, rows), (1, vec![AnswerRow { id: 2, shared: 1, size: 3, least: 1 }]));
}
