//! Index words: what a build makes, which words are good, the list of a size and feature.

mod common;

use std::collections::{BTreeMap, BTreeSet};

use common::{index, name_line, register, LISTING};
use second::build::{build, words_of};
use second::generate::words;
use second::good::{good, good_but, CONDITIONS};
use second::index::{cut, header, list_for};
use second::random::Random;

const BLANK: u32 = 4_294_967_295;

/// A is 0 0 A, 0 A 0, A 0 0.
const A: [u32; 3] = [0x0000_4101, 0x0041_0001, 0x4100_0001];

/// Two names A under ids 1 and 2, worked out by hand: header, names, rows, postings.
const TWO: [u32; 23] = [
    2, 3, 6, //
    259, 515, //
    3, A[0], 0, 2, //
    3, A[1], 2, 2, //
    3, A[2], 4, 2, //
    1, 2, 1, 2, 1, 2,
];

/// A under id 1 and AA under id 2: sizes 3 and 4 apart.
const APART: [u32; 40] = [
    2,
    7,
    7, //
    259,
    516, //
    3,
    A[0],
    0,
    1, //
    3,
    A[1],
    1,
    1, //
    3,
    A[2],
    2,
    1, //
    4,
    0x0000_4101,
    3,
    1, //
    4,
    0x0041_4101,
    4,
    1, //
    4,
    0x4100_0001,
    5,
    1, //
    4,
    0x4141_0001,
    6,
    1, //
    1,
    1,
    1,
    2,
    2,
    2,
    2,
];

#[test]
fn a_build_makes_the_words_worked_out_by_hand() {
    let two = [name_line(1, b"A"), name_line(2, b"A")].concat();
    let apart = [name_line(1, b"A"), name_line(2, b"AA")].concat();
    let whole: [(&[u8], &[u32]); 3] = [(b"", &[0, 0, 0]), (&two, &TWO), (&apart, &APART)];
    for (register, words) in whole {
        for beyond in [0, 1, 5] {
            let mut lent = vec![7; words.len() + beyond];
            let built = build(register, &mut lent);
            assert_eq!((built.number, built.line), (0, 0));
            assert_eq!(&lent[..words.len()], words);
            assert_eq!(lent[words.len()..], vec![BLANK; beyond]);
            assert!(good(&lent));
        }
    }
}

/// Words with something changed: places and their new values.
fn with(words: &[u32], changes: &[(usize, u32)]) -> Vec<u32> {
    let mut words = words.to_vec();
    for (at, word) in changes {
        words[*at] = *word;
    }
    words
}

/// Words in which one condition alone does not hold: which condition, and the words.
fn one_condition_broken() -> Vec<(usize, Vec<u32>)> {
    let many: Vec<(u32, Vec<u32>)> = (0..257).map(|id| (id, A.to_vec())).collect();
    let far = words_of(&[(1, A.to_vec()), (65_536, A.to_vec())]);
    let small = words_of(&[(1, A[..2].to_vec())]);
    let great = words_of(&[(1, (0..203).collect())]);
    vec![
        (0, words_of(&many)),
        (2, far),
        (3, with(&TWO, &[(3, 515), (4, 259)])),
        (3, words_of(&[(1, A.to_vec()), (1, vec![5, 6, 7])])[..].to_vec()),
        (4, small),
        (4, great),
        // Rows 0 and 1 swapped, their lists being equal.
        (5, with(&TWO, &[(6, A[1]), (10, A[0])])),
        // Two rows of one size and feature, a name in each.
        (5, vec![2, 4, 6, 259, 515, 3, 1, 0, 1, 3, 1, 1, 1, 3, 2, 2, 2, 3, 3, 4, 2, 1, 2, 1, 2, 1, 2]),
        // Size 4 before size 3.
        (
            5,
            vec![
                2, 7, 7, 259, 516, 4, 1, 0, 1, 4, 2, 1, 1, 4, 3, 2, 1, 4, 4, 3, 1, 3, 1, 4, 1, 3, 2, 5, 1, 3, 3, 6, 1,
                2, 2, 2, 2, 1, 1, 1,
            ],
        ),
        // A row without postings.
        (6, vec![1, 4, 3, 259, 3, 1, 0, 1, 3, 2, 1, 1, 3, 3, 2, 1, 3, 4, 3, 0, 1, 1, 1]),
        // The first place is not 0; the second list begins where the first does.
        (7, with(&APART, &[(7, 1)])),
        (7, with(&APART, &[(11, 0)])),
        // One posting more than the counts say, whatever it is.
        (8, [&with(&TWO, &[(2, 7)])[..], &[9]].concat()),
        (9, with(&TWO, &[(17, 2), (18, 1)])),
        // The last row of the second name says size 5.
        (10, with(&APART, &[(29, 5)])),
        // A list of an id that is no name.
        (10, vec![0, 1, 1, 3, A[0], 0, 1, 9]),
        // A name in no list.
        (11, vec![1, 0, 0, 259]),
        // A name of size 3 in two lists, and in four.
        (11, vec![1, 2, 2, 259, 3, 1, 0, 1, 3, 2, 1, 1, 1, 1]),
        (11, vec![1, 4, 4, 259, 3, 1, 0, 1, 3, 2, 1, 1, 3, 3, 2, 1, 3, 4, 3, 1, 1, 1, 1, 1]),
    ]
}

#[test]
fn each_condition_is_needed() {
    let mut seen = BTreeSet::new();
    for (at, words) in one_condition_broken() {
        let holds = |at: usize| CONDITIONS[at].1(&cut(&words).unwrap());
        let broken: Vec<usize> = (0..CONDITIONS.len()).filter(|at| !holds(*at)).collect();
        // Two names of one id stand in each other's lists, so another condition falls with it.
        assert!(broken.contains(&at), "{}: {words:?}", CONDITIONS[at].0);
        assert!(!good(&words), "{}: {words:?}", CONDITIONS[at].0);
        if broken == [at] {
            assert!(good_but(&words, Some(at)));
            seen.insert(at);
        }
    }
    // All but the bound on postings, which follows from the others.
    assert_eq!(seen, (0..CONDITIONS.len()).filter(|at| *at != 1).collect());
}

#[test]
fn the_slice_has_to_hold_the_total() {
    assert!(good(&TWO));
    for length in 0..TWO.len() {
        assert!(!good(&TWO[..length]), "{length} words");
    }
    assert!(good(&[&TWO[..], &[9, 9, 9]].concat()));
    assert!(good(&[0, 0, 0]) && good(&[0, 0, 0, 5]) && !good(&[0, 0]) && !good(&[]));
    // Totals that come round to a small one in 32 bits.
    assert!(!good(&[0, 1 << 30, 0]) && !good(&[u32::MAX, 0, 1]) && !good(&[0, 0, u32::MAX]));
    assert!(!good(&[BLANK; 40]));
}

/// Whether words are good, another way round: take names and features out of them, make the words anew, compare.
fn good_by_making_anew(words: &[u32]) -> bool {
    let Some(index) = cut(words) else { return false };
    let mut features: BTreeMap<u32, BTreeSet<(u32, u32)>> = BTreeMap::new();
    for row in &index.rows {
        let Some(list) = index.list(row) else { return false };
        for id in list {
            features.entry(*id).or_default().insert((row.size, row.feature));
        }
    }
    let sizes: BTreeMap<u32, u32> = index.names.iter().map(|name| (name.id, name.size)).collect();
    let right = sizes.len() <= 256
        && sizes.iter().all(|(id, size)| {
            *id <= 65_535
                && (3..=202).contains(size)
                && features.get(id).is_some_and(|of| of.len() as u32 == *size && of.iter().all(|(s, _)| s == size))
        })
        && features.keys().all(|id| sizes.contains_key(id));
    let names: Vec<(u32, Vec<u32>)> = sizes
        .keys()
        .map(|id| (*id, features.get(id).into_iter().flatten().map(|(_, feature)| *feature).collect()))
        .collect();
    right && words.starts_with(&words_of(&names))
}

/// Every word of some indexes changed, one by one, to many values.
#[test]
fn every_word_damaged_one_by_one() {
    let (mut good_ones, mut bad_ones) = (0, 0);
    for names in [&LISTING[..], &["A", "A", "B"], &["AAAA", "AAA"], &["ABC"], &[]] {
        let mut words = index(names);
        let (n, d, p) = header(&words).unwrap();
        words.truncate((3 + n + 4 * d + p + 2) as usize);
        for at in 0..words.len() {
            let word = words[at];
            let near = [word.wrapping_add(1), word.wrapping_sub(1), word.wrapping_add(256), word.wrapping_sub(256)];
            let far = [0, 1, 2, 3, 4, 5, 6, 7, 66, 67, 202, 203, 255, 256, 257, 65_536, 1 << 24, 1 << 30, 1 << 31, BLANK];
            let bits = (0..32).map(|bit| word ^ (1 << bit));
            for other in near.into_iter().chain(far).chain(bits).chain(words.clone()) {
                let damaged = with(&words, &[(at, other)]);
                assert_eq!(good(&damaged), good_by_making_anew(&damaged), "word {at} of {names:?} is {other}");
                *if good(&damaged) { &mut good_ones } else { &mut bad_ones } += 1;
            }
        }
    }
    // Good again: the same word, a word beyond the total, an id or feature that keeps its order.
    assert!(good_ones > 1000 && bad_ones > 10_000, "{good_ones} good, {bad_ones} bad");
}

#[test]
fn generated_words_are_good_by_both_ways() {
    let (mut good_ones, mut bad_ones) = (0, 0);
    for at in 0..6000 {
        let mut random = Random::of(11, 0, at);
        let whole = words::whole(&mut random, b"LANE");
        assert!(good(&whole) && good_by_making_anew(&whole));
        let any = words::any(&mut random, b"LANE", 8);
        assert_eq!(good(&any), good_by_making_anew(&any), "{any:?}");
        *if good(&any) { &mut good_ones } else { &mut bad_ones } += 1;
    }
    assert!(good_ones > 600 && bad_ones > 2000, "{good_ones} good, {bad_ones} bad");
}

#[test]
fn a_list_is_that_part_of_the_words() {
    // Size, feature, where the list begins, its ids.
    let vectors: [(u32, u32, usize, &[u32]); 7] = [
        (3, A[0], 33, &[1]),
        (3, A[1], 34, &[1]),
        (4, A[0], 36, &[2]),
        (4, 0x4141_0001, 39, &[2]),
        (3, 0x4141_0001, 0, &[]),
        (5, A[0], 0, &[]),
        (4, A[1], 0, &[]),
    ];
    for (size, feature, start, ids) in vectors {
        let list = list_for(&APART, size, feature);
        assert_eq!(list, ids, "size {size}, feature {feature:08X}");
        assert!(ids.is_empty() || std::ptr::eq(list.as_ptr(), &APART[start]));
    }
    assert_eq!(list_for(&TWO, 3, A[1]), [1, 2]);
    for high in [1, 1 << 31, u32::MAX] {
        assert!(list_for(&TWO, 3, u64::from(high) << 32 | u64::from(A[1])).is_empty());
    }
    for at in 0..TWO.len() - 1 {
        assert!(list_for(&TWO[..at], 3, A[1]).is_empty());
    }
    assert!(list_for(&with(&TWO, &[(0, 3)]), 3, A[1]).is_empty());
}

#[test]
fn a_build_is_good_whatever_the_names() {
    let names: Vec<String> = (0..200).map(|at| "ABCABD"[at % 6..].repeat(1 + at % 10)).collect();
    let names: Vec<&str> = names.iter().map(String::as_str).collect();
    let words = index(&names);
    assert!(good(&words) && good_by_making_anew(&words));
    assert_eq!(words[0], 200);
    assert_eq!(words[2] as usize, names.iter().map(|name| name.len() + 2).sum::<usize>());
    assert!(!register(&names).is_empty());
}
