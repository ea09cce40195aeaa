//! Every worked figure of the rule.

mod common;

use std::collections::BTreeSet;

use common::{index, query, register, row, LENT, LISTING};
use second::features::{features, grams, number_at};
use second::index::cut;
use second::listed::{least, listed, reaches};
use second::lookup::lookup;
use second::measures::{least_count, searched, similar, Measure, Threshold};
use second::search::{search, search_size, search_sizes};

fn set(name: &str) -> BTreeSet<u32> {
    features(name.as_bytes()).into_iter().collect()
}

fn asked(measure: u32, p: u32, q: u32) -> (Measure, Threshold) {
    (Measure::of(measure).unwrap(), Threshold::of(p, q).unwrap())
}

/// Two names, their sizes, and how many features they share.
const SHARED: [(&str, usize, &str, usize, usize); 4] =
    [("LANE", 6, "LANES", 7, 4), ("LANE", 6, "PLANE", 7, 4), ("AAA", 5, "AAAA", 6, 5), ("AB", 4, "AC", 4, 1)];

#[test]
fn names_share_what_the_rule_says() {
    for (one, x, other, y, c) in SHARED {
        let (one, other) = (set(one), set(other));
        assert_eq!((one.len(), other.len(), one.intersection(&other).count()), (x, y, c));
    }
}

#[test]
fn a_gram_that_comes_again_is_a_feature_of_its_own() {
    // 0 0 A, 0 A A, A A A, A A A again, A A 0, A 0 0
    let of_aaaa: [u32; 6] = [0x0000_4101, 0x0041_4101, 0x4141_4101, 0x4141_4102, 0x4141_0001, 0x4100_0001];
    assert_eq!(features(b"AAAA"), of_aaaa);
    assert_eq!(number_at(&grams(b"AAAA"), 3), 2);
    // All different: every number is 1.
    let of_lane: [u32; 6] = [0x0000_4C01, 0x004C_4101, 0x4C41_4E01, 0x414E_4501, 0x4E45_0001, 0x4500_0001];
    assert_eq!(features(b"LANE"), of_lane);
}

/// LANE against LANES: measure, p, q, and whether LANES is in.
const ON_THE_LINE: [(u32, u32, u32, bool); 8] = [
    (1, 8, 13, true),
    (1, 9, 13, false),
    (2, 4, 9, true),
    (2, 1, 2, false),
    (3, 617, 1000, true),
    (3, 618, 1000, false),
    (4, 2, 3, true),
    (4, 667, 1000, false),
];

#[test]
fn lane_against_lanes_by_every_measure() {
    let words = index(&["LANES"]);
    for (measure, p, q, inside) in ON_THE_LINE {
        let (m, t) = asked(measure, p, q);
        assert_eq!(similar(m, t, 6, 7, 4), inside, "by products: measure {measure}, {p}/{q}");
        assert_eq!(reaches(m, t, &set("LANE"), &set("LANES")), inside, "by fractions: measure {measure}, {p}/{q}");
        let mut rows = [LENT];
        let answer = search(&words, &query(measure, p, q, 100, b"LANE"), &mut rows);
        assert_eq!((answer.number, answer.rows), (0, usize::from(inside)), "searched: measure {measure}, {p}/{q}");
        assert_eq!(rows[0], if inside { row(10, 4, 7, 4) } else { LENT });
    }
}

#[test]
fn sizes_8_and_9_by_cosine_7_10() {
    let (m, t) = asked(3, 7, 10);
    assert_eq!((least_count(m, t, 8, 9), least(m, t, 8, 9)), (6, 6));
    let sizes: Vec<u32> = (3..=202).filter(|size| searched(m, t, 8, *size)).collect();
    assert_eq!(sizes, (4..=16).collect::<Vec<u32>>());
}

#[test]
fn a_least_count_of_one_still_lists() {
    let mut rows = [LENT; 2];
    let answer = search(&index(&["AC"]), &query(1, 1, 4, 1, b"AB"), &mut rows);
    assert_eq!((answer.number, answer.rows, answer.touches, answer.p, answer.q), (0, 1, 1, 1, 4));
    assert_eq!(rows, [row(10, 1, 4, 1), LENT]);
}

#[test]
fn the_listing_costs_6_and_9_touches() {
    let words = index(&LISTING);
    let (m, t) = asked(1, 8, 13);
    let wanted = features(b"LANE");
    let cut = cut(&words).unwrap();
    let of = |size| search_size(&cut, size, &wanted, m, t).touches;
    assert_eq!((of(6), of(7)), (6, 9));
    assert_eq!(search_sizes(&cut, &wanted, m, t).0, 15);
}

#[test]
fn the_listing_is_answered_at_15_and_refused_at_14() {
    let input = |allowance: &str| {
        let mut input = b"4E000A044C414E45\n4E000B054C414E4553\n4E000C05504C414E45\n".to_vec();
        input.extend(format!("51010008000D{allowance}044C414E45\n").bytes());
        input
    };
    let answered = "52000A060604\n52000B040704\n52000C040704\n4500030000000F0008000D\n";
    assert_eq!(lookup(&input("0000000F")), answered.as_bytes());
    assert_eq!(lookup(&input("0000000E")), b"58070000000E\n");
    assert!(input("0000000F").starts_with(&register(&LISTING)));
}

#[test]
fn equal_thresholds_give_equal_answers() {
    let words = index(&LISTING);
    for ((p, q), (lower, least)) in
        [((70, 100), (7, 10)), ((16, 26), (8, 13)), ((1000, 1000), (1, 1)), ((3, 7), (3, 7))]
    {
        for measure in 1..=4 {
            let (mut one, mut other) = ([LENT; 4], [LENT; 4]);
            let given = search(&words, &query(measure, p, q, 100, b"LANE"), &mut one);
            let lowest = search(&words, &query(measure, lower, least, 100, b"LANE"), &mut other);
            assert_eq!((given, one), (lowest, other));
            assert_eq!((given.p, given.q), (lower, least));
        }
    }
}

#[test]
fn lengths_and_thresholds_at_their_limits() {
    let words = index(&["LANE"]);
    let long = [b'A'; 201];
    // query, p, q, number
    let vectors: [(&[u8], u32, u32, u8); 8] = [
        (&long[..200], 1, 2, 0),
        (&long, 1, 2, 2),
        (b"LANE", 0, 1, 5),
        (b"LANE", 1000, 1000, 0),
        (b"LANE", 1, 1001, 5),
        (b"LANE", 1, 1000, 0),
        (b"LANE", 2, 1, 5),
        (b"LANE", 0, 0, 5),
    ];
    for (name, p, q, number) in vectors {
        let answer = search(&words, &query(1, p, q, 1000, name), &mut [LENT; 2]);
        assert_eq!(answer.number, number, "{} bytes, {p}/{q}", name.len());
    }
    assert_eq!((features(&long[..64]).len(), features(&long[..65]).len(), features(&long[..1]).len()), (66, 67, 3));
    assert_eq!((features(&long[..200]).len(), features(&long).len()), (202, 0));
    // AAA is there 198 times, and the last of them has that number
    assert_eq!(features(&long[..200])[199], 0x4141_41C6);
}

#[test]
fn equal_names_give_a_row_each() {
    let mut rows = [LENT; 3];
    // Three features; at least count 3 one of them is a signature: 2 postings, then 2 tests of 2 candidates.
    let answer = search(&index(&["A", "A"]), &query(1, 1, 1, 6, b"A"), &mut rows);
    assert_eq!((answer.number, answer.rows, answer.touches), (0, 2, 6));
    assert_eq!(rows, [row(10, 3, 3, 3), row(11, 3, 3, 3), LENT]);
}

#[test]
fn no_rows_lent_and_no_answers_is_answered() {
    let answer = search(&index(&["AC"]), &query(1, 1, 1, 100, b"XYZ"), &mut []);
    assert_eq!((answer.number, answer.rows, answer.p, answer.q), (0, 0, 1, 1));
}

/// Register name, query, measure, p, q, shared: each lies exactly on the threshold, where a rounded least count or a
/// similarity in floats may lose it. What is shared is then the least count.
const EXACTLY_ON: [(&str, &str, u32, u32, u32, u32); 6] = [
    ("abcdefghijcd", "abcd", 1, 3, 5, 6),
    ("abab", "ab", 1, 4, 5, 4),
    ("LANES", "LANE", 1, 8, 13, 4),
    ("LANES", "LANE", 2, 4, 9, 4),
    ("AC", "AB", 3, 1, 4, 1),
    ("LANES", "LANE", 4, 2, 3, 4),
];

#[test]
fn a_name_exactly_on_the_threshold_is_listed() {
    for (name, wanted, measure, p, q, shared) in EXACTLY_ON {
        let size = name.len() as u32 + 2;
        let (mut rows, one_up) = ([LENT], (p * 50 + 1, q * 50));
        let answer = search(&index(&[name]), &query(measure, p, q, 100, wanted.as_bytes()), &mut rows);
        assert_eq!((answer.number, answer.rows, rows[0]), (0, 1, row(10, shared, size, shared)), "{name} for {wanted}");
        let answer = search(&index(&[name]), &query(measure, one_up.0, one_up.1, 100, wanted.as_bytes()), &mut rows);
        assert_eq!((answer.number, answer.rows), (0, 0), "{name} for {wanted}, just above");
    }
}

#[test]
fn rows_come_by_id_and_not_by_size() {
    let mut rows = [LENT; 3];
    let answer = search(&index(&["LANES", "LANE", "PLANE"]), &query(1, 8, 13, 100, b"LANE"), &mut rows);
    assert_eq!((answer.number, answer.rows, answer.touches), (0, 3, 15));
    assert_eq!(rows, [row(10, 4, 7, 4), row(11, 6, 6, 4), row(12, 4, 7, 4)]);
}

#[test]
fn a_candidate_that_has_reached_the_least_count_gets_its_full_count() {
    // LANE for LANE at Dice 1/2: least count 3, shared 6.
    let mut rows = [LENT];
    search(&index(&["LANE"]), &query(1, 1, 2, 100, b"LANE"), &mut rows);
    assert_eq!(rows, [row(10, 6, 6, 3)]);
}

/// AAA, of size 5, against AAA, A and AA, of sizes 5, 3 and 4, with which it shares 5, 2 and 4: measure, p, q, and the
/// least count for each of the three.
const OF_EACH_SIZE: [(u32, u32, u32, [u32; 3]); 4] =
    [(1, 1, 2, [3, 2, 3]), (2, 1, 3, [3, 2, 3]), (3, 1, 2, [3, 2, 3]), (4, 2, 3, [4, 2, 3])];

#[test]
fn a_row_has_the_least_count_of_its_own_size() {
    let names = ["AAA", "A", "AA"];
    for (measure, p, q, [of_aaa, of_a, of_aa]) in OF_EACH_SIZE {
        let expected = [row(10, 5, 5, of_aaa), row(11, 2, 3, of_a), row(12, 4, 4, of_aa)];
        let mut rows = [LENT; 3];
        let answer = search(&index(&names), &query(measure, p, q, 11, b"AAA"), &mut rows);
        assert_eq!((answer.number, answer.rows, answer.touches, rows), (0, 3, 11, expected), "measure {measure}");
        let names: Vec<_> = (10..).zip(names).map(|(id, name)| (id, set(name))).collect();
        let (m, t) = asked(measure, p, q);
        assert_eq!(listed(&set("AAA"), &names, m, t), expected, "measure {measure}");
    }
}

/// AA, of size 4, against A, of size 3, with which it shares 2, by Dice: p, q, and the least count where A is in. Up to
/// 2/7 one shared feature is enough, and then up to 4/7 just these two.
#[test]
fn a_name_that_only_just_passes_shares_the_least_count() {
    for (p, q, inside) in [(2, 7, Some(1)), (286, 1000, Some(2)), (1, 2, Some(2)), (4, 7, Some(2)), (572, 1000, None)] {
        let mut rows = [LENT];
        let answer = search(&index(&["A"]), &query(1, p, q, 100, b"AA"), &mut rows);
        assert_eq!((answer.number, answer.rows), (0, usize::from(inside.is_some())), "{p}/{q}");
        assert_eq!(rows[0], inside.map_or(LENT, |least| row(10, 2, 3, least)), "{p}/{q}");
    }
}

/// ABC against ABD (10), ABE (11), XBC (12) and YZC (13), all of size 5, by Dice. The lists, in order: ABC none, BC0
/// 12; then of two each, by feature, 00A 10 11, 0AB 10 11, C00 12 13.
#[test]
fn ties_go_by_feature_and_hopeless_candidates_are_dropped() {
    let words = index(&["ABD", "ABE", "XBC", "YZC"]);
    let cut = cut(&words).unwrap();
    let wanted = features(b"ABC");
    // 3/5, least count 3: signatures ABC, BC0, 00A, 3 postings; 0AB tests 3, after which 12 is dropped; C00 tests 2.
    let (m, t) = asked(1, 3, 5);
    let one = search_size(&cut, 5, &wanted, m, t);
    assert_eq!((one.least, one.postings, one.candidates, one.touches, one.rows), (3, 3, 3, 8, vec![]));
    // 2/5, least count 2: 0AB is a signature too, 5 postings; C00 tests 3, and finds 12.
    let (m, t) = asked(1, 2, 5);
    let one = search_size(&cut, 5, &wanted, m, t);
    assert_eq!((one.least, one.postings, one.candidates, one.touches), (2, 5, 3, 8));
    assert_eq!(search_sizes(&cut, &wanted, m, t), (8, vec![row(10, 2, 5, 2), row(11, 2, 5, 2), row(12, 2, 5, 2)]));
}

#[test]
fn the_most_touches_a_search_can_cost() {
    // 256 equal names of 64 bytes and of 200, least count 1: every posting of every list.
    let long: String = (0..200).map(|at| char::from(32 + (at * 7 + at / 95) as u8 % 95)).collect();
    for (length, most) in [(64, 16_896), (200, 51_712)] {
        let name = &long[..length];
        let words = index(&[name; 256]);
        let mut rows = [LENT; 256];
        let answer = search(&words, &query(4, 1, 1000, most, name.as_bytes()), &mut rows);
        assert_eq!((answer.number, answer.rows, answer.touches), (0, 256, most));
        let answer = search(&words, &query(4, 1, 1000, most - 1, name.as_bytes()), &mut rows);
        assert_eq!((answer.number, answer.rows, answer.touches), (7, 0, most - 1));
    }
}

#[test]
fn the_definition_lists_what_the_listing_lists() {
    let names: Vec<_> = (10..).zip(LISTING).map(|(id, name)| (id, set(name))).collect();
    let (m, t) = asked(1, 8, 13);
    assert_eq!(listed(&set("LANE"), &names, m, t), [row(10, 6, 6, 4), row(11, 4, 7, 4), row(12, 4, 7, 4)]);
}
