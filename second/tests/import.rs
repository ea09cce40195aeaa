//! The import of a log: outcomes, pairs, refusals of the whole, and the lent columns.

mod common;

use std::collections::BTreeSet;

use common::{index, log_line, name_line};
use second::build::build;
use second::features::features;
use second::generate::{logs, registers, words};
use second::import::{import, log_lines, outcome_of, week_of, Imported, Outcome, Outcomes, Pair, Pairs, Settings};
use second::index::good_index;
use second::limits::NO_READING;
use second::listed::{features_of_index, listed};
use second::measures::{Measure, Threshold};
use second::random::Random;
use second::search::{search_sizes, Query};

/// What a lent place holds before an import.
const LENT: u32 = 7;

const NO: u16 = NO_READING;

/// Dice 1/2 with an allowance of 1,000.
const SETTINGS: Settings = Settings { measure: 1, p: 1, q: 2, allowance: 1000 };

/// LANE under 10, LANES under 11 and AB under 20.
fn example() -> Vec<u32> {
    let mut words = vec![0; 200];
    let register = [name_line(10, b"LANE"), name_line(11, b"LANES"), name_line(20, b"AB")].concat();
    assert_eq!(build(&register, &mut words).number, 0);
    words
}

fn log_of(lines: &[(u16, u16, &[u8])]) -> Vec<u8> {
    lines.iter().flat_map(|(day, reading, name)| log_line(*day, *reading, name)).collect()
}

/// The example's log: one of each outcome, a missing reading, a 0, two weeks.
const LOG: [(u16, u16, &[u8]); 6] =
    [(0, 45, b"AB"), (0, 1, b"LANE"), (0, 2, b"ZZ"), (0, 3, b""), (6, NO, b"AB"), (7, 0, b"AB")];

/// An import with rooms of their own for every column: its answer, and the columns afterwards.
fn imported(
    log: &[u8],
    settings: &Settings,
    words: &[u32],
    lines: usize,
    of_weeks: usize,
) -> (Imported, Outcomes, Pairs) {
    let (mut outcomes, mut pairs) = (Outcomes::lent(lines, LENT), Pairs::lent(of_weeks, LENT));
    let answer = import(log, settings, words, &mut outcomes, &mut pairs);
    (answer, outcomes, pairs)
}

fn refused(number: u8, line: usize) -> Imported {
    Imported { number, line, lines: 0, pairs: 0 }
}

fn pair(id: u32, week: u32, sum: u32, count: u32) -> Pair {
    Pair { id, week, sum, count }
}

/// The outcomes and pairs of a log that is answered.
fn answered(log: &[u8], settings: &Settings, words: &[u32]) -> (Vec<(u32, u32)>, Vec<Pair>) {
    let (answer, outcomes, pairs) = imported(log, settings, words, 1024, 1024);
    assert_eq!((answer.number, answer.line), (0, 0));
    let given = (0..answer.lines).map(|at| (outcomes.cases[at], outcomes.values[at])).collect();
    let found = (0..answer.pairs).map(|at| pair(pairs.ids[at], pairs.weeks[at], pairs.sums[at], pairs.counts[at]));
    (given, found.collect())
}

#[test]
fn the_example_of_the_rule() {
    let (outcomes, pairs) = answered(&log_of(&LOG), &SETTINGS, &example());
    assert_eq!(outcomes, [(1, 20), (3, 0), (2, 0), (4, 1), (1, 20), (1, 20)]);
    assert_eq!(pairs, [pair(20, 0, 45, 1), pair(20, 1, 0, 1)]);
}

/// Lines that belong to AB, by day and reading, and their pairs by week, sum and count.
#[allow(clippy::type_complexity)]
const READINGS: [(&[(u16, u16)], &[(u32, u32, u32)]); 12] = [
    (&[(0, 0)], &[(0, 0, 1)]),
    (&[(0, NO)], &[(0, 0, 0)]),
    (&[(0, NO), (6, NO)], &[(0, 0, 0)]),
    (&[(0, NO), (6, 0)], &[(0, 0, 1)]),
    (&[(0, 1), (6, 0xFFFE)], &[(0, 65_535, 2)]),
    (&[(0, 0xFFFE), (1, 0xFFFE), (2, NO)], &[(0, 131_068, 2)]),
    (&[(6, 1), (7, 2)], &[(0, 1, 1), (1, 2, 1)]),
    (&[(7, 2), (6, 1)], &[(0, 1, 1), (1, 2, 1)]),
    (&[(7, 1), (13, 2), (14, 4)], &[(1, 3, 2), (2, 4, 1)]),
    (&[(65_533, 1), (65_534, 2), (65_535, 4)], &[(9361, 1, 1), (9362, 6, 2)]),
    (&[(0, 1), (65_535, 2), (0, 4)], &[(0, 5, 2), (9362, 2, 1)]),
    (&[], &[]),
];

#[test]
fn readings_by_week() {
    let words = example();
    for (lines, weeks) in READINGS {
        let log: Vec<u8> = lines.iter().flat_map(|(day, reading)| log_line(*day, *reading, b"AB")).collect();
        let (outcomes, pairs) = answered(&log, &SETTINGS, &words);
        assert_eq!(outcomes, vec![(1, 20); lines.len()]);
        let expected: Vec<Pair> = weeks.iter().map(|(week, sum, count)| pair(20, *week, *sum, *count)).collect();
        assert_eq!(pairs, expected, "{lines:?}");
    }
}

/// The largest sum: 1,024 readings of 65,534.
#[test]
fn the_largest_sum_fits() {
    let log = log_line(0, 0xFFFE, b"AB").repeat(1024);
    let (outcomes, pairs) = answered(&log, &SETTINGS, &example());
    assert_eq!((outcomes.len(), pairs), (1024, vec![pair(20, 0, 67_106_816, 1024)]));
}

/// Changing a missing reading to 0 changes the count of its pair by one and nothing else.
#[test]
fn a_missing_reading_is_not_0() {
    let words = example();
    for at in [0, 4, 5] {
        let with = |reading: u16| {
            let mut lines = LOG;
            lines[at].1 = reading;
            answered(&log_of(&lines), &SETTINGS, &words)
        };
        let ((outcomes, missing), (same, zero)) = (with(NO), with(0));
        assert_eq!(outcomes, same);
        let counts = |pairs: &[Pair]| pairs.iter().map(|pair| pair.count).sum::<u32>();
        assert_eq!(counts(&missing) + 1, counts(&zero));
        let rest = |pairs: &[Pair]| pairs.iter().map(|pair| (pair.id, pair.week, pair.sum)).collect::<Vec<_>>();
        assert_eq!(rest(&missing), rest(&zero));
    }
}

/// The days and readings of lines that do not belong change nothing.
#[test]
fn only_lines_that_belong_add_to_a_pair() {
    let words = example();
    let pairs = answered(&log_of(&LOG), &SETTINGS, &words).1;
    for at in [1, 2, 3] {
        for (day, reading) in [(0, 0), (6, 45), (7, 1), (7, NO), (65_535, 0xFFFE)] {
            let mut lines = LOG;
            (lines[at].0, lines[at].1) = (day, reading);
            assert_eq!(answered(&log_of(&lines), &SETTINGS, &words).1, pairs);
        }
    }
}

/// What is wrong, the settings, whether the index is spoilt, and the outcomes of the example's log.
#[test]
fn bad_settings_and_indexes_refuse_each_line() {
    let good = example();
    let mut spoilt = good.clone();
    spoilt[0] += 1;
    let of = |measure, p, q, allowance| Settings { measure, p, q, allowance };
    let vectors: [(&str, Settings, &[u32], [u8; 6]); 9] = [
        ("measure 0", of(0, 1, 2, 1000), &good, [4, 4, 4, 1, 4, 4]),
        ("measure 5 and p 0", of(5, 0, 2, 1000), &good, [4, 4, 4, 1, 4, 4]),
        ("p 0", of(1, 0, 2, 1000), &good, [5, 5, 5, 1, 5, 5]),
        ("p above q", of(1, 2, 1, 1000), &good, [5, 5, 5, 1, 5, 5]),
        ("q 1001", of(1, 1, 1001, 1000), &good, [5, 5, 5, 1, 5, 5]),
        ("threshold and index", of(1, 2, 1, 1000), &spoilt, [5, 5, 5, 1, 5, 5]),
        ("index", SETTINGS, &spoilt, [6, 6, 6, 1, 6, 6]),
        ("no words", SETTINGS, &[], [6, 6, 6, 1, 6, 6]),
        ("index and allowance", of(1, 1, 2, 0), &spoilt, [6, 6, 6, 1, 6, 6]),
    ];
    for (what, settings, words, numbers) in vectors {
        let (outcomes, pairs) = answered(&log_of(&LOG), &settings, words);
        assert_eq!(outcomes, numbers.map(|number| (4, u32::from(number))), "{what}");
        assert!(pairs.is_empty(), "{what}");
    }
}

/// Every refusal of a typed name, in its place among good ones.
#[test]
fn a_refused_name_is_refused_with_its_number() {
    let words = example();
    let long = [b'A'; 255];
    let vectors: [(&[u8], u32); 7] =
        [(b"", 1), (&long[..201], 2), (&long, 2), (b"A\0", 3), (b"A\t", 12), (b"\x7f", 12), (b"A\t\0", 3)];
    for (name, number) in vectors {
        let log = log_of(&[(0, 1, b"AB"), (0, 2, name), (0, 4, b"AB")]);
        let (outcomes, pairs) = answered(&log, &SETTINGS, &words);
        assert_eq!(outcomes, [(1, 20), (4, number), (1, 20)]);
        assert_eq!(pairs, [pair(20, 0, 5, 2)]);
    }
}

/// Each line has the whole allowance. By Dice 1/1 the one signature of AB has one posting, and three tests follow: 4.
#[test]
fn each_line_has_the_whole_allowance() {
    let words = example();
    let log = log_of(&[(0, 1, b"AB"), (0, 2, b"AB"), (0, 4, b"AB")]);
    for (allowance, outcome) in [(4, (1, 20)), (3, (4, 7))] {
        let settings = Settings { measure: 1, p: 1, q: 1, allowance };
        assert_eq!(answered(&log, &settings, &words).0, [outcome; 3], "{allowance}");
    }
}

/// 256 names are listed in the room of a line's search.
#[test]
fn all_256_names_are_ambiguous() {
    let words = index(&["A"; 256]);
    assert_eq!(answered(&log_of(&[(0, 1, b"A")]), &SETTINGS, &words), (vec![(3, 0)], vec![]));
}

/// What is wrong with a log, the log, the number and the line. Rooms are 0: 8 is judged last.
fn logs_refused() -> Vec<(&'static str, Vec<u8>, u8, usize)> {
    let line = log_line(0, 1, b"AB");
    let many = |count: usize| line.repeat(count);
    let with = |parts: &[&[u8]]| parts.concat();
    vec![
        ("an empty line", b"\n".to_vec(), 11, 1),
        ("a line feed missing", line[..line.len() - 1].to_vec(), 11, 1),
        ("a second line's missing", with(&[&line, &line[..5]]), 11, 2),
        ("a carriage return", with(&[&line, b"4C00000001024142\r\n"]), 11, 2),
        ("a lower-case digit", with(&[&line, b"4c00000001024142\n", &line]), 11, 2),
        ("a 4E line", name_line(10, b"AB"), 11, 1),
        ("a length that disagrees", with(&[&line, b"4C00000001034142\n"]), 11, 2),
        ("the first of two", with(&[&line, b"\n", &line, b"4C\n"]), 11, 2),
        ("line 1,025", many(1025), 10, 1025),
        ("line 1,025 and more", many(1030), 10, 1025),
        ("line 1,025 malformed", with(&[&many(1024), b"\n"]), 10, 1025),
        ("line 1,025 without a line feed", with(&[&many(1024), b"4"]), 10, 1025),
        ("line 1,026 malformed", with(&[&many(1025), b"\n"]), 10, 1025),
        ("line 1,024 malformed", with(&[&many(1023), b"\n"]), 11, 1024),
        ("line 1,024 malformed before another", with(&[&many(1023), b"\n", &line]), 11, 1024),
        ("line 1 malformed before 1,025 others", with(&[b"\n", &many(1025)]), 11, 1),
        ("more lines than room", many(1), 8, 0),
        ("1,024 lines", many(1024), 8, 0),
    ]
}

#[test]
fn refusals_of_the_whole() {
    let words = example();
    for (what, log, number, line) in logs_refused() {
        for room in [0, 1, 2, 3] {
            // One line with room for it is answered.
            if number == 8 && room > 0 && log.len() < 20 {
                continue;
            }
            let (answer, outcomes, pairs) = imported(&log, &SETTINGS, &words, room, room);
            assert_eq!(answer, refused(number, line), "{what}, room {room}");
            assert_eq!((outcomes, pairs), (Outcomes::lent(room, LENT), Pairs::lent(room, LENT)), "{what}, room {room}");
        }
    }
}

/// The example has 6 lines and 2 pairs: with less room for either it is 8, and nothing is written.
#[test]
fn rooms_that_just_fit() {
    let (words, log) = (example(), log_of(&LOG));
    for lines in [0, 1, 5, 6, 7, 20] {
        for of_weeks in [0, 1, 2, 3, 20] {
            let (answer, outcomes, pairs) = imported(&log, &SETTINGS, &words, lines, of_weeks);
            if lines < 6 || of_weeks < 2 {
                assert_eq!(answer, refused(8, 0));
                assert_eq!((outcomes, pairs), (Outcomes::lent(lines, LENT), Pairs::lent(of_weeks, LENT)));
                continue;
            }
            assert_eq!(answer, Imported { number: 0, line: 0, lines: 6, pairs: 2 });
            assert_eq!(outcomes.cases[..6], [1, 3, 2, 4, 1, 1]);
            assert_eq!(outcomes.values[..6], [20, 0, 0, 1, 20, 20]);
            assert_eq!((&pairs.ids[..2], &pairs.weeks[..2]), (&[20, 20][..], &[0, 1][..]));
            assert_eq!((&pairs.sums[..2], &pairs.counts[..2]), (&[45, 0][..], &[1, 1][..]));
            let behind = [&outcomes.cases[6..], &outcomes.values[6..]].concat();
            assert!(behind.iter().all(|place| *place == LENT));
            let behind = [&pairs.ids[2..], &pairs.weeks[2..], &pairs.sums[2..], &pairs.counts[2..]].concat();
            assert!(behind.iter().all(|place| *place == LENT));
        }
    }
}

/// Room is the shortest of the columns.
#[test]
fn the_shortest_column_decides() {
    let (words, log) = (example(), log_of(&LOG));
    for short in 0..6 {
        let (mut outcomes, mut pairs) = (Outcomes::lent(6, LENT), Pairs::lent(2, LENT));
        let column = match short {
            0 => &mut outcomes.cases,
            1 => &mut outcomes.values,
            2 => &mut pairs.ids,
            3 => &mut pairs.weeks,
            4 => &mut pairs.sums,
            _ => &mut pairs.counts,
        };
        column.pop();
        let before = (outcomes.clone(), pairs.clone());
        assert_eq!(import(&log, &SETTINGS, &words, &mut outcomes, &mut pairs), refused(8, 0));
        assert_eq!((outcomes, pairs), before);
    }
}

#[test]
fn an_empty_log_is_answered() {
    for words in [&example()[..], &[], &[9, 9, 9]] {
        for settings in [SETTINGS, Settings { measure: 0, p: 0, q: 0, allowance: 0 }] {
            for room in [0, 2] {
                let (answer, outcomes, pairs) = imported(b"", &settings, words, room, room);
                assert_eq!(answer, Imported { number: 0, line: 0, lines: 0, pairs: 0 });
                assert_eq!((outcomes, pairs), (Outcomes::lent(room, LENT), Pairs::lent(room, LENT)));
            }
        }
    }
}

/// Any order of the lines gives the same pairs, and each line its own outcome.
#[test]
fn any_order_gives_the_same_pairs() {
    for at in 0..300 {
        let mut random = Random::of(8, 1, at);
        let register = registers::small(&mut random);
        let words = second::build::words_of_names(&register);
        let known: Vec<Vec<u8>> = register.iter().map(|name| name.name.clone()).collect();
        let (settings, name) = logs::settings(&mut random, &words, &known);
        let mut lines = logs::log(&mut random, &[known, vec![name]].concat(), 12);
        let (outcomes, pairs) = answered(&lines.concat(), &settings, &words);
        let mut of_lines: Vec<(Vec<u8>, (u32, u32))> = lines.iter().cloned().zip(outcomes).collect();
        for _ in 0..3 {
            let with = random.below(lines.len());
            let other = random.below(lines.len());
            lines.swap(with, other);
            of_lines.swap(with, other);
        }
        let (others, same) = answered(&lines.concat(), &settings, &words);
        assert_eq!(same, pairs);
        assert_eq!(others, of_lines.iter().map(|(_, outcome)| *outcome).collect::<Vec<_>>());
        assert!(pairs.windows(2).all(|two| (two[0].id, two[0].week) < (two[1].id, two[1].week)));
    }
}

/// By definition: a line belongs to the one name of the index that is similar, is unresolved where none is, ambiguous where
/// several are; a pair stands for an id and week exactly if a line belongs there.
#[test]
fn outcomes_and_pairs_by_definition() {
    let (mut seen, mut there) = ([0; 4], 0);
    for at in 0..600 {
        let mut random = Random::of(9, 2, at);
        let known = second::generate::names::fresh(&mut random);
        let words = words::whole(&mut random, &known);
        let names = features_of_index(&good_index(&words).unwrap());
        let (settings, name) = logs::settings(&mut random, &words, std::slice::from_ref(&known));
        let settings = Settings { allowance: 16_896, ..settings };
        let log = logs::log(&mut random, &[known, name], 8).concat();
        let (outcomes, pairs) = answered(&log, &settings, &words);
        let lines = log_lines(&log).unwrap();
        let mut belong = Vec::new();
        for (line, given) in lines.iter().zip(outcomes) {
            let wanted: BTreeSet<u32> = features(&line.name).into_iter().collect();
            let asked = Measure::of(settings.measure).and_then(|m| Ok((m, Threshold::of(settings.p, settings.q)?)));
            let expected = match asked {
                Ok((measure, threshold)) if !wanted.is_empty() => {
                    match &listed(&wanted, &names, measure, threshold)[..] {
                        [] => Outcome::Unresolved,
                        [row] => Outcome::Belongs(row.id),
                        _ => Outcome::Ambiguous,
                    }
                }
                _ => outcome_of(&words, &settings, &line.name),
            };
            assert_eq!(given, expected.numbers());
            seen[given.0 as usize - 1] += 1;
            if let Outcome::Belongs(id) = expected {
                belong.push((id, week_of(line.day), line.reading));
            }
        }
        let keys: BTreeSet<(u32, u32)> = belong.iter().map(|(id, week, _)| (*id, *week)).collect();
        assert!(keys.iter().copied().eq(pairs.iter().map(|pair| (pair.id, pair.week))));
        for pair in &pairs {
            let (mut sum, mut count) = (0, 0);
            for (id, week, reading) in &belong {
                if let (true, Some(reading)) = ((*id, *week) == (pair.id, pair.week), reading) {
                    sum += reading;
                    count += 1;
                }
            }
            assert_eq!((pair.sum, pair.count), (sum, count));
        }
        there += pairs.len();
    }
    assert!(seen.iter().all(|times| *times > 200) && there > 200, "{seen:?} outcomes, {there} pairs");
}

/// An allowance below a line's touches refuses that line and no other.
#[test]
fn an_allowance_refuses_the_lines_that_need_more() {
    let words = example();
    let index = good_index(&words).unwrap();
    let (measure, threshold) = (Measure::of(1).unwrap(), Threshold::of(1, 2).unwrap());
    let touches = |name: &[u8]| search_sizes(&index, &features(name), measure, threshold).0;
    let names: [&[u8]; 4] = [b"AB", b"LANE", b"LANES", b"ZZ"];
    for allowance in 0..=30 {
        let settings = Settings { allowance, ..SETTINGS };
        for name in names {
            let query = Query { measure: 1, p: 1, q: 2, allowance, name: name.to_vec() };
            assert!(second::search::judged(&words, &query).is_ok());
            let refused = outcome_of(&words, &settings, name) == Outcome::Refused(7);
            assert_eq!(refused, touches(name) > allowance);
        }
    }
}
