//! The refusals, each by itself and then in their order.

mod common;

use common::{index, name_line, query, register, row, LENT, LISTING};
use second::build::build;
use second::features::{features, judge};
use second::index::list_for;
use second::refusal::number_of;
use second::search::search;

/// What is wrong with a name, the name, its number.
fn names() -> Vec<(&'static str, Vec<u8>, u8)> {
    let mut long_with_zero = vec![b'A'; 201];
    long_with_zero[200] = 0;
    vec![
        ("empty", b"".to_vec(), 1),
        ("201 bytes", vec![b'A'; 201], 2),
        ("202 bytes", vec![b'A'; 202], 2),
        ("255 bytes", vec![b'A'; 255], 2),
        ("201 bytes and a 0 byte", long_with_zero, 2),
        ("nothing but a 0 byte", vec![0], 3),
        ("a 0 byte first", b"\0LANE".to_vec(), 3),
        ("a 0 byte last", b"LANE\0".to_vec(), 3),
        ("200 bytes, one of them 0", [&[b'A'; 199][..], &[0]].concat(), 3),
        ("nothing", b"LANE".to_vec(), 0),
        ("nothing, 64 bytes", vec![b'A'; 64], 0),
        ("nothing, 65 bytes", vec![b'A'; 65], 0),
        ("nothing, 200 bytes", vec![b'A'; 200], 0),
        ("a tab", b"LA\tNE".to_vec(), 12),
        ("a delete code", b"LANE\x7f".to_vec(), 12),
        ("nothing but byte 1", vec![1], 12),
        ("byte 31 first", b"\x1fLANE".to_vec(), 12),
        ("200 bytes, one of them a line feed", [&[b'A'; 199][..], b"\n"].concat(), 12),
        ("a tab before a 0 byte", b"LA\tNE\0".to_vec(), 3),
        ("201 bytes and a tab", [&[b'A'; 200][..], b"\t"].concat(), 2),
        ("nothing, bytes 32 and 126", b" ~".to_vec(), 0),
        ("nothing, bytes 128 and 255", vec![128, 255], 0),
    ]
}

#[test]
fn names_one_by_one() {
    for (what, name, number) in names() {
        assert_eq!(number_of(judge(&name)), number, "{what}");
        assert_eq!(features(&name).len(), if number == 0 { name.len() + 2 } else { 0 }, "{what}");
    }
}

#[test]
fn searches_one_by_one() {
    let words = index(&LISTING);
    let mut spoilt = words.clone();
    spoilt[0] += 1;
    // What is wrong, the words, the query, the rows lent, the number, the touches.
    let vectors = [
        ("a measure of 0", &words, query(0, 8, 13, 15, b"LANE"), 3, 4, 0),
        ("a measure of 5", &words, query(5, 8, 13, 15, b"LANE"), 3, 4, 0),
        ("p is 0", &words, query(1, 0, 13, 15, b"LANE"), 3, 5, 0),
        ("p above q", &words, query(1, 14, 13, 15, b"LANE"), 3, 5, 0),
        ("q is 1001", &words, query(1, 8, 1001, 15, b"LANE"), 3, 5, 0),
        ("the index is not good", &spoilt, query(1, 8, 13, 15, b"LANE"), 3, 6, 0),
        ("one touch too few", &words, query(1, 8, 13, 14, b"LANE"), 3, 7, 14),
        ("no touch allowed", &words, query(1, 8, 13, 0, b"LANE"), 3, 7, 0),
        ("one row too few", &words, query(1, 8, 13, 15, b"LANE"), 2, 8, 15),
        ("no row lent", &words, query(1, 8, 13, 4_294_967_295, b"LANE"), 0, 8, 15),
        ("nothing", &words, query(1, 8, 13, 15, b"LANE"), 3, 0, 15),
    ];
    for (what, words, query, room, number, touches) in vectors {
        let mut rows = vec![LENT; room];
        let answer = search(words, &query, &mut rows);
        assert_eq!((answer.number, answer.touches), (number, touches), "{what}");
        if number == 0 {
            assert_eq!((answer.rows, answer.p, answer.q), (3, 8, 13), "{what}");
            assert_eq!(rows, [row(10, 6, 6, 4), row(11, 4, 7, 4), row(12, 4, 7, 4)]);
        } else {
            assert_eq!((answer.rows, answer.p, answer.q), (0, 0, 0), "{what}");
            assert!(rows.iter().all(|row| *row == LENT), "{what}");
        }
    }
}

/// Every set of faults at once: the name's number is given, and otherwise the lowest, with the touches that go with it.
#[test]
fn a_search_judges_in_its_order() {
    let words = index(&LISTING);
    let mut spoilt = words.clone();
    spoilt[0] += 1;
    for (what, name, number) in names() {
        // A good name here is LANE, whose search costs 15 touches for 3 rows.
        let name = if number == 0 { b"LANE".to_vec() } else { name };
        for faults in 0..32 {
            let fault = |at: u32| faults >> at & 1 == 1;
            let words = if fault(2) { &spoilt } else { &words };
            let (measure, p) = (if fault(0) { 9 } else { 1 }, if fault(1) { 0 } else { 8 });
            let (allowance, room) = (if fault(3) { 14 } else { 15 }, if fault(4) { 2 } else { 3 });
            let first = (0..5).find(|at| fault(*at)).map_or(0, |at| at as u8 + 4);
            let expected = if number == 0 { first } else { number };
            let touches = match expected {
                0 | 8 => 15,
                7 => 14,
                _ => 0,
            };
            let answer = search(words, &query(measure, p, 13, allowance, &name), &mut vec![LENT; room]);
            assert_eq!((answer.number, answer.touches), (expected, touches), "{what}, faults {faults:05b}");
        }
    }
}

/// What is wrong with a register, its bytes, the number and the line.
fn registers() -> Vec<(&'static str, Vec<u8>, u8, usize)> {
    let lane = name_line(10, b"LANE");
    let lanes = name_line(11, b"LANES");
    let whole = [&lane[..], &lanes].concat();
    let after = |line: &[u8]| [&whole[..], line].concat();
    vec![
        ("an empty line", after(b"\n"), 11, 3),
        ("an empty line first", [b"\n", &whole[..]].concat(), 11, 1),
        ("nothing but an empty line", b"\n".to_vec(), 11, 1),
        ("a last line without a line feed", whole[..whole.len() - 1].to_vec(), 11, 2),
        ("one byte after the last line feed", after(b"4"), 11, 3),
        ("a carriage return", after(b"4E000C0141\r\n"), 11, 3),
        ("a query among the names", [&lane[..], b"51010001000100000000014C\n", &lanes].concat(), 11, 2),
        ("a row frame", after(b"52000A060604\n"), 11, 3),
        ("an empty name", after(&name_line(12, b"")), 1, 3),
        ("a name of 201 bytes", after(&name_line(12, &[b'A'; 201])), 2, 3),
        ("a name of 255 bytes", after(&name_line(12, &[b'A'; 255])), 2, 3),
        ("a 0 byte", after(&name_line(12, b"A\0")), 3, 3),
        ("a tab in a name", after(&name_line(12, b"A\t")), 12, 3),
        ("an id equal to the one before", after(&name_line(11, b"A")), 9, 3),
        ("an id below the one before", after(&name_line(9, b"A")), 9, 3),
        ("an id that stood earlier", after(&name_line(10, b"A")), 9, 3),
        ("id 0 after others", after(&name_line(0, b"A")), 9, 3),
        ("the first of two bad lines", [&name_line(10, b"")[..], &lanes, b"\n"].concat(), 1, 1),
        ("a bad line before an unreadable one", after(b"4E000C0100\n\n"), 3, 3),
        ("nothing: no bytes", b"".to_vec(), 0, 0),
        ("nothing: id 0 first", name_line(0, b"A"), 0, 0),
        ("nothing: id 65,535", [name_line(65_534, b"A"), name_line(65_535, b"A")].concat(), 0, 0),
        ("nothing: 200 bytes", name_line(1, &[b'A'; 200]), 0, 0),
    ]
}

#[test]
fn registers_one_by_one() {
    for (what, bytes, number, line) in registers() {
        let mut words = vec![5; 1100];
        let built = build(&bytes, &mut words);
        assert_eq!((built.number, built.line), (number, line), "{what}");
        assert_eq!(words.iter().all(|word| *word == 4_294_967_295), number != 0, "{what}");
    }
}

/// The faults of one line, all together with others: 11, 1, 2, 3, 12, 9, 10 in that order.
#[test]
fn a_line_is_judged_in_its_order() {
    let full: Vec<u8> = (0..256).flat_map(|id| name_line(2 * id, b"A")).collect();
    let two: Vec<u8> = (0..2).flat_map(|id| name_line(2 * id, b"A")).collect();
    for (before, lines) in [(&two, 2), (&full, 256)] {
        let last = 2 * (lines as u16 - 1);
        for (what, name, number) in names() {
            for (id, behind) in [(last + 1, false), (last, true), (last - 1, true), (0, true)] {
                for broken in [false, true] {
                    let mut line = name_line(id, &name);
                    if broken {
                        line.insert(0, b' ');
                    }
                    let expected = match (broken, number, behind, lines) {
                        (true, ..) => 11,
                        (_, 1..=3 | 12, ..) => number,
                        (_, _, true, _) => 9,
                        (_, _, _, 256) => 10,
                        _ => 0,
                    };
                    let built = build(&[&before[..], &line].concat(), &mut vec![0; 4000]);
                    let at = if expected == 0 { 0 } else { lines + 1 };
                    assert_eq!((built.number, built.line), (expected, at), "{what}, id {id} after {lines} names");
                }
            }
        }
    }
}

#[test]
fn a_257th_name_is_one_too_many() {
    for (count, number, line) in [(255, 0, 0), (256, 0, 0), (257, 10, 257), (300, 10, 257)] {
        let bytes: Vec<u8> = (0..count).flat_map(|id| name_line(id, b"A")).collect();
        let mut words = vec![5; 2000];
        let built = build(&bytes, &mut words);
        assert_eq!((built.number, built.line), (number, line), "{count} names");
        assert_eq!(words[0], if number == 0 { u32::from(count) } else { 4_294_967_295 });
    }
}

#[test]
fn a_build_needs_its_total_and_says_so_last() {
    // A takes 3 words, 1 name, 3 rows of 4, 3 postings.
    for (room, number) in [(19, 0), (20, 0), (18, 8), (3, 8), (0, 8)] {
        let mut words = vec![5; room];
        let built = build(&register(&["A"]), &mut words);
        assert_eq!((built.number, built.line), (number, 0), "{room} words");
        let blank = words.iter().filter(|word| **word == 4_294_967_295).count();
        assert_eq!(blank, if number == 0 { room - 19 } else { room });
    }
    // Even nothing needs three words.
    for (room, number) in [(0, 8), (1, 8), (2, 8), (3, 0), (4, 0)] {
        let mut words = vec![5; room];
        assert_eq!(build(b"", &mut words).number, number, "{room} words");
    }
    // A bad line is judged before the total.
    let built = build(&name_line(1, b""), &mut []);
    assert_eq!((built.number, built.line), (1, 1));
}

#[test]
fn a_refused_build_is_refused_by_every_search() {
    for (what, bytes, number, _) in registers() {
        let mut words = vec![5; 1100];
        build(&bytes, &mut words);
        let answer = search(&words, &query(1, 1, 1, 1000, b"LANE"), &mut [LENT; 3]);
        assert_eq!(answer.number, if number == 0 { 0 } else { 6 }, "{what}");
        assert!(number == 0 || list_for(&words, 6, 0x0000_4C01_u32).is_empty());
    }
}
