//! Names that come and go: the rule's example, the orders of refusals, and laws of runs.

mod common;

use std::collections::{BTreeMap, BTreeSet};

use common::name_line;
use second::build::{build, words_of, words_of_names};
use second::features::features;
use second::generate::{input, registers, words};
use second::good::good;
use second::index::{cut, good_index, header};
use second::listed::features_of_index;
use second::protocol::{add_answer, calls_answer, Kind};
use second::random::Random;
use second::upkeep::{add, live_names, run, withdraw, Call};

const BLANK: u32 = 4_294_967_295;

/// A is 0 0 A, 0 A 0, A 0 0.
const A: [u32; 3] = [16_641, 4_259_841, 1_090_519_041];

/// A under 5 and under 9, the example of the rule.
const BOTH: [u32; 23] = [
    2, 3, 6, //
    1283, 2307, //
    3, A[0], 0, 2, //
    3, A[1], 2, 2, //
    3, A[2], 4, 2, //
    5, 9, 5, 9, 5, 9,
];

/// A under 9 alone.
const NINE: [u32; 19] = [
    1, 3, 3,    //
    2307, //
    3, A[0], 0, 1, //
    3, A[1], 1, 1, //
    3, A[2], 2, 1, //
    9, 9, 9,
];

/// Words at the start of a slice, and others up to its length.
fn lent(words: &[u32], length: usize, beyond: u32) -> Vec<u32> {
    let mut lent = vec![beyond; length];
    lent[..words.len()].copy_from_slice(words);
    lent
}

#[test]
fn the_example_of_the_rule() {
    for beyond in [BLANK, 0, 7] {
        let mut words = lent(&BOTH, 25, beyond);
        assert_eq!(withdraw(&mut words, 5), 0);
        assert_eq!(words, lent(&NINE, 25, BLANK));
        assert_eq!(add(&mut words, 5, b"A"), 0);
        assert_eq!(words, lent(&BOTH, 25, BLANK));
        assert_eq!((withdraw(&mut words, 5), withdraw(&mut words, 9)), (0, 0));
        assert_eq!(words, lent(&[0, 0, 0], 25, BLANK));
        for (length, number) in [(3, 8), (18, 8), (19, 0), (20, 0)] {
            let mut words = lent(&[0, 0, 0], length, beyond);
            let before = words.clone();
            assert_eq!(add(&mut words, 9, b"A"), number, "{length} words");
            assert_eq!(words, if number == 0 { lent(&NINE, length, BLANK) } else { before });
        }
    }
}

/// What is wrong with a name, the name, its number.
fn names() -> Vec<(&'static str, Vec<u8>, u8)> {
    vec![
        ("empty", b"".to_vec(), 1),
        ("201 bytes", vec![b'A'; 201], 2),
        ("255 bytes", vec![b'A'; 255], 2),
        ("201 bytes, one of them 0", [&[b'A'; 200][..], b"\0"].concat(), 2),
        ("a 0 byte", b"A\0".to_vec(), 3),
        ("a tab before a 0 byte", b"\t\0".to_vec(), 3),
        ("a tab", b"A\t".to_vec(), 12),
        ("a delete code", b"\x7f".to_vec(), 12),
        ("nothing", b"A".to_vec(), 0),
        ("nothing, 200 bytes", vec![b'B'; 200], 0),
        ("nothing, bytes 32, 126, 128 and 255", vec![32, 126, 128, 255], 0),
    ]
}

/// An index of so many names A under 0, 2, 4, ..
fn crowd(count: u32) -> Vec<u32> {
    words_of(&(0..count).map(|at| (2 * at, A.to_vec())).collect::<Vec<_>>())
}

/// Every set of faults at once: 6, then the name's number, then 9, 10 and 8.
#[test]
fn an_add_judges_in_its_order() {
    for spoilt in [false, true] {
        for (what, name, number) in names() {
            for (count, live, room) in
                (0..8).map(|faults| (if faults & 1 == 1 { 256 } else { 255 }, faults & 2 == 2, faults & 4 == 0))
            {
                let mut words = crowd(count);
                words.extend(vec![7; if room { 1100 } else { 0 }]);
                words[2] += u32::from(spoilt);
                let before = words.clone();
                let expected = match (spoilt, number, live, count, room) {
                    (true, ..) => 6,
                    (_, 1.., ..) => number,
                    (_, _, true, ..) => 9,
                    (_, _, _, 256, _) => 10,
                    (.., false) => 8,
                    _ => 0,
                };
                let id = if live { 2 * count - 2 } else { 2 * count - 3 };
                assert_eq!(add(&mut words, id, &name), expected, "{what}, {count} names, id {id}, room {room}");
                if expected == 0 {
                    assert_eq!((words[0], words.last()), (256, Some(&BLANK)), "{what}");
                } else {
                    assert_eq!(words, before, "{what}");
                }
            }
        }
    }
}

#[test]
fn a_withdrawal_judges_in_its_order() {
    for (id, live) in
        [(0, false), (4, false), (5, true), (6, false), (8, false), (9, true), (10, false), (65_535, false)]
    {
        for spoilt in [false, true] {
            for length in [23, 24, 40] {
                let mut words = lent(&BOTH, length, 7);
                words[0] += u32::from(spoilt);
                let before = words.clone();
                let number = withdraw(&mut words, id);
                assert_eq!(number, if spoilt { 6 } else { u8::from(!live) * 13 }, "id {id}");
                assert_eq!(words == before, number != 0, "id {id}");
            }
        }
    }
    for length in [0, 1, 2] {
        let mut words = vec![0; length];
        assert_eq!((withdraw(&mut words, 0), add(&mut words, 0, b"A")), (6, 6));
        assert_eq!(words, vec![0; length]);
    }
    assert_eq!(withdraw(&mut [0, 0, 0], 0), 13);
    for length in [3, 19, 40] {
        let mut words = vec![BLANK; length];
        assert_eq!((withdraw(&mut words, 0), add(&mut words, 0, b"")), (6, 6));
        assert_eq!(words, vec![BLANK; length]);
    }
}

/// Ids from the least to the greatest, each way round.
#[test]
fn the_order_of_the_adds_does_not_show() {
    let register = [name_line(0, b"AB"), name_line(1, b"A"), name_line(300, b"AC"), name_line(65_535, b"AB")].concat();
    let mut built = vec![0; 80];
    assert_eq!(build(&register, &mut built).number, 0);
    let all: [(u32, &[u8]); 4] = [(0, b"AB"), (1, b"A"), (300, b"AC"), (65_535, b"AB")];
    for order in [[0, 1, 2, 3], [3, 2, 1, 0], [2, 0, 3, 1], [1, 3, 0, 2]] {
        let mut words = vec![0; 80];
        build(b"", &mut words);
        for (at, which) in order.into_iter().enumerate() {
            assert_eq!(add(&mut words, all[which].0, all[which].1), 0);
            assert_eq!(words[0] as usize, at + 1);
        }
        assert_eq!(words, built, "{order:?}");
        for which in order {
            assert_eq!(withdraw(&mut words, all[which].0), 0);
        }
        assert_eq!(words, lent(&[0, 0, 0], 80, BLANK));
    }
}

/// A row goes with its last posting, and a list that others are in stays; a size has rows of its own.
#[test]
fn rows_that_are_shared_and_rows_that_are_not() {
    // AB: 0 0 A, 0 A B, A B 0, B 0 0; AC: 0 0 A, 0 A C, A C 0, C 0 0. A has 0 0 A too, at another size.
    let (ab, ac) = (features(b"AB"), features(b"AC"));
    assert_eq!(ab[0], ac[0]);
    let mut words = vec![0; 100];
    build(b"", &mut words);
    let heads = [
        (Call::Add { id: 7, name: b"AB".to_vec() }, [1, 4, 4]),
        (Call::Add { id: 3, name: b"AC".to_vec() }, [2, 7, 8]),
        (Call::Add { id: 5, name: b"A".to_vec() }, [3, 10, 11]),
        (Call::Add { id: 4, name: b"AC".to_vec() }, [4, 10, 15]),
        (Call::Withdraw { id: 3 }, [3, 10, 11]),
        (Call::Withdraw { id: 4 }, [2, 7, 7]),
        (Call::Withdraw { id: 5 }, [1, 4, 4]),
        (Call::Withdraw { id: 7 }, [0, 0, 0]),
    ];
    for (call, head) in heads {
        assert_eq!(run(&mut words, std::slice::from_ref(&call)), [0]);
        assert_eq!(words[..3], head, "{call:?}");
        assert!(good(&words));
    }
}

/// A cheaper reading of what is live: the names themselves, by id.
type Names = BTreeMap<u32, Vec<u8>>;

/// What a call does to names, where there is room: its number without 6 and 8.
fn called(names: &mut Names, call: &Call) -> u8 {
    match call {
        Call::Add { id, name } => {
            let bad = name.iter().any(|byte| *byte < 32 || *byte == 127);
            match (name.len(), name.contains(&0), bad) {
                (0, ..) => 1,
                (201.., ..) => 2,
                (_, true, _) => 3,
                (_, _, true) => 12,
                _ if names.contains_key(id) => 9,
                _ if names.len() == 256 => 10,
                _ => {
                    names.insert(*id, name.clone());
                    0
                }
            }
        }
        Call::Withdraw { id } => names.remove(id).map_or(13, |_| 0),
    }
}

/// A build of the names into so many words.
fn built(names: &Names, length: usize) -> (u8, Vec<u32>) {
    let mut words = vec![0; length];
    let register: Vec<u8> = names.iter().flat_map(|(id, name)| name_line(*id as u16, name)).collect();
    let number = build(&register, &mut words).number;
    (number, words)
}

/// After each call of generated runs the words are those of a build of the names that are live, in as many words; a
/// refused call changes none; 8 is given exactly where that build is refused with it; P is the sizes added minus those
/// withdrawn.
#[test]
fn runs_keep_to_fresh_builds() {
    let (mut accepted, mut no_room) = (0, 0);
    for at in 0..400 {
        let line = input(Kind::Calls, 8, at);
        let parts = String::from_utf8(line.clone()).unwrap();
        let parts: Vec<&str> = parts.split_whitespace().collect();
        // The calls as the protocol reads them.
        let calls = std::cell::RefCell::new(Vec::new());
        let answer = calls_answer(&line, |words, read| {
            calls.replace(read.to_vec());
            run(words, read)
        });
        let calls = calls.into_inner();
        assert_eq!(calls.len(), parts.len() - 1);
        let length: usize = parts[0].parse().unwrap();
        let mut words = vec![0; length];
        let empty = build(b"", &mut words).number;
        let (mut names, mut postings, mut numbers) = (Names::new(), 0, Vec::new());
        for call in &calls {
            let before = words.clone();
            let number = run(&mut words, std::slice::from_ref(call))[0];
            numbers.push(number);
            let mut after = names.clone();
            let mut expected = called(&mut after, call);
            let (fits, fresh) = built(&after, length);
            if empty != 0 {
                expected = 6;
            } else if expected == 0 && fits == 8 {
                expected = 8;
                no_room += 1;
            }
            assert_eq!(number, expected, "{call:?} of run {at}");
            if number != 0 {
                assert_eq!(words, before, "{call:?} of run {at}");
                continue;
            }
            accepted += 1;
            assert_eq!(words, fresh, "{call:?} of run {at}");
            match call {
                Call::Add { name, .. } => postings += name.len() + 2,
                Call::Withdraw { id } => postings -= names[id].len() + 2,
            }
            names = after;
            assert_eq!(words[2] as usize, postings);
        }
        let whole: Vec<String> =
            numbers.iter().map(|number| u32::from(*number)).chain(words).map(|n| n.to_string()).collect();
        assert_eq!(String::from_utf8(answer.unwrap()).unwrap(), whole.join(" ") + "\n");
    }
    assert!(accepted > 2000 && no_room > 200, "{accepted} accepted, {no_room} without room");
}

/// On any good index, whatever its features: withdrawing what was added gives the words of before; every other name
/// stands for what it stood for.
#[test]
fn what_is_added_and_withdrawn_leaves_no_trace() {
    let mut added = 0;
    for at in 0..1000 {
        let mut random = Random::of(12, 0, at);
        let known = b"LANES";
        let whole = words::whole(&mut random, known);
        let total = whole.len();
        let before = lent(&whole, total + 400, 7);
        let tidy = lent(&whole, total + 400, BLANK);
        let live: BTreeMap<u32, BTreeSet<u32>> = features_of_index(&good_index(&whole).unwrap()).into_iter().collect();
        assert_eq!(live_names(&before).unwrap(), live);
        let id = random.below(65_536) as u32;
        let mut words = before.clone();
        match add(&mut words, id, known) {
            0 => {
                added += 1;
                let mut more = live.clone();
                more.insert(id, features(known).into_iter().collect());
                assert_eq!(live_names(&words).unwrap(), more);
                assert_eq!(withdraw(&mut words, id), 0);
                assert_eq!(words, tidy);
            }
            9 | 10 => assert_eq!(words, before),
            number => panic!("number {number}"),
        }
        let Some(id) = live.keys().copied().nth(random.below(live.len() + 1)) else { continue };
        let mut words = before.clone();
        assert_eq!(withdraw(&mut words, id), 0);
        let mut fewer = live.clone();
        fewer.remove(&id);
        assert_eq!(live_names(&words).unwrap(), fewer);
        assert_eq!(withdraw(&mut words, id), 13);
    }
    assert!(added > 800, "{added} added");
}

/// In the very words of a built index a name that was withdrawn has room to come back, and gives the words of before.
#[test]
fn what_is_withdrawn_and_added_leaves_no_trace() {
    for at in 0..300 {
        let mut random = Random::of(14, 0, at);
        let register = if random.once_in(10) { registers::even(&mut random) } else { registers::small(&mut random) };
        let names: Names = register.iter().map(|name| (name.id, name.name.clone())).collect();
        let whole = words_of_names(&register);
        for (id, name) in &names {
            let mut words = whole.clone();
            assert_eq!(withdraw(&mut words, *id), 0);
            let mut fewer = names.clone();
            fewer.remove(id);
            assert_eq!((0, words.clone()), built(&fewer, whole.len()));
            assert_eq!(add(&mut words, *id, name), 0);
            assert_eq!(words, whole);
        }
    }
}

/// After an accepted call the words beyond the total are all the same; words that are good stay good, others stay as
/// they are.
#[test]
fn generated_adds_leave_good_indexes() {
    for at in 0..600 {
        let line = input(Kind::Add, 9, at);
        let answer = String::from_utf8(add_answer(&line, add).unwrap()).unwrap();
        let answer: Vec<u32> = answer.split_whitespace().map(|word| word.parse().unwrap()).collect();
        let case = String::from_utf8(line).unwrap();
        let lent: Vec<u32> = case.split_whitespace().skip(2).map(|word| word.parse().unwrap()).collect();
        let (number, words) = (answer[0], &answer[1..]);
        assert_eq!(words.len(), lent.len());
        if number != 0 {
            assert_eq!(words, lent);
            assert_eq!(good(words), number != 6);
            continue;
        }
        assert!(good(words));
        let (n, d, p) = header(words).unwrap();
        assert!(words[(3 + n + 4 * d + p) as usize..].iter().all(|word| *word == BLANK));
        assert_eq!(n, lent[0] + 1);
        assert_eq!(cut(words).unwrap().postings.len(), p as usize);
    }
}

/// The most names, postings, rows and words: 256 names of 199 and 200 bytes, almost each feature with a row of its own.
#[test]
fn the_largest_index_takes_its_last_name() {
    let register = registers::wide(&mut Random::of(13, 0, 0), 256);
    let names: Vec<(u32, Vec<u32>)> = register.iter().map(|name| (name.id, features(&name.name))).collect();
    let whole = words_of(&names);
    let (last, name) = (register[100].id, &register[100].name);
    for (length, number) in [(258_819, 0), (whole.len(), 0), (whole.len() - 1, 8)] {
        let mut words = vec![7; length];
        let fewer = words_of(&names.iter().filter(|name| name.0 != last).cloned().collect::<Vec<_>>());
        words[..fewer.len()].copy_from_slice(&fewer);
        let before = words.clone();
        assert_eq!(add(&mut words, last, name), number, "{length} words");
        if number == 0 {
            assert_eq!(words, lent(&whole, length, BLANK));
            assert_eq!(withdraw(&mut words, last), 0);
            assert_eq!(words, lent(&fewer, length, BLANK));
        } else {
            assert_eq!(words, before);
        }
    }
}
