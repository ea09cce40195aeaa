//! The generator: what it makes is repeatable, and holds every case that comparisons need.

use std::collections::{BTreeMap, BTreeSet};

use second::build::{build, lines, register_names};
use second::faults::FAULTS;
use second::features::{control, features};
use second::frames::{
    read_end, read_import_end, read_import_refused, read_log, read_name, read_outcome, read_pair, read_query,
    read_refused, read_row,
};
use second::generate::lines::DAMAGES;
use second::generate::{input, words};
use second::good::{good, good_but, CONDITIONS};
use second::import::{import, log_line, log_lines, week_of, Outcomes, Pairs, Settings};
use second::import_faults::{IMPORTER_FAULTS, IMPORT_FAULTS};
use second::importer::{importer, settings_of, three_parts};
use second::index::{cut, good_index, list_for};
use second::listed::{features_of_index, similarity};
use second::lookup::{lookup, parts};
use second::many::search_many;
use second::many_faults::MANY_FAULTS;
use second::measures::{least_count, Measure, Threshold};
use second::protocol::{add_answer, calls_answer, import_answer, many_answer, withdraw_answer, Kind};
use second::random::Random;
use second::upkeep::{add, live_names, run, withdraw, words_of_live, Call, Live};
use second::upkeep_faults::{wrong_runs, ADD_FAULTS, WITHDRAW_FAULTS};

const SEED: u64 = 20;

#[test]
fn an_input_depends_on_seed_kind_and_number_alone() {
    for kind in Kind::ALL {
        let forward: Vec<Vec<u8>> = (0..40).map(|at| input(kind, SEED, at)).collect();
        let backward: Vec<Vec<u8>> = (0..40).rev().map(|at| input(kind, SEED, at)).collect();
        assert!(forward.iter().eq(backward.iter().rev()));
        let others: Vec<Vec<u8>> = (0..40).map(|at| input(kind, SEED + 1, at)).collect();
        assert_ne!(forward, others);
        assert!(forward.iter().collect::<BTreeSet<_>>().len() > 30);
    }
}

#[test]
fn splitmix64_gives_its_known_numbers() {
    // The first numbers of splitmix64 from 1234567, as its authors' reference gives them.
    let mut random = Random::from_state(1_234_567);
    let known: [u64; 3] = [6_457_827_717_110_365_317, 3_203_168_211_198_807_973, 9_817_491_932_198_370_423];
    assert_eq!([random.next(), random.next(), random.next()], known);
}

#[test]
fn every_input_follows_its_protocol() {
    for kind in Kind::ALL.into_iter().filter(|kind| kind.by_line()) {
        for at in 0..1500 {
            let line = input(kind, SEED, at);
            assert_eq!(line.iter().filter(|byte| **byte == b'\n').count(), 1);
            let answer = kind.answer(&line).unwrap_or_else(|why| panic!("{} {at}: {why}", kind.word()));
            assert_eq!(answer.iter().filter(|byte| **byte == b'\n').count(), 1, "{} {at}", kind.word());
        }
    }
}

/// The numbers at the head of the answers of a kind.
fn numbers(kind: Kind, count: u64) -> BTreeSet<String> {
    let first = |at| {
        let answer = String::from_utf8(kind.answer(&input(kind, SEED, at)).unwrap()).unwrap();
        answer.split_whitespace().next().unwrap_or("").to_string()
    };
    (0..count).map(first).collect()
}

#[test]
fn every_number_comes_up() {
    let set = |numbers: &[u8]| numbers.iter().map(u8::to_string).collect::<BTreeSet<String>>();
    assert_eq!(numbers(Kind::Features, 500), set(&[0, 1, 2, 3, 12]));
    assert_eq!(numbers(Kind::Likeness, 500), set(&[0, 4, 5]));
    assert_eq!(numbers(Kind::Good, 500), set(&[0, 1]));
    assert_eq!(numbers(Kind::Build, 3000), set(&[0, 1, 2, 3, 8, 9, 10, 11, 12]));
    assert_eq!(numbers(Kind::Search, 1500), set(&[0, 1, 2, 3, 4, 5, 6, 7, 8, 12]));
    assert_eq!(numbers(Kind::Frames, 1500), set(&[0, 2, 8, 11]));
    assert_eq!(numbers(Kind::Sweep, 1500), set(&[0, 1]));
    assert_eq!(numbers(Kind::Import, 1500), set(&[0, 8, 10, 11]));
    assert_eq!(numbers(Kind::LogFrames, 1500), set(&[0, 2, 8, 11]));
    assert_eq!(numbers(Kind::ImportFrames, 1500), set(&[0, 8, 11]));
    assert_eq!(numbers(Kind::Add, 1500), set(&[0, 1, 2, 3, 6, 8, 9, 10, 12]));
    assert_eq!(numbers(Kind::Withdraw, 1500), set(&[0, 6, 13]));
    assert_eq!(numbers(Kind::Many, 500), set(&[0, 8]));
}

/// Lists that are there, lists that are not, and features beyond 32 bits of which the low 32 have a list.
#[test]
fn lists_are_asked_for_beyond_32_bits() {
    let (mut found, mut missing, mut beyond) = (0, 0, 0);
    for at in 0..500 {
        let line = String::from_utf8(input(Kind::List, SEED, at)).unwrap();
        let numbers: Vec<u64> = line.split_whitespace().map(|word| word.parse().unwrap()).collect();
        let (size, feature) = (numbers[0] as u32, numbers[1]);
        let words: Vec<u32> = numbers[2..].iter().map(|word| u32::try_from(*word).unwrap()).collect();
        let listed = !list_for(&words, size, feature).is_empty();
        *if listed { &mut found } else { &mut missing } += 1;
        beyond += u32::from(!listed && !list_for(&words, size, feature as u32).is_empty());
    }
    assert!(found > 100 && missing > 100 && beyond > 20, "{found} found, {missing} missing, {beyond} beyond");
}

/// Every word of the index of a sweep is changed, and each in more than one way that is seen: a header word, a name, a
/// size, a place, a count and a posting make it not good; a feature may be another one.
#[test]
fn a_sweep_changes_every_word() {
    for index in 0..20 {
        let line = |at| String::from_utf8(input(Kind::Sweep, SEED, index * words::STRETCH + at)).unwrap();
        let read = |at| line(at).split_whitespace().map(|word| word.parse().unwrap()).collect::<Vec<u32>>();
        let length = read(0).len();
        assert!(8 * length <= words::STRETCH as usize);
        let whole = read(7 * length as u64);
        assert!(good(&whole));
        let (names, rows) = (whole[0] as usize, whole[1] as usize);
        let mut refused = vec![0; length];
        for at in 0..words::STRETCH {
            let changed = read(at);
            let places: Vec<usize> = (0..length).filter(|place| changed[*place] != whole[*place]).collect();
            assert!(places.is_empty() || places == [at as usize % length]);
            refused[at as usize % length] += usize::from(!good(&changed));
        }
        for (place, times) in refused.into_iter().enumerate() {
            let feature = place >= 3 + names && place < 3 + names + 4 * rows && (place - 3 - names) % 4 == 1;
            assert!(feature || times >= 2, "word {place} of {whole:?}");
        }
    }
}

#[test]
fn damage_makes_a_line_malformed() {
    type Reader = fn(&[u8]) -> u8;
    let whole: [(&[u8], Reader); 10] = [
        (b"4E000A044C414E45\n", |line| read_name(line, &mut [0; 255]).number),
        (b"51010008000D0000000F044C414E45\n", |line| read_query(line, &mut [0; 255]).number),
        (b"52000A060604\n", |line| read_row(line).number),
        (b"4500030000000F0008000D\n", |line| read_end(line).number),
        (b"58070000000E\n", |line| read_refused(line).number),
        (b"4C0007002D044C414E45\n", |line| read_log(line, &mut [0; 255]).number),
        (b"4F01000A\n", |line| read_outcome(line).number),
        (b"50000A0001000000870003\n", |line| read_pair(line).number),
        (b"5A00060002\n", |line| read_import_end(line).number),
        (b"59030B0002\n", |line| read_import_refused(line).number),
    ];
    for (line, read) in whole {
        assert_eq!(read(line), 0);
        for (what, damage) in DAMAGES {
            for at in 0..200 {
                let damaged = damage(&mut Random::of(SEED, 9, at), line);
                assert_eq!(read(&damaged), 11, "{what}: {}", damaged.escape_ascii());
            }
        }
    }
}

/// A line that is damaged already, and so may be short, is damaged once more.
#[test]
fn short_lines_are_damaged_too() {
    for line in [&b"4E000A044C414E45"[..], b"51010008000D0000000F044C414E45"] {
        for length in 3..line.len() {
            let short = [&line[..length], b"\n"].concat();
            for (what, damage) in DAMAGES {
                for at in 0..20 {
                    assert_ne!(damage(&mut Random::of(SEED, 9, at), &short), short, "{what}");
                }
            }
        }
    }
}

/// Whether these are the features of one name: a first gram, and after each gram but the last the one that goes on from it.
fn of_a_name(features: &BTreeSet<u32>) -> bool {
    let grams: Vec<[u8; 4]> = features.iter().map(|feature| feature.to_be_bytes()).collect();
    let first = grams.iter().filter(|gram| gram[..2] == [0, 0]).count();
    first == 1 && grams.iter().all(|gram| gram[1..3] == [0, 0] || grams.iter().any(|next| next[..2] == gram[1..3]))
}

/// Generated indexes hold names with control characters, and names without.
#[test]
fn indexes_hold_names_with_control_characters() {
    let mut counts = [0, 0];
    for at in 0..200 {
        let whole = words::whole(&mut Random::of(SEED, 9, at), b"LANES");
        let index = good_index(&whole).expect("a good index");
        for (_, features) in features_of_index(&index).iter().filter(|(_, features)| of_a_name(features)) {
            let mut bytes = features.iter().flat_map(|feature| feature.to_be_bytes()[..3].to_vec());
            counts[usize::from(bytes.any(|byte| byte != 0 && control(byte)))] += 1;
        }
    }
    assert!(counts[0] > 100 && counts[1] > 10, "{counts:?}");
}

/// A check of an index that leaves a condition out is found out by the generated words, for each condition but the
/// bound on postings, which follows from the others.
#[test]
fn generated_words_show_every_condition() {
    let mut left: BTreeSet<usize> = (0..CONDITIONS.len()).filter(|at| *at != 1).collect();
    for at in 0..6000 {
        let words = words::any(&mut Random::of(SEED, 10, at), b"LANE", 8);
        let right = good(&words);
        left.retain(|condition| good_but(&words, Some(*condition)) == right);
    }
    let missed: Vec<&str> = left.iter().map(|at| CONDITIONS[*at].0).collect();
    assert!(missed.is_empty(), "{missed:?}");
}

/// Generated words reach the limits on postings: the most of before names were longer, one more, the most, one more.
#[test]
fn generated_words_reach_the_limits_on_postings() {
    let mut left = BTreeSet::from([16_896, 16_897, 51_712, 51_713]);
    for at in 0..6000 {
        let words = words::any(&mut Random::of(SEED, 10, at), b"LANE", 2);
        if let Some(index) = cut(&words) {
            left.remove(&index.postings.len());
        }
    }
    assert!(left.is_empty(), "{left:?}");
}

/// Each fault is found out within this many inputs.
const WITHIN: u64 = 4000;

/// Sees that each of some faults gives another output than the right one for some input of a kind.
fn shown<F: Copy>(
    kind: Kind,
    faults: &[(&'static str, F)],
    right: impl Fn(&[u8]) -> Vec<u8>,
    wrong: impl Fn(F, &[u8]) -> Vec<u8>,
) {
    let mut left: Vec<_> = faults.to_vec();
    let mut found: BTreeMap<&str, u64> = BTreeMap::new();
    for at in 0..WITHIN {
        if left.is_empty() {
            break;
        }
        let input = input(kind, SEED, at);
        let right = right(&input);
        left.retain(|(name, fault)| {
            let same = wrong(*fault, &input) == right;
            if !same {
                found.insert(name, at);
            }
            same
        });
    }
    let missed: Vec<&str> = left.iter().map(|(name, _)| *name).collect();
    assert!(missed.is_empty(), "not found within {WITHIN}: {missed:?}; found: {found:?}");
}

#[test]
fn generated_inputs_show_every_fault() {
    shown(Kind::Lookup, &FAULTS, lookup, |wrong, input| wrong(input));
}

#[test]
fn generated_inputs_show_every_wrong_import() {
    let right = |input: &[u8]| import_answer(input, import).unwrap();
    shown(Kind::Import, &IMPORT_FAULTS, right, |wrong, input| {
        import_answer(input, |log, s, words, o, p| wrong.import(log, s, words, o, p)).unwrap()
    });
}

#[test]
fn generated_inputs_show_every_wrong_importer() {
    shown(Kind::Importer, &IMPORTER_FAULTS, importer, |wrong, input| wrong(input));
}

#[test]
fn generated_inputs_show_every_wrong_add() {
    let right = |input: &[u8]| add_answer(input, add).unwrap();
    shown(Kind::Add, &ADD_FAULTS, right, |wrong, input| add_answer(input, wrong).unwrap());
}

#[test]
fn generated_inputs_show_every_wrong_withdrawal() {
    let right = |input: &[u8]| withdraw_answer(input, withdraw).unwrap();
    shown(Kind::Withdraw, &WITHDRAW_FAULTS, right, |wrong, input| withdraw_answer(input, wrong).unwrap());
}

#[test]
fn generated_inputs_show_every_wrong_call_with_many_queries() {
    let right = |input: &[u8]| many_answer(input, search_many).unwrap();
    shown(Kind::Many, &MANY_FAULTS, right, |wrong, input| many_answer(input, wrong).unwrap());
}

/// Every number that a query can have, and calls that stop before the first query, between others, and not at all.
#[test]
fn many_queries_have_every_outcome() {
    let (mut given, mut stopped, mut whole) = (BTreeSet::new(), BTreeSet::new(), BTreeSet::new());
    for at in 0..1500 {
        let line = String::from_utf8(input(Kind::Many, SEED, at)).unwrap();
        let places: usize = line.split_whitespace().nth(4).unwrap().parse().unwrap();
        let answer = String::from_utf8(Kind::Many.answer(line.as_bytes()).unwrap()).unwrap();
        let words: Vec<&str> = answer.split_whitespace().collect();
        let queries: usize = words[1].parse().unwrap();
        assert!(queries <= places);
        given.extend(words[3..3 + queries].iter().map(|of| of.split(':').next().unwrap().parse::<u8>().unwrap()));
        let came = if words[0] == "0" { &mut whole } else { &mut stopped };
        came.insert(queries.min(12));
    }
    assert_eq!(given, BTreeSet::from([0, 1, 2, 3, 4, 5, 6, 7, 11, 12]));
    assert_eq!((stopped, whole), ((0..=12).collect(), (0..=12).collect()));
}

/// Faults that no run from the empty index shows: they need words that are not good, features that no name gives, rubbish
/// beyond the total, or more words than a run has.
const NOT_BY_RUNS: [&str; 16] = [
    "add_takes_damaged_words",
    "add_refuses_features_of_no_name",
    "add_refuses_live_control_characters",
    "live_id_judged_before_index",
    "room_of_a_lookup",
    "refused_add_blanks_beyond",
    "add_leaves_words_beyond",
    "add_drops_features_of_no_name",
    "add_drops_control_features",
    "withdraw_takes_damaged_words",
    "withdraw_refuses_features_of_no_name",
    "withdraw_refuses_live_control_characters",
    "refused_withdrawal_blanks_beyond",
    "withdraw_leaves_words_beyond_the_old_total",
    "withdraw_drops_features_of_no_name",
    "withdraw_drops_control_features",
];

#[test]
fn generated_runs_show_every_wrong_call() {
    let (by_runs, others): (Vec<_>, Vec<_>) =
        wrong_runs().into_iter().partition(|(name, _)| !NOT_BY_RUNS.contains(name));
    assert_eq!(others.len(), NOT_BY_RUNS.len());
    let right = |input: &[u8]| calls_answer(input, run).unwrap();
    shown(Kind::Calls, &by_runs, right, |wrong, input| {
        calls_answer(input, |words, calls| wrong.run(words, calls)).unwrap()
    });
}

/// The cases that comparisons of the program need, each with how often it came up.
#[derive(Default)]
struct Tally(BTreeMap<String, u32>);

impl Tally {
    fn count(&mut self, what: impl ToString) {
        *self.0.entry(what.to_string()).or_default() += 1;
    }
}

/// Counts what an input shows.
fn tally_input(tally: &mut Tally, input: &[u8]) {
    match input.len() {
        65_535..=65_537 => tally.count(format!("{} bytes", input.len())),
        65_538.. => tally.count("more bytes"),
        _ => (),
    }
    if input.len() > 65_536 {
        return;
    }
    let (register, queries) = parts(input);
    let mut words = vec![0; 16_384];
    let built = build(register, &mut words);
    if built.number != 0 {
        return tally.count(format!("register {}", built.number));
    }
    let names = register_names(register).unwrap();
    match names.len() {
        255 | 256 => tally.count(format!("{} names", names.len())),
        0 => tally.count("no names"),
        _ => (),
    }
    match 3 + words[0] + 4 * words[1] + words[2] {
        16_383 | 16_384 => tally.count("an index that fills the words"),
        _ => (),
    }
    for name in &names {
        match name.name.len() {
            1 | 63..=66 | 199 | 200 => tally.count(format!("a name of {}", name.name.len())),
            _ => (),
        }
        if features(&name.name).iter().any(|feature| feature % 256 > 1) {
            tally.count("a repeated gram");
        }
    }
    for line in lines(queries) {
        tally_query(tally, line, &names, &words);
    }
}

fn tally_query(tally: &mut Tally, line: &[u8], names: &[second::build::Registered], words: &[u32]) {
    let mut buffer = [0; 255];
    let frame = read_query(line, &mut buffer);
    if frame.number != 0 {
        return tally.count("query 11");
    }
    let query = second::search::Query {
        measure: frame.measure.into(),
        p: frame.p.into(),
        q: frame.q.into(),
        allowance: frame.allowance,
        name: buffer[..usize::from(frame.length)].to_vec(),
    };
    match query.name.len() {
        0 | 1 | 63..=66 | 199..=202 | 255 => tally.count(format!("a query of {}", query.name.len())),
        _ => (),
    }
    if query.name.contains(&0) && query.name.iter().any(|byte| *byte != 0 && control(*byte)) {
        tally.count("a query with a 0 byte and another control character");
    }
    let empty = second::search::AnswerRow { id: 0, shared: 0, size: 0, least: 0 };
    let mut rows = [empty; 256];
    let answer = second::search::search(words, &query, &mut rows);
    tally.count(format!("query {}", answer.number));
    if answer.rows == 256 {
        tally.count("256 rows");
    }
    let whole = second::search::Query { allowance: u32::MAX, ..query.clone() };
    let whole = second::search::search(words, &whole, &mut rows);
    if whole.number != 0 {
        return;
    }
    let (touches, allowance) = (u64::from(whole.touches), u64::from(query.allowance));
    for (what, at) in [("at", touches), ("one above", touches + 1)] {
        if allowance == at && touches > 0 {
            tally.count(format!("an allowance {what} the count"));
        }
    }
    if allowance + 1 == touches {
        tally.count("an allowance one below the count");
    }
    let (measure, threshold) = (Measure::of(query.measure).unwrap(), Threshold::of(query.p, query.q).unwrap());
    let wanted: BTreeSet<u32> = features(&query.name).into_iter().collect();
    let shown: BTreeMap<u32, &Vec<u8>> = names.iter().map(|name| (name.id, &name.name)).collect();
    for row in &rows[..whole.rows] {
        let of: BTreeSet<u32> = features(shown[&row.id]).into_iter().collect();
        let likeness = similarity(measure, &wanted, &of);
        let (mut p, mut q) = (u128::from(query.p), u128::from(query.q));
        if measure == Measure::Cosine {
            (p, q) = (p * p, q * q);
        }
        if likeness.over * q == p * likeness.under {
            tally.count(format!("on the threshold, measure {}", query.measure));
        }
        let least = least_count(measure, threshold, wanted.len() as u32, row.size);
        let own = least_count(measure, threshold, wanted.len() as u32, wanted.len() as u32);
        for (is_so, what) in [
            (least == 1, "a row at least count 1"),
            (least > 1 && row.shared == least, "a row that shares just the least count"),
            (row.shared > least, "a row that shares more than the least count"),
            (least < own, "a least count below that of the query's own size"),
            (least > own, "a least count above that of the query's own size"),
        ] {
            if is_so {
                tally.count(what);
            }
        }
    }
    let listed: Vec<&Vec<u8>> = rows[..whole.rows].iter().map(|row| shown[&row.id]).collect();
    if listed.len() > listed.iter().collect::<BTreeSet<_>>().len() {
        tally.count("equal names listed");
    }
    if rows[..whole.rows].windows(2).any(|two| two[0].size > two[1].size) {
        tally.count("rows whose order is not that of the sizes");
    }
    if rows[..whole.rows].windows(2).any(|two| two[0].least > two[1].least) {
        tally.count("rows whose order is not that of the least counts");
    }
}

const NEEDED: [&str; 61] = [
    "65535 bytes",
    "65536 bytes",
    "65537 bytes",
    "more bytes",
    "register 1",
    "register 2",
    "register 3",
    "register 8",
    "register 9",
    "register 10",
    "register 11",
    "register 12",
    "no names",
    "255 names",
    "256 names",
    "an index that fills the words",
    "a name of 1",
    "a name of 63",
    "a name of 64",
    "a name of 65",
    "a name of 66",
    "a name of 199",
    "a name of 200",
    "a repeated gram",
    "query 0",
    "query 1",
    "query 2",
    "query 3",
    "query 4",
    "query 5",
    "query 7",
    "query 11",
    "query 12",
    "a query with a 0 byte and another control character",
    "a query of 0",
    "a query of 1",
    "a query of 63",
    "a query of 64",
    "a query of 65",
    "a query of 66",
    "a query of 199",
    "a query of 200",
    "a query of 201",
    "a query of 202",
    "a query of 255",
    "an allowance at the count",
    "an allowance one above the count",
    "an allowance one below the count",
    "on the threshold, measure 1",
    "on the threshold, measure 2",
    "on the threshold, measure 3",
    "on the threshold, measure 4",
    "a row at least count 1",
    "a row that shares just the least count",
    "a row that shares more than the least count",
    "a least count below that of the query's own size",
    "a least count above that of the query's own size",
    "256 rows",
    "equal names listed",
    "rows whose order is not that of the sizes",
    "rows whose order is not that of the least counts",
];

#[test]
fn generated_inputs_hold_every_case() {
    let mut tally = Tally::default();
    for at in 0..3000 {
        tally_input(&mut tally, &input(Kind::Lookup, SEED, at));
    }
    for what in NEEDED {
        assert!(tally.0.get(what).copied().unwrap_or(0) >= 3, "{what}: too seldom in {:#?}", tally.0);
    }
}

/// An input of the protocol `import`, taken apart.
struct ImportCase {
    settings: Settings,
    lines: usize,
    pairs: usize,
    log: Vec<u8>,
    words: Vec<u32>,
}

fn import_case(at: u64) -> ImportCase {
    let line = String::from_utf8(input(Kind::Import, SEED, at)).unwrap();
    let words: Vec<&str> = line.split_whitespace().collect();
    let number = |at: usize| words[at].parse::<u32>().unwrap();
    let digits = if words[6] == "-" { "" } else { words[6] };
    ImportCase {
        settings: Settings { measure: number(0), p: number(1), q: number(2), allowance: number(3) },
        lines: number(4) as usize,
        pairs: number(5) as usize,
        log: (0..digits.len()).step_by(2).map(|at| u8::from_str_radix(&digits[at..at + 2], 16).unwrap()).collect(),
        words: words[7..].iter().map(|word| word.parse().unwrap()).collect(),
    }
}

/// Counts what a log shows, whatever it is imported with.
fn tally_log(tally: &mut Tally, log: &[u8]) {
    let all = lines(log);
    match all.len() {
        0 => tally.count("no lines"),
        1023..=1026 => tally.count(format!("{} lines", all.len())),
        _ => (),
    }
    if log.last().is_some_and(|last| *last != b'\n') {
        tally.count("no last line feed");
    }
    let malformed = |at: usize| all.get(at).is_some_and(|line| log_line(line).is_none());
    let first = (0..all.len()).find(|at| malformed(*at));
    match first {
        Some(0..=1021) if all.len() > 1024 => tally.count("malformed far before line 1,025"),
        Some(1023) if all.len() > 1024 => tally.count("malformed right before line 1,025"),
        Some(1024) => tally.count("line 1,025 malformed"),
        Some(1025) => tally.count("line 1,026 malformed"),
        _ => (),
    }
    for line in all.iter().filter_map(|line| log_line(line)) {
        match line.reading {
            None => tally.count("a missing reading"),
            Some(0 | 1 | 65_534) => tally.count(format!("a reading of {}", line.reading.unwrap_or(0))),
            _ => (),
        }
        match line.day {
            0 | 6 | 7 | 13 | 65_535 => tally.count(format!("day {}", line.day)),
            _ => (),
        }
    }
}

/// Counts what the outcomes and pairs of an answered log show.
fn tally_outcomes(tally: &mut Tally, log: &[u8], settings: &Settings, words: &[u32]) {
    let (mut outcomes, mut pairs) = (Outcomes::lent(1024, 0), Pairs::lent(1024, 0));
    let imported = import(log, settings, words, &mut outcomes, &mut pairs);
    let cases: BTreeSet<u32> = outcomes.cases[..imported.lines].iter().copied().collect();
    for case in &cases {
        tally.count(format!("case {case}"));
    }
    if cases.len() == 4 {
        tally.count("all four cases in one log");
    }
    for at in (0..imported.lines).filter(|at| outcomes.cases[*at] == 4) {
        tally.count(format!("a line refused with {}", outcomes.values[at]));
    }
    let numbers: BTreeSet<u32> =
        (0..imported.lines).filter(|at| outcomes.cases[*at] == 4).map(|at| outcomes.values[at]).collect();
    if numbers.len() > 1 {
        tally.count("lines refused with different numbers");
    }
    for at in 0..imported.pairs {
        if pairs.counts[at] == 0 {
            tally.count("a pair without a reading");
        } else if pairs.sums[at] == 0 {
            tally.count("a pair of readings of 0");
        }
        if pairs.sums[at] > 65_535 {
            tally.count("a sum beyond 16 bits");
        }
    }
    let read = log_lines(log).unwrap_or_default();
    let of_first = |at: &usize| {
        let week = week_of(read[*at].day);
        outcomes.cases[*at] == 1 && (outcomes.values[*at], week) == (pairs.ids[0], pairs.weeks[0])
    };
    let in_first = if imported.pairs > 0 { (0..imported.lines).filter(of_first).count() } else { 0 };
    if in_first > 1 && imported.pairs > 1 {
        tally.count("a pair of several lines among others");
    }
    if imported.pairs == 1024 {
        tally.count("1,024 pairs");
    }
}

const NEEDED_OF_IMPORT: [&str; 48] = [
    "no lines",
    "1023 lines",
    "1024 lines",
    "1025 lines",
    "1026 lines",
    "no last line feed",
    "malformed far before line 1,025",
    "malformed right before line 1,025",
    "line 1,025 malformed",
    "line 1,026 malformed",
    "a missing reading",
    "a reading of 0",
    "a reading of 1",
    "a reading of 65534",
    "day 0",
    "day 6",
    "day 7",
    "day 13",
    "day 65535",
    "case 1",
    "case 2",
    "case 3",
    "case 4",
    "all four cases in one log",
    "a line refused with 1",
    "a line refused with 2",
    "a line refused with 3",
    "a line refused with 4",
    "a line refused with 5",
    "a line refused with 6",
    "a line refused with 7",
    "a line refused with 12",
    "lines refused with different numbers",
    "a pair without a reading",
    "a pair of readings of 0",
    "a sum beyond 16 bits",
    "a pair of several lines among others",
    "1,024 pairs",
    "lines just fit, pairs just fit",
    "one line too many, pairs just fit",
    "lines just fit, one pair too many",
    "more room than needed",
    "8 before a bad line is 11",
    "a damaged index",
    "features of no name",
    "words beyond the total",
    "256 names",
    "a line that lists 256 names",
];

#[test]
fn generated_imports_hold_every_case() {
    let mut tally = Tally::default();
    for at in 0..3000 {
        let case = import_case(at);
        tally_log(&mut tally, &case.log);
        tally_outcomes(&mut tally, &case.log, &case.settings, &case.words);
        tally_index(&mut tally, &case);
        let plenty = (&mut Outcomes::lent(1024, 0), &mut Pairs::lent(1024, 0));
        let whole = import(&case.log, &case.settings, &case.words, plenty.0, plenty.1);
        if whole.number == 11 && lines(&case.log).len() > case.lines {
            tally.count("8 before a bad line is 11");
        }
        if whole.number != 0 || whole.pairs == 0 {
            continue;
        }
        if (case.lines, case.pairs) == (whole.lines, whole.pairs) {
            tally.count("lines just fit, pairs just fit");
        } else if (case.lines + 1, case.pairs) == (whole.lines, whole.pairs) {
            tally.count("one line too many, pairs just fit");
        } else if (case.lines, case.pairs + 1) == (whole.lines, whole.pairs) {
            tally.count("lines just fit, one pair too many");
        } else if case.lines > whole.lines && case.pairs > whole.pairs {
            tally.count("more room than needed");
        }
    }
    for what in NEEDED_OF_IMPORT {
        assert!(tally.0.get(what).copied().unwrap_or(0) >= 3, "{what}: too seldom in {:#?}", tally.0);
    }
}

fn tally_index(tally: &mut Tally, case: &ImportCase) {
    let Some(index) = second::index::good_index(&case.words) else { return tally.count("a damaged index") };
    // The low byte of a name's feature is a number from 1 on.
    if index.rows.iter().any(|row| row.feature % 256 == 0) {
        tally.count("features of no name");
    }
    if index.start + index.postings.len() < case.words.len() {
        tally.count("words beyond the total");
    }
    if index.names.len() == 256 {
        tally.count("256 names");
        let query = |name: Vec<u8>| second::search::Query {
            measure: case.settings.measure,
            p: case.settings.p,
            q: case.settings.q,
            allowance: case.settings.allowance,
            name,
        };
        let mut rows = [second::search::AnswerRow { id: 0, shared: 0, size: 0, least: 0 }; 256];
        for line in lines(&case.log).into_iter().filter_map(log_line) {
            if second::search::search(&case.words, &query(line.name), &mut rows).rows == 256 {
                tally.count("a line that lists 256 names");
            }
        }
    }
}

const NEEDED_OF_IMPORTER: [&str; 52] = [
    "668438 bytes",
    "668439 bytes",
    "668440 bytes",
    "more bytes",
    "answered beyond 65,536 bytes",
    "an index beyond 16,384 words",
    "an index beyond 250,000 words",
    "part 0, number 8",
    "part 1, number 1",
    "part 1, number 2",
    "part 1, number 3",
    "part 1, number 9",
    "part 1, number 10",
    "part 1, number 11",
    "part 1, number 12",
    "part 2, number 11",
    "part 3, number 10",
    "part 3, number 11",
    "no settings line",
    "settings with a name",
    "bad settings and a bad log",
    "a bad register and bad settings",
    "a bad measure",
    "a bad threshold",
    "no register",
    "256 names",
    "no lines",
    "1023 lines",
    "1024 lines",
    "1025 lines",
    "1026 lines",
    "no last line feed",
    "malformed right before line 1,025",
    "line 1,025 malformed",
    "a missing reading",
    "a reading of 0",
    "a reading of 1",
    "a reading of 65534",
    "day 0",
    "day 6",
    "day 7",
    "day 65535",
    "case 1",
    "case 2",
    "case 3",
    "case 4",
    "all four cases in one log",
    "a line refused with 7",
    "a pair without a reading",
    "a pair of readings of 0",
    "a pair of several lines among others",
    "1,024 pairs",
];

fn tally_importer(tally: &mut Tally, input: &[u8]) {
    match input.len() {
        668_438..=668_440 => tally.count(format!("{} bytes", input.len())),
        668_441.. => tally.count("more bytes"),
        _ => (),
    }
    let refused = read_import_refused(&importer(input));
    let (register, line, log) = three_parts(input);
    if refused.number == 0 {
        tally.count(format!("part {}, number {}", refused.part, refused.refusal));
        match refused.part {
            1 if settings_of(line).is_none() => tally.count("a bad register and bad settings"),
            2 if line.is_empty() => tally.count("no settings line"),
            2 if read_query(line, &mut [0; 255]).number == 0 => tally.count("settings with a name"),
            _ => (),
        }
        if refused.part == 2 && log_lines(log).is_err() {
            tally.count("bad settings and a bad log");
        }
        if refused.part == 3 {
            tally_log(tally, log);
        }
        return;
    }
    let names = register_names(register).unwrap();
    match names.len() {
        0 => tally.count("no register"),
        256 => tally.count("256 names"),
        _ => (),
    }
    let mut words = vec![0; 258_819];
    assert_eq!(build(register, &mut words).number, 0);
    match 3 + words[0] + 4 * words[1] + words[2] {
        250_001.. => tally.count("an index beyond 250,000 words"),
        16_385.. => tally.count("an index beyond 16,384 words"),
        _ => (),
    }
    if input.len() > 65_536 {
        tally.count("answered beyond 65,536 bytes");
    }
    let settings = settings_of(line).unwrap();
    if Measure::of(settings.measure).is_err() {
        tally.count("a bad measure");
    } else if Threshold::of(settings.p, settings.q).is_err() {
        tally.count("a bad threshold");
    }
    tally_log(tally, log);
    tally_outcomes(tally, log, &settings, &words);
}

#[test]
fn generated_importer_inputs_hold_every_case() {
    let mut tally = Tally::default();
    for at in 0..4000 {
        tally_importer(&mut tally, &input(Kind::Importer, SEED, at));
    }
    for what in NEEDED_OF_IMPORTER {
        assert!(tally.0.get(what).copied().unwrap_or(0) >= 2, "{what}: too seldom in {:#?}", tally.0);
    }
}

/// The words of a line as numbers.
fn parsed(words: &[&str]) -> Vec<u32> {
    words.iter().map(|word| word.parse().unwrap()).collect()
}

/// The bytes of hexadecimal pairs, or of `-`.
fn unpaired(digits: &str) -> Vec<u8> {
    let digits = if digits == "-" { "" } else { digits };
    (0..digits.len()).step_by(2).map(|at| u8::from_str_radix(&digits[at..at + 2], 16).unwrap()).collect()
}

/// Counts how the lent words are, and gives the live names of a good index.
fn tally_lent(tally: &mut Tally, words: &[u32]) -> Option<Live> {
    let Ok(live) = live_names(words) else {
        tally.count("a damaged index");
        match words {
            [] => tally.count("no words"),
            _ if words.iter().all(|word| *word == u32::MAX) => tally.count("words of a refused build"),
            _ => (),
        }
        return None;
    };
    match live.len() {
        0 | 1 | 255 | 256 => tally.count(format!("{} names", live.len())),
        _ => (),
    }
    // The low byte of a name's feature is a number from 1 on.
    if live.values().flatten().any(|feature| feature % 256 == 0) {
        tally.count("features of no name");
    }
    let bytes = |of: &BTreeSet<u32>| of.iter().flat_map(|feature| feature.to_be_bytes()[..3].to_vec()).collect();
    let controlled = |bytes: Vec<u8>| bytes.into_iter().any(|byte| byte != 0 && control(byte));
    if live.values().any(|of| of_a_name(of) && controlled(bytes(of))) {
        tally.count("a live name with a control character");
    }
    if words[words_of_live(&live).len()..].iter().any(|word| *word != u32::MAX) {
        tally.count("rubbish beyond the total");
    }
    Some(live)
}

/// Where an id stands among live ones.
fn tally_id(tally: &mut Tally, live: &Live, id: u32) {
    let which = if live.contains_key(&id) { "a live id" } else { "an unused id" };
    let (below, above) = (live.range(..id).count(), live.range(id + 1..).count());
    match (below, above) {
        (0, 0) => tally.count(format!("{which} alone")),
        (0, _) => tally.count(format!("{which} first")),
        (_, 0) => tally.count(format!("{which} last")),
        _ => tally.count(format!("{which} between")),
    }
    if id == 0 || id == 65_535 {
        tally.count(format!("{which}: {id}"));
    }
}

/// What a name of some features shares with live ones of its size, and with others.
fn tally_shared(tally: &mut Tally, live: &Live, of: &BTreeSet<u32>) {
    let shares = |other: &&BTreeSet<u32>| !other.is_disjoint(of);
    let (same, others): (Vec<_>, Vec<_>) = live.values().partition(|other| other.len() == of.len());
    if same.contains(&of) {
        tally.count("features equal to a live name's");
    } else if same.iter().any(shares) {
        tally.count("some features in a list of its size");
    } else if others.iter().any(shares) {
        tally.count("features in lists of other sizes alone");
    } else if !live.is_empty() {
        tally.count("no feature of a live name");
    }
}

const NEEDED_OF_ADD: [&str; 71] = [
    "a damaged index",
    "no words",
    "words of a refused build",
    "0 names",
    "1 names",
    "255 names",
    "256 names",
    "features of no name",
    "a live name with a control character",
    "rubbish beyond the total",
    "an index beyond 250,000 words",
    "number 0",
    "number 1",
    "number 2",
    "number 3",
    "number 6",
    "number 8",
    "number 9",
    "number 10",
    "number 12",
    "a live id first",
    "a live id between",
    "a live id last",
    "a live id: 0",
    "a live id: 65535",
    "an unused id alone",
    "an unused id first",
    "an unused id between",
    "an unused id last",
    "an unused id: 0",
    "an unused id: 65535",
    "a name of 0",
    "a name of 1",
    "a name of 63",
    "a name of 64",
    "a name of 65",
    "a name of 199",
    "a name of 200",
    "a name of 201",
    "a name of 255",
    "features equal to a live name's",
    "some features in a list of its size",
    "features in lists of other sizes alone",
    "no feature of a live name",
    "room for just the index",
    "room for one word less",
    "room for one word more",
    "room for many more",
    "no room at all",
    "256 names and a live id",
    "256 names and an unused id",
    "256 names and no room",
    "256 names and a bad name",
    "255 names and an unused id",
    "256th name, room for just the index",
    "256th name, room for one word less",
    "256th name, equal to all",
    "a live id and no room",
    "a live id and a bad name",
    "a live id with its own name",
    "a bad name and no room",
    "a bad name and a damaged index",
    "a damaged index with the id",
    "a 0 byte and another control character",
    "a bad name of 201 bytes with a control character",
    "accepted into features of no name",
    "accepted beside a control character",
    "accepted over rubbish",
    "8 over rubbish",
    "9 over rubbish",
    "10 over rubbish",
];

fn tally_add(tally: &mut Tally, line: &str) {
    let parts: Vec<&str> = line.split_whitespace().collect();
    let (id, name, words) = (parts[0].parse().unwrap(), unpaired(parts[1]), parsed(&parts[2..]));
    let number = add(&mut words.clone(), id, &name);
    tally.count(format!("number {number}"));
    match name.len() {
        0 | 1 | 63..=65 | 199..=201 | 255 => tally.count(format!("a name of {}", name.len())),
        _ => (),
    }
    let controls = name.iter().any(|byte| *byte != 0 && control(*byte));
    if name.contains(&0) && controls && name.len() <= 200 {
        tally.count("a 0 byte and another control character");
    }
    if name.len() == 201 && controls {
        tally.count("a bad name of 201 bytes with a control character");
    }
    let of: BTreeSet<u32> = features(&name).into_iter().collect();
    let bad_name = of.is_empty();
    let Some(live) = tally_lent(tally, &words) else {
        if bad_name {
            tally.count("a bad name and a damaged index");
        }
        let names = second::index::cut(&words).map_or(Vec::new(), |index| index.names);
        if names.iter().any(|name| name.id == id) {
            tally.count("a damaged index with the id");
        }
        return;
    };
    tally_id(tally, &live, id);
    let (is_live, full) = (live.contains_key(&id), live.len() == 256);
    let total = words_of_live(&live).len();
    let no_room = words.len() == total;
    for (held, what) in [
        (full && is_live, "256 names and a live id"),
        (full && !is_live && !bad_name, "256 names and an unused id"),
        (full && !is_live && !bad_name && no_room, "256 names and no room"),
        (full && bad_name, "256 names and a bad name"),
        (live.len() == 255 && !is_live && !bad_name, "255 names and an unused id"),
        (is_live && !bad_name && no_room, "a live id and no room"),
        (is_live && bad_name, "a live id and a bad name"),
        (live.get(&id) == Some(&of), "a live id with its own name"),
        (bad_name && no_room, "a bad name and no room"),
        (no_room, "no room at all"),
        (total > 80_000, "an index beyond 250,000 words"),
    ] {
        if held {
            tally.count(what);
        }
    }
    let rubbish = words[total..].iter().any(|word| *word != u32::MAX);
    match number {
        0 if rubbish => tally.count("accepted over rubbish"),
        8..=10 if rubbish => tally.count(format!("{number} over rubbish")),
        _ => (),
    }
    if number == 0 {
        if live.values().flatten().any(|feature| feature % 256 == 0) {
            tally.count("accepted into features of no name");
        }
        if live.values().flatten().any(|feature| feature.to_be_bytes()[..3].contains(&9)) {
            tally.count("accepted beside a control character");
        }
    }
    if bad_name || is_live || full {
        return;
    }
    tally_shared(tally, &live, &of);
    let mut after = live.clone();
    after.insert(id, of);
    let (need, last) = (words_of_live(&after).len(), after.len() == 256);
    let room = match words.len() as i64 - need as i64 {
        0 => "room for just the index",
        -1 => "room for one word less",
        1 => "room for one word more",
        2.. => "room for many more",
        _ => return,
    };
    tally.count(room);
    if last {
        tally.count(format!("256th name, {room}"));
        if after.values().all(|other| *other == after[&id]) {
            tally.count("256th name, equal to all");
        }
    }
}

#[test]
fn generated_adds_hold_every_case() {
    let mut tally = Tally::default();
    for at in 0..4000 {
        tally_add(&mut tally, &String::from_utf8(input(Kind::Add, SEED, at)).unwrap());
    }
    for what in NEEDED_OF_ADD {
        assert!(tally.0.get(what).copied().unwrap_or(0) >= 3, "{what}: too seldom in {:#?}", tally.0);
    }
}

const NEEDED_OF_WITHDRAW: [&str; 36] = [
    "a damaged index",
    "no words",
    "words of a refused build",
    "0 names",
    "1 names",
    "255 names",
    "256 names",
    "features of no name",
    "a live name with a control character",
    "rubbish beyond the total",
    "an index beyond 250,000 words",
    "number 0",
    "number 6",
    "number 13",
    "a live id alone",
    "a live id first",
    "a live id between",
    "a live id last",
    "a live id: 0",
    "a live id: 65535",
    "an unused id alone",
    "an unused id first",
    "an unused id between",
    "an unused id last",
    "an unused id: 0",
    "an unused id: 65535",
    "all its lists shared",
    "all its lists its own",
    "some of its lists its own",
    "13 over rubbish",
    "accepted over rubbish",
    "accepted in just its words",
    "withdrawn from features of no name",
    "another name with equal features",
    "a damaged index with the id",
    "a damaged index without the id",
];

fn tally_withdrawal(tally: &mut Tally, line: &str) {
    let parts: Vec<&str> = line.split_whitespace().collect();
    let (id, words) = (parts[0].parse().unwrap(), parsed(&parts[1..]));
    let number = withdraw(&mut words.clone(), id);
    tally.count(format!("number {number}"));
    let Some(mut live) = tally_lent(tally, &words) else {
        let names = second::index::cut(&words).map_or(Vec::new(), |index| index.names);
        let with = names.iter().any(|name| name.id == id);
        return tally.count(if with { "a damaged index with the id" } else { "a damaged index without the id" });
    };
    tally_id(tally, &live, id);
    let total = words_of_live(&live).len();
    if total > 80_000 {
        tally.count("an index beyond 250,000 words");
    }
    let rubbish = words[total..].iter().any(|word| *word != u32::MAX);
    let foreign = live.values().flatten().any(|feature| feature % 256 == 0);
    let Some(of) = live.remove(&id) else {
        if rubbish {
            tally.count("13 over rubbish");
        }
        return;
    };
    let others: Vec<&BTreeSet<u32>> = live.values().filter(|other| other.len() == of.len()).collect();
    let own = of.iter().filter(|feature| !others.iter().any(|other| other.contains(feature))).count();
    for (held, what) in [
        (rubbish, "accepted over rubbish"),
        (words.len() == total, "accepted in just its words"),
        (foreign, "withdrawn from features of no name"),
        (others.contains(&&of), "another name with equal features"),
        (own == 0, "all its lists shared"),
        (own == of.len() && !live.is_empty(), "all its lists its own"),
        (own > 0 && own < of.len(), "some of its lists its own"),
    ] {
        if held {
            tally.count(what);
        }
    }
}

#[test]
fn generated_withdrawals_hold_every_case() {
    let mut tally = Tally::default();
    for at in 0..4000 {
        tally_withdrawal(&mut tally, &String::from_utf8(input(Kind::Withdraw, SEED, at)).unwrap());
    }
    for what in NEEDED_OF_WITHDRAW {
        assert!(tally.0.get(what).copied().unwrap_or(0) >= 3, "{what}: too seldom in {:#?}", tally.0);
    }
}

/// A run of calls, taken apart.
fn run_case(at: u64) -> (usize, Vec<Call>) {
    let line = String::from_utf8(input(Kind::Calls, SEED, at)).unwrap();
    let (length, calls) = line.trim_end().split_once(' ').unwrap_or((line.trim_end(), ""));
    let call = |word: &str| match word.strip_prefix('-') {
        Some(id) => Call::Withdraw { id: id.parse().unwrap() },
        None => {
            let (id, name) = word.strip_prefix('+').unwrap().split_once(':').unwrap();
            Call::Add { id: id.parse().unwrap(), name: unpaired(name) }
        }
    };
    (length.parse().unwrap(), calls.split_whitespace().map(call).collect())
}

const NEEDED_OF_CALLS: [&str; 35] = [
    "no calls",
    "200 calls or more",
    "0 words",
    "1 words",
    "2 words",
    "3 words",
    "number 0 of an add",
    "number 1 of an add",
    "number 2 of an add",
    "number 3 of an add",
    "number 6 of an add",
    "number 8 of an add",
    "number 9 of an add",
    "number 10 of an add",
    "number 12 of an add",
    "number 0 of a withdrawal",
    "number 6 of a withdrawal",
    "number 13 of a withdrawal",
    "an id used again",
    "an id used again for another name",
    "an id used again after others came",
    "the index is empty again",
    "8, and then room again",
    "8 for what fitted before",
    "the index fills the words",
    "256 names",
    "256 names, one withdrawn, and 256 again",
    "9 at 256 names",
    "10 at 256 names",
    "a bad name at 256 names",
    "an id that was never live withdrawn",
    "an id withdrawn twice",
    "all three: accepted, refused, withdrawn",
    "ids added in falling order",
    "a run of 200 calls that ran out of room",
];

/// Counts what a run of calls shows, call by call.
fn tally_run(tally: &mut Tally, length: usize, calls: &[Call]) {
    let mut words = vec![0; length];
    build(b"", &mut words);
    if length <= 3 {
        tally.count(format!("{length} words"));
    }
    match calls.len() {
        0 => tally.count("no calls"),
        200.. => tally.count("200 calls or more"),
        _ => (),
    }
    // Ids that were withdrawn, with their features of then; names that were refused with 8; names that fitted.
    let mut gone: BTreeMap<u32, BTreeSet<u32>> = BTreeMap::new();
    let (mut lacked, mut fitted) = (BTreeSet::new(), BTreeSet::new());
    let (mut numbers, mut last, mut was_full) = (BTreeSet::new(), None, false);
    for call in calls {
        let before = words.clone();
        let live = live_names(&words).unwrap_or_default();
        let number = run(&mut words, std::slice::from_ref(call))[0];
        match call {
            Call::Add { id, name } => {
                tally.count(format!("number {number} of an add"));
                numbers.insert(("add", number));
                if live.len() == 256 {
                    match number {
                        9 | 10 => tally.count(format!("{number} at 256 names")),
                        _ => tally.count("a bad name at 256 names"),
                    }
                }
                if number == 8 {
                    lacked.insert(name);
                    if fitted.contains(name) {
                        tally.count("8 for what fitted before");
                    }
                }
                if number != 0 {
                    continue;
                }
                fitted.insert(name);
                if lacked.contains(name) {
                    tally.count("8, and then room again");
                }
                if let Some(of) = gone.get(id) {
                    tally.count("an id used again");
                    if *of != features(name).into_iter().collect::<BTreeSet<_>>() {
                        tally.count("an id used again for another name");
                    }
                    if live.keys().any(|other| other > id) {
                        tally.count("an id used again after others came");
                    }
                }
                if last.is_some_and(|last| *id < last) {
                    tally.count("ids added in falling order");
                }
                last = Some(*id);
                if live.len() == 255 {
                    tally.count("256 names");
                    if was_full {
                        tally.count("256 names, one withdrawn, and 256 again");
                    }
                    was_full = true;
                }
                let (n, d, p) = (words[0], words[1], words[2]);
                if (3 + n + 4 * d + p) as usize == length {
                    tally.count("the index fills the words");
                }
            }
            Call::Withdraw { id } => {
                tally.count(format!("number {number} of a withdrawal"));
                numbers.insert(("withdraw", number));
                match (number, gone.contains_key(id)) {
                    (13, true) => tally.count("an id withdrawn twice"),
                    (13, false) => tally.count("an id that was never live withdrawn"),
                    _ => (),
                }
                if number == 0 {
                    gone.insert(*id, live[id].clone());
                    if live.len() == 1 {
                        tally.count("the index is empty again");
                    }
                }
            }
        }
        assert!(number == 0 || words == before);
    }
    let refused = numbers.iter().any(|(what, number)| *what == "add" && *number != 0);
    if refused && numbers.contains(&("add", 0)) && numbers.contains(&("withdraw", 0)) {
        tally.count("all three: accepted, refused, withdrawn");
    }
    if calls.len() >= 200 && numbers.contains(&("add", 8)) {
        tally.count("a run of 200 calls that ran out of room");
    }
}

#[test]
fn generated_runs_hold_every_case() {
    let mut tally = Tally::default();
    for at in 0..3000 {
        let (length, calls) = run_case(at);
        tally_run(&mut tally, length, &calls);
    }
    for what in NEEDED_OF_CALLS {
        assert!(tally.0.get(what).copied().unwrap_or(0) >= 3, "{what}: too seldom in {:#?}", tally.0);
    }
}
