//! One input of each kind.

use crate::build::{build as build_words, words_of_names, Registered};
use crate::frames::{self, line_of, IMPORT_KINDS, KINDS};
use crate::generate::{lines, names, queries, registers, words};
use crate::index::cut;
use crate::limits::{INDEX_WORDS, INPUT, LEAST_SIZE, MOST_SIZE, NAMES};
use crate::measures::{least_count, Measure, Threshold};
use crate::protocol::{pairs, spaced};
use crate::random::Random;
use crate::search::{search as search_words, AnswerRow, Query};

// Lookup: whole inputs.

/// A whole input of the program.
pub fn lookup(random: &mut Random) -> Vec<u8> {
    match random.below(1000) {
        0..=419 => {
            let register = registers::small(random);
            whole(random, &register)
        }
        420..=579 => {
            let register = registers::even(random);
            whole(random, &register)
        }
        580..=639 => {
            let register = registers::middling(random);
            whole(random, &register)
        }
        640..=759 => bad_register(random),
        760..=859 => stray_lines(random),
        860..=919 => ending(random),
        920..=959 => spoilt(random),
        960..=970 => crowded(random),
        971..=974 => full(random),
        975..=989 => {
            let total = random.between(INDEX_WORDS - 1, INDEX_WORDS + 1);
            let register = registers::filling(random, total);
            whole(random, &register)
        }
        _ => large(random),
    }
}

/// The program's index of a register, whatever its number.
fn index_of(register: &[Registered]) -> Vec<u32> {
    let mut words = vec![0; INDEX_WORDS];
    build_words(&registers::lines(register).concat(), &mut words);
    words
}

/// Query lines for a register.
fn query_lines(random: &mut Random, register: &[Registered], count: usize) -> Vec<Vec<u8>> {
    let words = index_of(register);
    let hints: Vec<Vec<u8>> = register.iter().map(|name| name.name.clone()).collect();
    (0..count).map(|_| queries::line(&queries::query(random, &words, &hints))).collect()
}

/// A whole register and whole queries.
fn whole(random: &mut Random, register: &[Registered]) -> Vec<u8> {
    let count = random.between(1, 6);
    [registers::lines(register), query_lines(random, register, count)].concat().concat()
}

/// A register with a damaged line, a bad name or ids out of order, then queries.
fn bad_register(random: &mut Random) -> Vec<u8> {
    let register = registers::small(random);
    let count = random.between(0, 2);
    let queries = query_lines(random, &register, count);
    [registers::damaged_lines(random, &register), queries].concat().concat()
}

/// Queries among which stand damaged ones, empty lines and lines of other kinds.
fn stray_lines(random: &mut Random) -> Vec<u8> {
    let register = registers::small(random);
    let count = random.between(1, 5);
    let mut queries = query_lines(random, &register, count);
    for _ in 0..random.between(1, 3) {
        let at = random.between(0, queries.len());
        let query = random.pick(&queries);
        let stray = match random.below(6) {
            0 => b"\n".to_vec(),
            1 => b"51\n".to_vec(),
            2 if !register.is_empty() => registers::line(&random.pick(&register)),
            3 => line_of(&[frames::END, 0, 3, 0, 0, 0, 15, 0, 8, 0, 13]),
            _ if query.len() > 3 => lines::damaged(random, &query),
            _ => b"\r\n".to_vec(),
        };
        queries.insert(at, stray);
    }
    [registers::lines(&register), queries].concat().concat()
}

/// An input that ends in an unusual way: within the kind of a line, without a line feed, with too many.
fn ending(random: &mut Random) -> Vec<u8> {
    let register = registers::small(random);
    let count = random.between(0, 2);
    let mut input = [registers::lines(&register), query_lines(random, &register, count)].concat().concat();
    let ends = ["5", "51", "5\n", "51\n", "510", " 51", "\n", "\n\n", "\r\n", "\n51\n", "4E", "4", "71\n", "52\n51\n"];
    match random.below(3) {
        0 => drop(input.pop()),
        _ => input.extend(random.pick(&ends).as_bytes()),
    }
    input
}

/// A whole input cut anywhere, or with one byte changed, or nothing but stray bytes.
fn spoilt(random: &mut Random) -> Vec<u8> {
    let register = registers::small(random);
    let mut input = whole(random, &register);
    match random.below(4) {
        0 => input.truncate(random.below(input.len() + 1)),
        1 | 2 => {
            let at = random.below(input.len());
            input[at] = random.pick(&[b'0', b'1', b'4', b'5', b'A', b'E', b'F', b'\n', b'e', 0, 255]);
        }
        _ => {
            let length = random.below(40);
            input = (0..length).map(|_| random.pick(b"0123456789ABCDEF\n\n451\r e")).collect();
        }
    }
    input
}

/// 255 to 257 names, and often the 257th wrong in another way too.
fn crowded(random: &mut Random) -> Vec<u8> {
    let count = random.pick(&[NAMES - 1, NAMES, NAMES, NAMES + 1, NAMES + 1, NAMES + 1]);
    let mut register = registers::crowded(random, count);
    if count > NAMES && random.once_in(2) {
        let last = register.len() - 1;
        match random.below(3) {
            0 => register[last].id = register[last - 1].id,
            1 => register[last].name = names::bad(random),
            _ => return [registers::lines(&register[..last]).concat(), b"4E000\n".to_vec()].concat(),
        }
    }
    let count = random.between(0, 3);
    let queries = query_lines(random, &register, count);
    [registers::lines(&register), queries].concat().concat()
}

/// As many equal names as there may be, and queries for that very name: each answer has all the rows that are lent.
fn full(random: &mut Random) -> Vec<u8> {
    let length = random.between(1, 60);
    let name = names::of_length(random, length);
    let register: Vec<Registered> =
        registers::ids(random, NAMES).into_iter().map(|id| Registered { id, name: name.clone() }).collect();
    let queries = (0..random.between(1, 3)).map(|_| {
        let q = random.between(1, 1000) as u32;
        let p = random.between(1, q as usize) as u32;
        let measure = random.between(1, 4) as u32;
        queries::line(&Query { measure, p, q, allowance: u32::MAX, name: name.clone() })
    });
    registers::lines(&register).into_iter().chain(queries).collect::<Vec<_>>().concat()
}

/// An input of 65,535 to 65,537 bytes, or of more. What fills it stands before the last query, so that the last bytes
/// count; or first of all, in the register.
fn large(random: &mut Random) -> Vec<u8> {
    let register = registers::small(random);
    let few = query_lines(random, &register, 5);
    let last = few[4].clone();
    let before = if random.once_in(3) { b"4E\n".to_vec() } else { registers::lines(&register).concat() };
    let beyond = random.pick(&[1, 1000, 70_000]);
    let target = random.pick(&[INPUT - 1, INPUT, INPUT, INPUT + 1, INPUT + 1, INPUT + beyond]);
    let mut input = before;
    input.extend(&few[0]);
    loop {
        let query = random.pick(&few);
        if input.len() + query.len() + last.len() + 3 > target {
            break;
        }
        input.extend(query);
    }
    let left = target - input.len() - last.len();
    input.extend(std::iter::repeat_n(b'5', left - 1));
    input.push(b'\n');
    input.extend(last);
    input
}

// The other kinds: one line of the protocol each.

/// A name, for its features.
pub fn features(random: &mut Random) -> String {
    let name = match random.below(5) {
        0 => names::bad(random),
        1 => {
            let length = random.pick(&[1, 2, 3, 63, 64, 65, 66, 199, 200, 201, 202, 255]);
            names::of_length(random, length)
        }
        _ => names::fresh(random),
    };
    pairs(&name)
}

/// A measure, a threshold, two sizes and a shared count near the least count.
pub fn likeness(random: &mut Random) -> String {
    let number = if random.once_in(12) { random.pick(&[0, 5, 255, u32::MAX]) } else { random.between(1, 4) as u32 };
    let most = random.pick(&[66, MOST_SIZE]) as usize;
    let edge = random.pick(&[LEAST_SIZE, most as u32]);
    let (x, near) = (random.between(3, most) as u32, random.between(1, most) as u32);
    let y = random.pick(&[near.max(LEAST_SIZE), x, (x + 1).min(MOST_SIZE), edge]);
    let (mut p, mut q) = queries::any_threshold(random);
    if let (Ok(measure), true) = (Measure::of(number), random.once_in(2)) {
        let c = random.between(1, x.min(y) as usize) as u32;
        (p, q) = queries::on_similarity(random, measure, x, y, c);
    }
    let least = match (Measure::of(number), Threshold::of(p, q)) {
        (Ok(measure), Ok(threshold)) => least_count(measure, threshold, x, y),
        _ => 3,
    };
    let any = random.between(0, MOST_SIZE as usize) as u32;
    let c = random.pick(&[least, least.saturating_sub(1), least + 1, any]);
    spaced(&[number, p, q, x, y, c])
}

/// Index words, good or damaged.
pub fn good(random: &mut Random) -> String {
    let known = names::fresh(random);
    spaced(&words::any(random, &known, 8))
}

/// A size, a feature and index words: mostly a row that is there. A feature has 64 bits, of which no row has more than 32.
pub fn list(random: &mut Random) -> String {
    let known = names::fresh(random);
    let words = words::any(random, &known, 2);
    let rows = cut(&words).map_or(Vec::new(), |index| index.rows);
    let (mut size, mut feature) = (random.between(0, 70) as u32, u64::from(random.next() as u32));
    if !rows.is_empty() {
        let row = random.pick(&rows);
        (size, feature) = (row.size, u64::from(row.feature));
        match random.below(6) {
            0 => size = size.wrapping_add(1),
            1 => feature += 1,
            2 => size = random.pick(&rows).size,
            _ => (),
        }
    }
    if random.once_in(6) {
        feature |= random.pick(&[1, 2, 1 << 31, u64::from(u32::MAX)]) << 32;
    }
    [size.to_string(), feature.to_string(), spaced(&words)].join(" ")
}

/// A slice length and a register: the length at the total, one below or one above, or at an edge of its own.
pub fn build(random: &mut Random) -> String {
    let register = match random.below(60) {
        0 => {
            let count = random.between(NAMES - 1, NAMES + 1);
            registers::crowded(random, count)
        }
        1 => registers::middling(random),
        2 if random.once_in(2) => registers::brimming(random),
        _ => registers::small(random),
    };
    let total = words_of_names(&register).len();
    let mut bytes = match random.below(3) {
        0 => registers::damaged_lines(random, &register).concat(),
        _ => registers::lines(&register).concat(),
    };
    if random.once_in(12) {
        bytes.truncate(random.below(bytes.len() + 1));
    }
    if random.once_in(12) {
        bytes.extend(random.pick(&[&b"\n"[..], b"4", b"4E", b"\r", b"510100010001000000000141\n"]));
    }
    let any = random.below(total + 20);
    let length = match random.below(8) {
        0 | 1 => total,
        2 | 3 => total.saturating_sub(1),
        4 => total + 1,
        5 => random.below(4),
        _ => any,
    };
    [length.to_string(), pairs(&bytes)].join(" ")
}

/// A search of index words: rooms at the answers, one below and one above.
pub fn search(random: &mut Random) -> String {
    let known = names::fresh(random);
    let words = words::any(random, &known, 1);
    let hints = [known.clone(), names::like(random, &known)];
    let query = queries::query(random, &words, &hints);
    let mut rows = [AnswerRow { id: 0, shared: 0, size: 0, least: 0 }; 257];
    let all = Query { allowance: u32::MAX, ..query.clone() };
    let answers = search_words(&words, &all, &mut rows).rows;
    let room = match random.below(8) {
        0..=2 => answers,
        3 | 4 => answers.saturating_sub(1),
        5 => answers + 1,
        6 => 0,
        _ => 300,
    };
    let numbers = spaced(&[query.measure, query.p, query.q, query.allowance, room as u32]);
    [numbers, pairs(&query.name), spaced(&words)].join(" ")
}

/// A frame of a lookup.
pub fn frames(random: &mut Random) -> String {
    frames_of(random, &KINDS, &KINDS)
}

/// A line of a log; now and then another reader is given it.
pub fn log_frames(random: &mut Random) -> String {
    frames_of(random, &[frames::LOG], &[&[frames::LOG][..], &KINDS].concat())
}

/// A line that an importer writes.
pub fn import_frames(random: &mut Random) -> String {
    frames_of(random, &IMPORT_KINDS, &IMPORT_KINDS)
}

/// A line to read, whole or damaged, or fields to write, with room for all of it, for one byte less, or for more. Now and
/// then one of the other readers is given the line.
fn frames_of(random: &mut Random, kinds: &[u8], readers: &[u8]) -> String {
    let kind = random.pick(kinds);
    let length = match random.below(4) {
        0 => random.pick(&[0, 1, 63, 64, 65, 66, 199, 200, 201, 202, 254, 255]),
        _ => random.below(20),
    };
    let mut name = names::of_length(random, length);
    if length > 0 && random.once_in(4) {
        let at = random.below(length);
        name[at] = 0;
    }
    if random.once_in(2) {
        writing(random, kind, name)
    } else {
        reading(random, kind, name, readers)
    }
}

/// A field's value: at an edge or anywhere.
fn field(random: &mut Random, bytes: usize) -> u64 {
    let most = (1 << (8 * bytes)) - 1;
    let any = random.next() & most;
    random.pick(&[0, 1, 10, most, most - 1, any, any])
}

/// The widths in bytes of a kind's fields, before the length and the name if it has them.
fn widths(kind: u8) -> &'static [usize] {
    match kind {
        frames::NAME => &[2],
        frames::QUERY => &[1, 2, 2, 4],
        frames::ROW => &[2, 1, 1, 1],
        frames::END => &[2, 4, 2, 2],
        frames::LOG | frames::IMPORT_END => &[2, 2],
        frames::OUTCOME => &[1, 2],
        frames::PAIR => &[2, 2, 4, 2],
        frames::IMPORT_REFUSED => &[1, 1, 2],
        _ => &[1, 4],
    }
}

fn has_name(kind: u8) -> bool {
    [frames::NAME, frames::QUERY, frames::LOG].contains(&kind)
}

/// Room for what is needed, one less, one more, none, or plenty.
fn room(random: &mut Random, need: usize) -> usize {
    random.pick(&[need, need, need.saturating_sub(1), need + 1, 0, need + 20])
}

fn writing(random: &mut Random, kind: u8, mut name: Vec<u8>) -> String {
    if has_name(kind) && random.once_in(8) {
        let length = random.pick(&[255, 256, 257, 300]);
        name = names::of_length(random, length);
    }
    let fields: Vec<u64> = widths(kind).iter().map(|bytes| field(random, *bytes)).collect();
    let with_name = if has_name(kind) { 1 + name.len() } else { 0 };
    let need = 2 * (1 + widths(kind).iter().sum::<usize>() + with_name) + 1;
    let room = room(random, need);
    let mut words = vec!["write".to_string(), pairs(&[kind]), room.to_string(), spaced(&fields)];
    if has_name(kind) {
        words.push(pairs(&name));
    }
    words.join(" ")
}

fn reading(random: &mut Random, kind: u8, name: Vec<u8>, readers: &[u8]) -> String {
    let mut bytes = vec![kind];
    for width in widths(kind) {
        bytes.extend(&field(random, *width).to_be_bytes()[8 - width..]);
    }
    if has_name(kind) {
        bytes.push(name.len() as u8);
        bytes.extend(&name);
    }
    let mut line = line_of(&bytes);
    if random.once_in(2) {
        line = lines::damaged(random, &line);
    }
    let room = room(random, name.len());
    let reader = if random.once_in(8) { random.pick(readers) } else { kind };
    ["read".to_string(), pairs(&[reader]), room.to_string(), pairs(&line)].join(" ")
}
