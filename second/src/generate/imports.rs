//! Inputs of an import: one line of its protocol, and whole inputs of the program `importer`.

use crate::build::{words_of_names, Registered};
use crate::generate::{lines, logs, names, registers, words};
use crate::import::{import as import_log, Outcomes, Pairs};
use crate::limits::{FRAME_NAME, IMPORTER_INPUT, INDEX_WORDS, LOG_LINES, NAMES};
use crate::protocol::{pairs, spaced};
use crate::random::Random;

/// The names of a register.
fn names_of(register: &[Registered]) -> Vec<Vec<u8>> {
    register.iter().map(|name| name.name.clone()).collect()
}

/// A register of one to three short names, so that a long log is searched in no time.
fn tiny(random: &mut Random) -> Vec<Registered> {
    let count = random.between(1, 3);
    let ids = registers::ids(random, count);
    ids.into_iter().map(|id| Registered { id, name: names::short(random) }).collect()
}

/// As many equal names as there may be: each search that lists them needs all the rows of its room.
fn full(random: &mut Random) -> Vec<Registered> {
    let (name, count) = (names::short(random), random.between(NAMES - 1, NAMES));
    registers::ids(random, count).into_iter().map(|id| Registered { id, name: name.clone() }).collect()
}

/// How many lines a long log has.
fn many(random: &mut Random) -> usize {
    random.pick(&[LOG_LINES - 1, LOG_LINES, LOG_LINES, LOG_LINES + 1, LOG_LINES + 2, LOG_LINES + 2])
}

// One line of the protocol.

/// Index words, and names that a log may type: of a register, of names that no register has, or damaged.
pub fn index(random: &mut Random) -> (Vec<u32>, Vec<Vec<u8>>) {
    let register = match random.below(24) {
        0..=12 => registers::small(random),
        13..=16 => registers::even(random),
        17 => full(random),
        18..=20 => {
            let known = names::fresh(random);
            let words = words::any(random, &known, 1);
            return (words, vec![names::like(random, &known), known]);
        }
        _ => {
            let register = registers::small(random);
            let (_, damage) = random.pick(&words::DAMAGES);
            return (damage(random, &words_of_names(&register)), names_of(&register));
        }
    };
    let mut words = words_of_names(&register);
    if random.once_in(4) {
        let beyond = random.between(1, 6);
        words.extend((0..beyond).map(|_| random.pick(&[0, 1, u32::MAX])));
    }
    (words, names_of(&register))
}

/// An import: a log with all kinds of outcomes, whole or damaged, and rooms at its lines and pairs, one below and one above.
pub fn import(random: &mut Random) -> String {
    let (words, known, count) = match random.below(50) {
        0 | 49 => {
            let register = tiny(random);
            (words_of_names(&register), names_of(&register), many(random))
        }
        at => {
            let (words, known) = index(random);
            let count = match at {
                1 | 2 => 0,
                3 | 4 => random.between(13, 60),
                5..=9 => 1,
                _ => random.between(2, 12),
            };
            (words, known, count)
        }
    };
    let (mut settings, name) = logs::settings(random, &words, &known);
    let mut lines = if count > 100 && random.once_in(2) {
        settings = logs::strict(random);
        logs::scattered(random, &known, count)
    } else {
        logs::log(random, &[known, vec![name]].concat(), count)
    };
    if count > 0 && random.once_in(if count < 100 { 6 } else { 2 }) {
        logs::damage(random, &mut lines);
    }
    let mut log = lines.concat();
    match random.below(30) {
        0 => drop(log.pop()),
        1 => log.extend(random.pick(&[&b"\n"[..], b"4", b"4C", b"4C00070000024142"])),
        _ => (),
    }
    let plenty = (&mut Outcomes::lent(LOG_LINES, 0), &mut Pairs::lent(LOG_LINES, 0));
    let there = import_log(&log, &settings, &words, plenty.0, plenty.1);
    let (lines, of_weeks) = if there.number == 0 { (there.lines, there.pairs) } else { (count, count.min(3)) };
    let (for_lines, for_pairs) = match random.below(10) {
        0..=4 => (lines, of_weeks),
        5 => (lines.saturating_sub(1), of_weeks),
        6 => (lines, of_weeks.saturating_sub(1)),
        7 => (lines + 1, of_weeks + 1),
        8 => (lines + 2, of_weeks),
        _ => (random.pick(&[0, lines, lines + 5]), random.pick(&[0, of_weeks, of_weeks + 5])),
    };
    let numbers = [settings.measure, settings.p, settings.q, settings.allowance, for_lines as u32, for_pairs as u32];
    [spaced(&numbers), pairs(&log), spaced(&words)].join(" ")
}

// Whole inputs.

/// A whole input of the program.
pub fn importer(random: &mut Random) -> Vec<u8> {
    match random.below(1000) {
        0..=399 => {
            let register = registers::small(random);
            whole(random, &register)
        }
        400..=469 => {
            let register = registers::even(random);
            whole(random, &register)
        }
        470..=479 => {
            let register = full(random);
            whole(random, &register)
        }
        480..=579 => bad_register(random),
        580..=679 => odd_settings(random),
        680..=779 => bad_log(random),
        780..=839 => ending(random),
        840..=899 => spoilt(random),
        900..=919 => crowded(random),
        920..=959 => long(random),
        960..=969 => longest(random),
        970..=979 => {
            let register = registers::filling(random, INDEX_WORDS + 1);
            let parts = three(random, &register, 2);
            parts.concat()
        }
        980 => wide(random),
        981..=992 => large(random),
        _ => {
            let register = registers::middling(random);
            whole(random, &register)
        }
    }
}

/// A register, a settings line and a log of so many lines, whole, each part as it is written.
fn three(random: &mut Random, register: &[Registered], count: usize) -> [Vec<u8>; 3] {
    let (words, known) = (words_of_names(register), names_of(register));
    let (settings, name) = logs::settings(random, &words, &known);
    let log = logs::log(random, &[known, vec![name]].concat(), count);
    [registers::lines(register).concat(), logs::settings_line(&settings, b""), log.concat()]
}

/// A whole input.
fn whole(random: &mut Random, register: &[Registered]) -> Vec<u8> {
    let count = random.pick(&[0, 1, 2, 3, 4, 6, 8, 12]);
    three(random, register, count).concat()
}

/// A register with a damaged line, a bad name or ids out of order; then the rest, which may be bad too.
fn bad_register(random: &mut Random) -> Vec<u8> {
    let register = registers::small(random);
    let [_, settings, log] = three(random, &register, 2);
    let settings = if random.once_in(3) { b"51\n".to_vec() } else { settings };
    let log = if random.once_in(3) { b"\n".to_vec() } else { log };
    [registers::damaged_lines(random, &register).concat(), settings, log].concat()
}

/// A settings line that is damaged, has a name, is missing or comes twice; a log which may be bad too.
fn odd_settings(random: &mut Random) -> Vec<u8> {
    let register = registers::small(random);
    let count = random.between(0, 3);
    let [first, settings, log] = three(random, &register, count);
    let with_name = |name: &[u8]| {
        let digits = &settings[..settings.len() - 3];
        let pairs: String = name.iter().map(|byte| format!("{byte:02X}")).collect();
        [digits, format!("{:02X}{pairs}\n", name.len()).as_bytes()].concat()
    };
    let odd = match random.below(9) {
        0 => return first,
        8 => Vec::new(),
        1 => with_name(&names::fresh(random)),
        2 => with_name(&random.pick(&[vec![0], vec![b'A'; 201], vec![b'A'; FRAME_NAME]])),
        3 => [&settings[..], &settings].concat(),
        4 => random.pick(&[&b"51\n"[..], b"51", b"5\n", b"510\n", b"51\r\n"]).to_vec(),
        5 => [&b"\n"[..], &settings].concat(),
        _ => lines::damaged(random, &settings),
    };
    let log = if random.once_in(3) { b"4C\n".to_vec() } else { log };
    [first, odd, log].concat()
}

/// A log with damaged lines, empty ones and lines of other kinds.
fn bad_log(random: &mut Random) -> Vec<u8> {
    let register = registers::small(random);
    let count = random.between(1, 8);
    let [first, settings, log] = three(random, &register, count);
    let mut lines: Vec<Vec<u8>> = log.split_inclusive(|byte| *byte == b'\n').map(<[u8]>::to_vec).collect();
    logs::damage(random, &mut lines);
    [first, settings, lines.concat()].concat()
}

/// An input that ends in an unusual way: without a line feed, with too many, within a part.
fn ending(random: &mut Random) -> Vec<u8> {
    let register = registers::small(random);
    let count = random.between(0, 2);
    let mut input = three(random, &register, count).concat();
    let ends = ["5", "51", "5\n", "51\n", " 51", "\n", "\n\n", "\r\n", "4E", "4C", "4", "4C0000000000", "5A00000000\n"];
    match random.below(3) {
        0 => drop(input.pop()),
        _ => input.extend(random.pick(&ends).as_bytes()),
    }
    input
}

/// A whole input cut anywhere, or with one byte changed, or nothing but stray bytes.
fn spoilt(random: &mut Random) -> Vec<u8> {
    let register = registers::small(random);
    let mut input = whole(random, &register);
    match random.below(5) {
        0 | 1 => input.truncate(random.below(input.len() + 1)),
        2 | 3 => {
            let at = random.below(input.len());
            input[at] = random.pick(&[b'0', b'1', b'4', b'5', b'A', b'C', b'E', b'F', b'\n', b'c', 0, 255]);
        }
        _ => {
            let length = random.below(40);
            input = (0..length).map(|_| random.pick(b"0123456789ABCDEF\n\n451C\r c")).collect();
        }
    }
    input
}

/// 255 to 257 names.
fn crowded(random: &mut Random) -> Vec<u8> {
    let count = random.between(NAMES - 1, NAMES + 1);
    let register = registers::crowded(random, count);
    whole(random, &register)
}

/// 1,023 to 1,026 lines, often with a damaged one, or with many pairs.
fn long(random: &mut Random) -> Vec<u8> {
    let register = tiny(random);
    let count = many(random);
    let [first, mut settings, log] = three(random, &register, count);
    let mut lines: Vec<Vec<u8>> = log.split_inclusive(|byte| *byte == b'\n').map(<[u8]>::to_vec).collect();
    if random.once_in(2) {
        settings = logs::settings_line(&logs::strict(random), b"");
        lines = logs::scattered(random, &names_of(&register), count);
    }
    if random.once_in(2) {
        logs::damage(random, &mut lines);
    }
    [first, settings, lines.concat()].concat()
}

/// 1,023 to 1,026 lines whose names have 255 bytes, so that the input is among the largest that are answered.
fn longest(random: &mut Random) -> Vec<u8> {
    let register = tiny(random);
    let [first, settings, _] = three(random, &register, 0);
    let name = names::of_length(random, FRAME_NAME);
    let count = many(random);
    let log: Vec<u8> = (0..count).flat_map(|_| logs::line(logs::day(random), logs::reading(random), &name)).collect();
    [first, settings, log].concat()
}

/// Up to 256 names of 199 and 200 bytes: an index near the largest there is.
fn wide(random: &mut Random) -> Vec<u8> {
    let count = random.between(NAMES - 6, NAMES);
    let register = registers::wide(random, count);
    three(random, &register, 1).concat()
}

/// An input of as many bytes as are taken, one fewer, one more, or many more. It is never answered: a register that takes
/// its share of them has names that are too long, and else there are too many lines or one that is no frame.
fn large(random: &mut Random) -> Vec<u8> {
    let register = tiny(random);
    let [mut first, settings, _] = three(random, &register, 0);
    let name = names::of_length(random, FRAME_NAME);
    if random.once_in(3) {
        let names = (0..NAMES as u32).map(|id| registers::line(&Registered { id, name: name.clone() }));
        first = names.collect::<Vec<_>>().concat();
    }
    let beyond = random.pick(&[1, 1000, 70_000]);
    let limit = IMPORTER_INPUT;
    let target = random.pick(&[limit - 1, limit, limit, limit + 1, limit + 1, limit + beyond]);
    let mut input = [first, settings].concat();
    let line = logs::line(logs::day(random), logs::reading(random), &name);
    let bad_from = if random.once_in(2) { LOG_LINES } else { random.below(LOG_LINES) };
    let mut count = 0;
    while input.len() + line.len() <= target {
        input.extend(if count == bad_from { line.to_ascii_lowercase() } else { line.clone() });
        count += 1;
    }
    input.extend(std::iter::repeat_n(b'4', target - input.len()));
    input
}
