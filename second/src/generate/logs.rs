//! Logs: days, readings and typed names for an index, lines that hold them, and damage to the lines.

use crate::features::judge;
use crate::frames::{line_of, write_log, write_query, END};
use crate::generate::{lines, names, queries};
use crate::import::Settings;
use crate::limits::{LOG_LINES, NO_READING};
use crate::lookup::written;
use crate::random::Random;

/// A day: at an edge of the first weeks or the last, in the first weeks, or anywhere.
pub fn day(random: &mut Random) -> u16 {
    match random.below(10) {
        0..=4 => random.pick(&[0, 0, 1, 6, 6, 7, 7, 13, 14]),
        5 => random.pick(&[65_533, 65_534, 65_535]),
        6 | 7 => random.below(30) as u16,
        _ => random.next() as u16,
    }
}

/// A reading: often missing, or at an edge.
pub fn reading(random: &mut Random) -> u16 {
    match random.below(10) {
        0..=2 => NO_READING,
        3 | 4 => random.pick(&[0, 0, 1, 65_534]),
        5 => random.next() as u16,
        _ => random.below(300) as u16,
    }
}

/// The line of a log.
pub fn line(day: u16, reading: u16, name: &[u8]) -> Vec<u8> {
    written(|buffer| write_log(day, reading, name, buffer))
}

/// A typed name: known, like a known one, another, now and then a refused one.
pub fn typed(random: &mut Random, known: &[Vec<u8>]) -> Vec<u8> {
    match random.below(12) {
        0 => names::bad(random),
        1..=6 if !known.is_empty() => random.pick(known),
        7..=9 if !known.is_empty() => {
            let name = random.pick(known);
            if judge(&name).is_ok() {
                names::like(random, &name)
            } else {
                name
            }
        }
        _ => names::fresh(random),
    }
}

/// A log of typed names, days and readings. Now and then all of it is of one day, or of one name.
pub fn log(random: &mut Random, known: &[Vec<u8>], count: usize) -> Vec<Vec<u8>> {
    let one_day = random.once_in(6).then(|| day(random));
    let one_name = random.once_in(12).then(|| typed(random, known));
    let one_reading = random.once_in(12).then(|| reading(random));
    let one = |random: &mut Random| {
        let name = one_name.clone().unwrap_or_else(|| typed(random, known));
        let (day, reading) = (day(random), reading(random));
        line(one_day.unwrap_or(day), one_reading.unwrap_or(reading), &name)
    };
    (0..count).map(|_| one(random)).collect()
}

/// A log with many pairs: each line has a week of its own and a known name, now and then but for a few refused ones.
pub fn scattered(random: &mut Random, known: &[Vec<u8>], count: usize) -> Vec<Vec<u8>> {
    // 1, 3 and 5 have no factor in common with 9,362, so that the first 9,362 weeks are all different.
    let (start, step) = (random.below(9362), random.pick(&[1, 3, 5]));
    let refused = random.once_in(4);
    let one = |random: &mut Random, at: usize| {
        let week = (start + at * step) % 9362;
        let (day, reading) = ((7 * week + random.below(7)) as u16, reading(random));
        let name = if refused && random.once_in(200) { names::bad(random) } else { random.pick(known) };
        line(day, reading, &name)
    };
    (0..count).map(|at| one(random, at)).collect()
}

/// Settings by which a name is like itself, and next to nothing else is.
pub fn strict(random: &mut Random) -> Settings {
    Settings { measure: random.between(1, 4) as u32, p: 1, q: 1, allowance: 16_896 }
}

/// What the lines of a log are searched with, and a typed name that it is made for: the threshold may lie on that name's
/// similarity to a name of the index, and the allowance at its touches.
pub fn settings(random: &mut Random, words: &[u32], known: &[Vec<u8>]) -> (Settings, Vec<u8>) {
    let query = queries::query(random, words, known);
    let (mut p, mut q, mut allowance) = (query.p, query.q, query.allowance);
    if random.once_in(3) {
        (p, q) = random.pick(&[(1, 1), (9, 10), (7, 10), (1, 2), (2, 5)]);
    }
    if !random.once_in(3) {
        allowance = random.pick(&[16_896, 16_896, u32::MAX]);
    }
    (Settings { measure: query.measure, p, q, allowance }, query.name)
}

/// The settings line, with a name, which is to be empty.
pub fn settings_line(settings: &Settings, name: &[u8]) -> Vec<u8> {
    let (measure, p, q) = (settings.measure as u8, settings.p as u16, settings.q as u16);
    written(|buffer| write_query(measure, p, q, settings.allowance, name, buffer))
}

/// A place for a damage: in a long log mostly around the 1,025th line.
fn place(random: &mut Random, count: usize) -> usize {
    let any = random.below(count);
    if count < LOG_LINES - 1 {
        any
    } else {
        random.pick(&[any, LOG_LINES - 1, LOG_LINES, LOG_LINES + 1]).min(count - 1)
    }
}

/// Puts a damaged line, an empty one or one of another kind into a log that has lines, one to three times.
pub fn damage(random: &mut Random, log: &mut [Vec<u8>]) {
    for _ in 0..random.pick(&[1, 1, 1, 2, 3]) {
        let at = place(random, log.len());
        log[at] = match random.below(6) {
            0 => b"\n".to_vec(),
            1 => random
                .pick(&[
                    &b"51010001000100000000\n"[..],
                    b"51010001000100000000FF00\n",
                    b"4E000A044C414E45\n",
                    b"4F01000A\n",
                    b"4C\n",
                    b"5A00000000\n",
                    b"\r\n",
                ])
                .to_vec(),
            2 => line_of(&[END, 0, 3, 0, 0, 0, 15, 0, 8, 0, 13]),
            _ if log[at].len() > 3 => lines::damaged(random, &log[at]),
            _ => b"4c0000000000\n".to_vec(),
        };
    }
}
