//! Registers: names under ascending ids, lines that hold them, and damage to the lines.

use crate::build::{words_of_names, Registered};
use crate::features::control;
use crate::frames::write_name;
use crate::generate::{lines, names};
use crate::limits::{MOST_ID, NAMES, NAME_BYTES};
use crate::lookup::written;
use crate::random::Random;

/// As many strictly ascending ids as asked for, now and then from 0, with gaps, or up to 65,535.
pub fn ids(random: &mut Random, count: usize) -> Vec<u32> {
    let slack = MOST_ID as usize + 1 - count;
    let (start, gap) = match random.below(4) {
        0 => (0, 1),
        1 => (slack, 1),
        2 => (random.between(0, slack / 2), 1 + slack / 2 / (count + 1)),
        _ => (random.between(0, 300.min(slack / 2)), 1 + 3.min(slack / 2 / (count + 1))),
    };
    let mut next = start;
    (0..count)
        .map(|_| {
            let id = next;
            next += random.between(1, gap);
            id as u32
        })
        .collect()
}

/// Names under ascending ids: some fresh, some like an earlier one, some equal to one.
pub fn of_count(random: &mut Random, count: usize, fresh: fn(&mut Random) -> Vec<u8>) -> Vec<Registered> {
    let mut register: Vec<Registered> = Vec::new();
    for id in ids(random, count) {
        let name = match (register.is_empty(), random.below(6)) {
            (false, 0) => random.pick(&register).name,
            (false, 1..=3) => {
                let name = random.pick(&register).name;
                names::like(random, &name)
            }
            _ => fresh(random),
        };
        register.push(Registered { id, name });
    }
    register
}

/// A small register, the empty one included.
pub fn small(random: &mut Random) -> Vec<Registered> {
    let count = random.pick(&[0, 1, 1, 2, 3, 4, 5, 6, 8, 12]);
    of_count(random, count, names::fresh)
}

/// A register of up to 20 names that share a few features each.
pub fn even(random: &mut Random) -> Vec<Registered> {
    let count = random.between(4, 20);
    ids(random, count).into_iter().map(|id| Registered { id, name: names::even(random) }).collect()
}

/// A register of 20 to 80 names.
pub fn middling(random: &mut Random) -> Vec<Registered> {
    let count = random.between(20, 80);
    of_count(random, count, names::fresh)
}

/// A register of many short names, so that 256 fit the program's index.
pub fn crowded(random: &mut Random, count: usize) -> Vec<Registered> {
    let mut register = of_count(random, count, names::short);
    for name in &mut register {
        name.name.truncate(4);
    }
    register
}

/// A register whose index takes exactly `total` words, which is at least 11,107: one name of each length up to 64,
/// then names equal to one of those, each of which takes one word and as many postings as its size.
pub fn filling(random: &mut Random, total: usize) -> Vec<Registered> {
    const EACH: usize = 64;
    let mut names: Vec<Vec<u8>> = (1..=EACH).map(|length| names::of_length(random, length)).collect();
    let with_ids = |names: &[Vec<u8>], ids: &[u32]| -> Vec<Registered> {
        names.iter().zip(ids).map(|(name, id)| Registered { id: *id, name: name.clone() }).collect()
    };
    let ids = ids(random, NAMES);
    let mut left = total - words_of_names(&with_ids(&names, &ids)).len();
    while left > 0 {
        // A name of n bytes takes n+3 words. Leave nothing, or enough for one more.
        let most = left.min(EACH + 3);
        let takes = if left == most || left - most >= 4 { most } else { most - 4 };
        names.push(names[takes - 4].clone());
        left -= takes;
    }
    with_ids(&names, &ids)
}

/// A register of names of 199 and 200 bytes that share next to nothing, so that nearly each feature has a row of its own.
pub fn wide(random: &mut Random, count: usize) -> Vec<Registered> {
    let letters: Vec<u8> = (0..=255).filter(|byte| !control(*byte)).collect();
    let name = |random: &mut Random| {
        let length = random.between(NAME_BYTES - 1, NAME_BYTES);
        (0..length).map(|_| random.pick(&letters)).collect()
    };
    let ids = ids(random, count);
    ids.into_iter().map(|id| Registered { id, name: name(random) }).collect()
}

/// A register of 256 names, starts of one long name, with 16,896, 16,897 or 51,712 postings: the most while a name had at
/// most 64 bytes, one more, and the most.
pub fn brimming(random: &mut Random) -> Vec<Registered> {
    let (each, last) = random.pick(&[(64, 64), (64, 65), (NAME_BYTES, NAME_BYTES)]);
    let long = names::of_length(random, NAME_BYTES);
    let ids = ids(random, NAMES);
    let length = |at: usize| if at + 1 == NAMES { last } else { each };
    ids.into_iter().enumerate().map(|(at, id)| Registered { id, name: long[..length(at)].to_vec() }).collect()
}

/// The line of a registered name. An id beyond two bytes keeps its low ones; the caller wants it damaged anyway.
pub fn line(name: &Registered) -> Vec<u8> {
    written(|buffer| write_name(name.id as u16, &name.name, buffer))
}

/// The lines of a register.
pub fn lines(register: &[Registered]) -> Vec<Vec<u8>> {
    register.iter().map(line).collect()
}

/// The lines of a register with one damage, or two: a damaged line, a bad name, an id out of order, a stray line,
/// lines in another order.
pub fn damaged_lines(random: &mut Random, register: &[Registered]) -> Vec<Vec<u8>> {
    let mut register = register.to_vec();
    if register.is_empty() {
        register = of_count(random, 1, names::fresh);
    }
    let mut other: Vec<Vec<u8>> = lines(&register);
    let mut at = random.below(register.len());
    for _ in 0..random.between(1, 2) {
        // A second damage is as often to the same line as to another.
        if random.once_in(2) {
            at = random.below(register.len());
        }
        match random.below(7) {
            0 | 1 => other[at] = lines::damaged(random, &line(&register[at])),
            2 => {
                register[at].name = names::bad(random);
                other[at] = line(&register[at]);
            }
            3 | 4 => {
                let id = register[at.saturating_sub(1)].id;
                register[at].id = id.saturating_sub(random.below(3) as u32);
                if random.once_in(3) {
                    register[at].name = names::bad(random);
                }
                other[at] = line(&register[at]);
            }
            5 => {
                let stray =
                    random.pick(&[&b"\n"[..], b"5\n", b"52000A0606\n", b"4E\n", b"\r\n", b"4E000A044C414E45 \n"]);
                other[at].extend(stray);
            }
            _ => {
                let with = random.below(register.len());
                register.swap(at, with);
                other.swap(at, with);
            }
        }
    }
    other
}
