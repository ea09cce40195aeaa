//! Index words: built ones, ones whose features come from no name, and damage to them.

use std::collections::BTreeSet;

use crate::build::{words_of, words_of_names, Registered};
use crate::features::{features, numbered};
use crate::generate::{names, registers};
use crate::index::cut;
use crate::limits::{LEAST_SIZE, MOST_SIZE, NAMES};
use crate::random::Random;

/// An index taken apart so that a part of it can be damaged and the rest still fit: places, counts and totals are
/// worked out when it is put together.
#[derive(Clone, Debug)]
pub struct Plan {
    pub names: Vec<(u32, u32)>,
    pub rows: Vec<(u32, u32, Vec<u32>)>,
}

impl Plan {
    /// The plan of words that can be cut and whose lists are all within the postings.
    pub fn of(words: &[u32]) -> Option<Plan> {
        let index = cut(words)?;
        let rows: Option<Vec<_>> =
            index.rows.iter().map(|row| Some((row.size, row.feature, index.list(row)?.to_vec()))).collect();
        Some(Plan { names: index.names.iter().map(|name| (name.id, name.size)).collect(), rows: rows? })
    }

    pub fn words(&self) -> Vec<u32> {
        let postings: Vec<u32> = self.rows.iter().flat_map(|(_, _, list)| list.clone()).collect();
        let mut words = vec![self.names.len() as u32, self.rows.len() as u32, postings.len() as u32];
        words.extend(self.names.iter().map(|(id, size)| id * 256 + size));
        let mut place = 0;
        for (size, feature, list) in &self.rows {
            words.extend([*size, *feature, place, list.len() as u32]);
            place += list.len() as u32;
        }
        words.extend(postings);
        words
    }
}

/// Names with features from a small store, so that lists are long. Some of the features are the ones given.
pub fn made_up(random: &mut Random, count: usize, sizes: &[u32], known: &[u32]) -> Vec<(u32, Vec<u32>)> {
    let ids = registers::ids(random, count);
    let store: Vec<u32> = (0..random.between(0, 6))
        .map(|_| random.next() as u32)
        .chain([0, 1, u32::MAX])
        .chain(known.iter().copied())
        .collect();
    ids.into_iter()
        .map(|id| {
            let size = random.pick(sizes) as usize;
            let mut features = BTreeSet::new();
            for _ in 0..3 * size {
                if features.len() < size {
                    features.insert(random.pick(&store));
                }
            }
            while features.len() < size {
                features.insert(random.next() as u32);
            }
            (id, features.into_iter().collect())
        })
        .collect()
}

/// The index of names like a known one that hold control characters, as it was built before these were refused.
fn former(random: &mut Random, known: &[u8]) -> Vec<u32> {
    let count = random.between(1, 5);
    let ids = registers::ids(random, count);
    let name = |random: &mut Random| {
        let name = names::like(random, known);
        numbered(&names::with_control(random, name))
    };
    words_of(&ids.into_iter().map(|id| (id, name(random))).collect::<Vec<_>>())
}

/// A good index, of a register, of names that a register may no longer have, or made up, with no word beyond its total.
pub fn whole(random: &mut Random, known: &[u8]) -> Vec<u32> {
    match random.below(40) {
        0 if random.once_in(8) => words_of_names(&registers::brimming(random)),
        0 => words_of_names(&registers::middling(random)),
        1 => {
            let count = random.between(NAMES - 1, NAMES);
            words_of(&made_up(random, count, &[3, 4], &[]))
        }
        2..=19 => words_of_names(&registers::small(random)),
        20 | 21 => former(random, known),
        _ => {
            let known = features(known);
            let near = (known.len() as u32).clamp(LEAST_SIZE, MOST_SIZE);
            let sizes = random.pick(&[
                vec![3],
                vec![3, 4],
                vec![3, 5, 6],
                vec![near],
                vec![near, (near + 1).min(MOST_SIZE), (near - 1).max(LEAST_SIZE)],
                vec![MOST_SIZE, 3],
                vec![66, 67, 3],
            ]);
            let count = random.between(0, 6);
            words_of(&made_up(random, count, &sizes, &known))
        }
    }
}

/// An index, good or damaged, now and then with words beyond its total.
pub fn any(random: &mut Random, known: &[u8], damaged_of_ten: usize) -> Vec<u32> {
    let mut words = whole(random, known);
    if random.below(10) < damaged_of_ten {
        let (_, damage) = random.pick(&DAMAGES);
        words = damage(random, &words);
    }
    if random.once_in(4) {
        let beyond = random.between(1, 6);
        words.extend((0..beyond).map(|_| random.pick(&[0, 1, u32::MAX, 0xA5A5_A5A5])));
    }
    words
}

/// How many inputs of a sweep have one index: enough for eight changes to each of its words.
pub const STRETCH: u64 = 1024;

/// A small good index with one of its words changed: word after word, and then each once more in the next way.
pub fn swept(random: &mut Random, at: u64) -> Vec<u32> {
    let count = random.between(1, 4);
    let mut words = if random.once_in(2) {
        words_of(&made_up(random, count, &[3, 4, 5], &[]))
    } else {
        let short = |random: &mut Random| (0..random.between(1, 3)).map(|_| random.pick(b"ABC\xFF")).collect();
        let names = registers::ids(random, count).into_iter().map(|id| Registered { id, name: short(random) });
        words_of_names(&names.collect::<Vec<_>>())
    };
    let (way, place) = (at as usize / words.len(), at as usize % words.len());
    let word = words[place];
    words[place] = match way {
        0 => word.wrapping_add(1),
        1 => word.wrapping_sub(1),
        2 => 0,
        3 => u32::MAX,
        4 => word.wrapping_add(256),
        5 => word ^ (1 << 31),
        6 => words[(place + 1) % words.len()],
        7 => word,
        _ => word ^ (1 << (way % 32)),
    };
    words
}

/// One way to damage an index: what it does, and how.
pub type Damage = (&'static str, fn(&mut Random, &[u32]) -> Vec<u32>);

/// Every way to damage an index. Few of them leave it good now and then; a comparison holds either way.
pub const DAMAGES: [Damage; 23] = [
    ("a word changed", word_changed),
    ("a word changed", word_changed),
    ("a word changed", word_changed),
    ("two words swapped", two_swapped),
    ("the slice cut short", cut_short),
    ("N, D or P one off, with words to spare", header_off),
    ("N, D or P huge", header_huge),
    ("two rows swapped", |random, words| on_plan(words, |plan| swap(random, &mut plan.rows))),
    ("a row split in two", row_split),
    ("a row with an empty list", row_empty),
    ("a row of another size", row_resized),
    ("two postings of a list swapped", |random, words| on_list(random, words, |random, list| swap(random, list))),
    ("a posting twice", posting_twice),
    ("a posting gone", posting_gone),
    ("a posting more", posting_more),
    ("a posting of another id", posting_other),
    ("a name gone", name_gone),
    ("a name in no list", name_more),
    ("two names swapped", |random, words| on_plan(words, |plan| swap(random, &mut plan.names))),
    ("an id past 65,535", id_past),
    ("a size past its limits", size_past),
    ("a 51,713th posting", posting_past),
    ("a 257th name", name_too_many),
];

/// Damage to a plan; words that have none are cut short.
fn on_plan(words: &[u32], damage: impl FnOnce(&mut Plan)) -> Vec<u32> {
    match Plan::of(words) {
        None => words[..words.len() / 2].to_vec(),
        Some(mut plan) => {
            damage(&mut plan);
            plan.words()
        }
    }
}

/// Damage to one list of a plan, a longer one if there is one.
fn on_list(random: &mut Random, words: &[u32], damage: fn(&mut Random, &mut Vec<u32>)) -> Vec<u32> {
    on_plan(words, |plan| {
        let long: Vec<usize> = (0..plan.rows.len()).filter(|at| plan.rows[*at].2.len() > 1).collect();
        if !plan.rows.is_empty() {
            let at = if long.is_empty() { random.below(plan.rows.len()) } else { random.pick(&long) };
            damage(random, &mut plan.rows[at].2);
        }
    })
}

fn swap<T>(random: &mut Random, values: &mut [T]) {
    if values.len() > 1 {
        let at = random.below(values.len() - 1);
        values.swap(at, at + 1);
    }
}

fn word_changed(random: &mut Random, words: &[u32]) -> Vec<u32> {
    let mut words = words.to_vec();
    let at = random.below(words.len());
    let word = words[at];
    words[at] = match random.below(9) {
        0 | 1 => word.wrapping_add(1),
        2 | 3 => word.wrapping_sub(1),
        4 => random.pick(&[0, 1, 2, MOST_SIZE + 1, 255, 256, 65_536, u32::MAX]),
        5 => word.wrapping_add(256),
        6 => word ^ (1 << random.below(32)),
        7 => random.pick(&words),
        _ => random.next() as u32,
    };
    words
}

fn two_swapped(random: &mut Random, words: &[u32]) -> Vec<u32> {
    let mut words = words.to_vec();
    let (at, with) = (random.below(words.len()), random.below(words.len()));
    words.swap(at, with);
    words
}

fn cut_short(random: &mut Random, words: &[u32]) -> Vec<u32> {
    let any = random.below(words.len());
    words[..random.pick(&[words.len() - 1, words.len() - 1, any, 0, 1, 2])].to_vec()
}

fn header_off(random: &mut Random, words: &[u32]) -> Vec<u32> {
    let mut words = words.to_vec();
    let at = random.below(3);
    words[at] = if random.once_in(2) { words[at].wrapping_add(1) } else { words[at].saturating_sub(1) };
    words.extend((0..6).map(|_| random.pick(&[0, 0, 1, u32::MAX])));
    words
}

/// N, D or P so large that a total worked out in 32 bits could come round to a small one.
fn header_huge(random: &mut Random, words: &[u32]) -> Vec<u32> {
    let mut words = words.to_vec();
    let at = random.below(3);
    let more = random.pick(&[1 << 30, 1 << 31, 3 << 30, 65_536, 257]);
    words[at] = words[at].wrapping_add(more);
    words
}

fn row_split(random: &mut Random, words: &[u32]) -> Vec<u32> {
    on_plan(words, |plan| {
        let long: Vec<usize> = (0..plan.rows.len()).filter(|at| plan.rows[*at].2.len() > 1).collect();
        if !long.is_empty() {
            let at = random.pick(&long);
            let (size, feature, list) = &mut plan.rows[at];
            let rest = list.split_off(1);
            let row = (*size, *feature, rest);
            plan.rows.insert(at + 1, row);
        }
    })
}

fn row_empty(random: &mut Random, words: &[u32]) -> Vec<u32> {
    on_plan(words, |plan| {
        let size = plan.names.first().map_or(3, |name| name.1);
        plan.rows.push((size, random.next() as u32, Vec::new()));
        plan.rows.sort();
    })
}

fn row_resized(random: &mut Random, words: &[u32]) -> Vec<u32> {
    on_plan(words, |plan| {
        if !plan.rows.is_empty() {
            let at = random.below(plan.rows.len());
            plan.rows[at].0 = random.pick(&[plan.rows[at].0 + 1, LEAST_SIZE, MOST_SIZE, MOST_SIZE + 1]);
            plan.rows.sort();
        }
    })
}

fn posting_twice(random: &mut Random, words: &[u32]) -> Vec<u32> {
    on_list(random, words, |random, list| {
        let at = random.below(list.len());
        list.insert(at, list[at]);
    })
}

fn posting_gone(random: &mut Random, words: &[u32]) -> Vec<u32> {
    on_list(random, words, |random, list| {
        let at = random.below(list.len());
        list.remove(at);
    })
}

/// One more name of the row's size in a list, at its right place if it is not there already.
fn posting_more(random: &mut Random, words: &[u32]) -> Vec<u32> {
    on_plan(words, |plan| {
        if !plan.rows.is_empty() {
            let at = random.below(plan.rows.len());
            let (size, _, list) = &mut plan.rows[at];
            let others: Vec<u32> = plan.names.iter().filter(|name| name.1 == *size).map(|name| name.0).collect();
            if !others.is_empty() {
                list.push(random.pick(&others));
                list.sort_unstable();
                list.dedup();
            }
        }
    })
}

fn posting_other(random: &mut Random, words: &[u32]) -> Vec<u32> {
    on_plan(words, |plan| {
        if !plan.rows.is_empty() && !plan.names.is_empty() {
            let row = random.below(plan.rows.len());
            let list = &mut plan.rows[row].2;
            if !list.is_empty() {
                let at = random.below(list.len());
                let other = random.pick(&plan.names).0;
                list[at] = random.pick(&[other, other, list[at] + 1, list[at] + 65_536]);
                list.sort_unstable();
            }
        }
    })
}

fn name_gone(random: &mut Random, words: &[u32]) -> Vec<u32> {
    on_plan(words, |plan| {
        if !plan.names.is_empty() {
            let at = random.below(plan.names.len());
            plan.names.remove(at);
        }
    })
}

fn name_more(random: &mut Random, words: &[u32]) -> Vec<u32> {
    on_plan(words, |plan| {
        let last = plan.names.last().map_or(0, |name| name.0);
        plan.names.push((last + 1, random.pick(&[3, 6, 66, MOST_SIZE])));
    })
}

/// The last id, everywhere it stands, becomes one that two bytes do not hold.
fn id_past(random: &mut Random, words: &[u32]) -> Vec<u32> {
    on_plan(words, |plan| {
        let Some(last) = plan.names.last_mut() else { return };
        let (old, new) = (last.0, random.pick(&[65_536, 65_537, 16_777_215]));
        last.0 = new;
        for id in plan.rows.iter_mut().flat_map(|row| row.2.iter_mut()).filter(|id| **id == old) {
            *id = new;
        }
    })
}

/// An index in which everything is right but that a name has 1, 2, 203 or 255 features.
fn size_past(random: &mut Random, _: &[u32]) -> Vec<u32> {
    let size = random.pick(&[1, 2, MOST_SIZE + 1, MOST_SIZE + 1, 255]);
    let count = random.between(1, 3);
    words_of(&made_up(random, count, &[size, 3], &[]))
}

/// An index in which everything is right but that one of 256 names has 203 features, and so there are 51,713 postings: now
/// and then, as it is large.
fn posting_past(random: &mut Random, words: &[u32]) -> Vec<u32> {
    if !random.once_in(8) {
        return size_past(random, words);
    }
    let names: Vec<(u32, Vec<u32>)> =
        registers::ids(random, NAMES).into_iter().zip(0..).map(|(id, at)| (id, (0..MOST_SIZE + u32::from(at == 9)).collect())).collect();
    words_of(&names)
}

/// An index in which everything is right but that it has 257 names.
fn name_too_many(random: &mut Random, _: &[u32]) -> Vec<u32> {
    words_of(&made_up(random, NAMES + 1, &[3], &[]))
}
