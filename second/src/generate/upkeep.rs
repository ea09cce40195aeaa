//! Cases of names that come and go: one add or withdrawal on given words, and runs of calls from the empty index.

use crate::build::{words_of, words_of_names, Registered};
use crate::features::{features, judge, numbered};
use crate::generate::{names, registers, words};
use crate::index::cut;
use crate::limits::{BLANK, MOST_ID, NAMES};
use crate::protocol::{pairs, spaced};
use crate::random::Random;
use crate::upkeep::{live_names, words_of_live, Call, Live};

// One call on given words.

/// 255 or 256 names: short ones, all the same, or with features that no name gives.
fn many(random: &mut Random, known: &[u8]) -> Vec<u32> {
    let count = random.pick(&[NAMES - 1, NAMES, NAMES]);
    match random.below(4) {
        0 => words_of_names(&registers::crowded(random, count)),
        1 => {
            let known = features(known);
            words_of(&words::made_up(random, count, &[3, 4], &known[..known.len().min(6)]))
        }
        _ => {
            let ids = registers::ids(random, count);
            words_of_names(&ids.into_iter().map(|id| Registered { id, name: known.to_vec() }).collect::<Vec<_>>())
        }
    }
}

/// A good index, and names that are in it or near to what is.
fn whole(random: &mut Random) -> (Vec<u32>, Vec<Vec<u8>>) {
    let register = match random.below(600) {
        0 => {
            let count = random.between(NAMES - 1, NAMES);
            registers::wide(random, count)
        }
        1..=5 => registers::middling(random),
        6..=59 => {
            let known = names::short(random);
            return (many(random, &known), vec![known]);
        }
        60..=239 => {
            let known = names::fresh(random);
            return (words::whole(random, &known), vec![names::like(random, &known), known]);
        }
        240..=309 => registers::even(random),
        310..=339 => {
            let ids = registers::ids(random, 1);
            vec![Registered { id: ids[0], name: names::fresh(random) }]
        }
        _ => registers::small(random),
    };
    (words_of_names(&register), register.into_iter().map(|name| name.name).collect())
}

/// Words that are no good index, or only by chance.
fn damaged(random: &mut Random, whole: &[u32]) -> Vec<u32> {
    if random.once_in(10) {
        return vec![BLANK; random.pick(&[0, 0, 1, 2, 3, 19, 40])];
    }
    let (_, damage) = random.pick(&words::DAMAGES);
    damage(random, whole)
}

/// Rubbish up to a length: what a longer index may have left, or anything.
fn lent(random: &mut Random, mut words: Vec<u32>, length: usize) -> Vec<u32> {
    let old = words.clone();
    while words.len() < length {
        let any = random.next() as u32;
        let left = if old.is_empty() { 0 } else { random.pick(&old) };
        words.push(random.pick(&[0, 1, 3, BLANK, 0xA5A5_A5A5, left, left, any]));
    }
    words
}

/// The ids of words, good or not, that a call can name.
fn ids_in(words: &[u32]) -> Vec<u32> {
    let names = cut(words).map_or(Vec::new(), |index| index.names);
    names.into_iter().map(|name| name.id).filter(|id| *id <= MOST_ID).collect()
}

/// An id that is not among some: below them, between them, above them, the least or the greatest there is, or any.
fn unused(random: &mut Random, live: &[u32]) -> u32 {
    let any = random.below(MOST_ID as usize + 1) as u32;
    let mut near = vec![0, MOST_ID, any];
    if let (Some(first), Some(last)) = (live.first(), live.last()) {
        let beside = random.pick(live);
        near.extend([first.saturating_sub(1), last + 1, beside + 1, beside.saturating_sub(1), beside + 1]);
    }
    near.retain(|id| *id <= MOST_ID && !live.contains(id));
    if near.is_empty() {
        (0..=MOST_ID).find(|id| !live.contains(id)).unwrap_or(0)
    } else {
        random.pick(&near)
    }
}

/// A live id, the first or the last as often as any, or one that is not, so many times of ten.
fn id(random: &mut Random, live: &[u32], live_of_ten: usize) -> u32 {
    match (live.first(), live.last()) {
        (Some(first), Some(last)) if random.below(10) < live_of_ten => {
            let any = random.pick(live);
            random.pick(&[*first, *last, any, any])
        }
        _ => unused(random, live),
    }
}

/// A name that shares no feature with any of the others: of bytes that they do not have.
fn unlike(random: &mut Random) -> Vec<u8> {
    let length = random.between(1, 6);
    (0..length).map(|_| random.between(0xE0, 0xFE) as u8).collect()
}

/// A name to add: refused, of a length at an edge, equal to a known one, like one, unlike all, or fresh.
fn name(random: &mut Random, known: &[Vec<u8>]) -> Vec<u8> {
    match random.below(20) {
        0..=3 => names::bad(random),
        4 => {
            let length = random.pick(&[1, 1, 2, 63, 64, 65, 199, 200, 201, 255]);
            names::of_length(random, length)
        }
        5..=8 if !known.is_empty() => random.pick(known),
        9..=12 if !known.is_empty() => {
            let name = random.pick(known);
            names::like(random, &name)
        }
        13 | 14 => unlike(random),
        _ => names::fresh(random),
    }
}

/// The total of the index with one name more, whatever its id, and whether or not it is a name that passes.
fn needed(live: &Live, name: &[u8]) -> usize {
    let mut more = live.clone();
    more.insert(MOST_ID + 1, numbered(name).into_iter().collect());
    words_of_live(&more).len()
}

/// An add: an id, a name and words with room for just the index that results, one word less, one more, plenty or none.
pub fn add(random: &mut Random) -> String {
    let (whole, known) = whole(random);
    let bad = random.once_in(7);
    let words = if bad { damaged(random, &whole) } else { whole };
    let id = id(random, &ids_in(&words), 2);
    let name = name(random, &known);
    let (total, need) = match live_names(&words) {
        Ok(live) => (words_of_live(&live).len(), needed(&live, &name)),
        Err(_) => (words.len(), words.len() + 20),
    };
    let plenty = need + random.between(2, 60);
    let length = random.pick(&[total, need - 1, need - 1, need, need, need, need + 1, plenty, plenty, plenty]);
    let words = if bad && random.once_in(2) { words } else { lent(random, words, length) };
    [id.to_string(), pairs(&name), spaced(&words)].join(" ")
}

/// A withdrawal: an id and words, with rubbish beyond the total or none.
pub fn withdraw(random: &mut Random) -> String {
    let (whole, _) = whole(random);
    let words = if random.once_in(7) { damaged(random, &whole) } else { whole };
    let id = id(random, &ids_in(&words), 7);
    let length = words.len() + random.pick(&[0, 0, 1, 2, 6, 40]);
    [id.to_string(), spaced(&lent(random, words, length))].join(" ")
}

// Runs of calls.

/// The calls of a run so far, and what they leave live where there is room for all of it.
struct Course {
    calls: Vec<Call>,
    live: Live,
    /// The total of the empty index, and after each call.
    totals: Vec<usize>,
}

impl Course {
    fn new() -> Course {
        Course { calls: Vec::new(), live: Live::new(), totals: vec![3] }
    }

    fn add(&mut self, id: u32, name: Vec<u8>) {
        if judge(&name).is_ok() && !self.live.contains_key(&id) && self.live.len() < NAMES {
            self.live.insert(id, features(&name).into_iter().collect());
        }
        self.calls.push(Call::Add { id, name });
        self.totals.push(words_of_live(&self.live).len());
    }

    fn withdraw(&mut self, id: u32) {
        self.live.remove(&id);
        self.calls.push(Call::Withdraw { id });
        self.totals.push(words_of_live(&self.live).len());
    }

    /// One of some ids, mostly one that is live, or that is not.
    fn pick(&self, random: &mut Random, ids: &[u32], live: bool) -> u32 {
        let wanted: Vec<u32> = ids.iter().copied().filter(|id| self.live.contains_key(id) == live).collect();
        if wanted.is_empty() || random.once_in(6) {
            random.pick(ids)
        } else {
            random.pick(&wanted)
        }
    }
}

/// Names to come and go: a few, some of them equal and some alike.
fn names_to_come(random: &mut Random) -> Vec<Vec<u8>> {
    let fresh = random.pick(&[names::fresh as fn(&mut Random) -> Vec<u8>, names::short, names::even]);
    let mut known = vec![fresh(random)];
    for _ in 0..random.between(0, 5) {
        let name = random.pick(&known);
        known.push(match random.below(5) {
            0 => name,
            1 | 2 => names::like(random, &name),
            3 => unlike(random),
            _ => fresh(random),
        });
    }
    known
}

/// So many calls on a few ids, which come and go in turns that grow and shrink.
fn turns(random: &mut Random, count: usize) -> Course {
    let among = random.between(1, 10);
    let ids = registers::ids(random, among);
    let known = names_to_come(random);
    let mut course = Course::new();
    let mut adds_of_ten = 8;
    while course.calls.len() < count {
        if random.once_in(8) {
            adds_of_ten = random.pick(&[2, 5, 8]);
        }
        if random.below(10) < adds_of_ten {
            let id = course.pick(random, &ids, false);
            let name = if random.once_in(12) { names::bad(random) } else { random.pick(&known) };
            course.add(id, name);
        } else {
            let id = course.pick(random, &ids, true);
            course.withdraw(id);
        }
    }
    course
}

/// Names up to 256, in any order of their ids, all the same now and then, and then calls at that edge.
fn crowd(random: &mut Random) -> Course {
    let mut ids = registers::ids(random, NAMES + 4);
    let (letters, most) = random.pick(&[(&b"A"[..], 1), (b"A", 1), (b"A", 2), (b"AB", 2), (b"ABC", 2)]);
    let short = |random: &mut Random| (0..random.between(1, most)).map(|_| random.pick(letters)).collect::<Vec<u8>>();
    for at in (1..ids.len()).rev() {
        ids.swap(at, random.below(at + 1));
    }
    let mut course = Course::new();
    for id in &ids[..NAMES - 1] {
        course.add(*id, short(random));
    }
    for _ in 0..random.between(20, 40) {
        match random.below(8) {
            0..=3 => {
                let id = course.pick(random, &ids, false);
                course.add(id, short(random));
            }
            4 => {
                let id = course.pick(random, &ids, true);
                course.add(id, short(random));
            }
            5 => {
                let id = random.pick(&ids);
                course.add(id, names::bad(random));
            }
            _ => {
                let id = course.pick(random, &ids, true);
                course.withdraw(id);
            }
        }
    }
    course
}

/// A run of calls, in as many words as the index takes after one of them or at the most, one less, one more, or plenty.
pub fn calls(random: &mut Random) -> String {
    let course = match random.below(240) {
        0 | 239 => crowd(random),
        1..=5 => {
            let count = random.between(200, 300);
            turns(random, count)
        }
        6..=45 => {
            let count = random.between(25, 60);
            turns(random, count)
        }
        46..=75 => {
            let count = random.between(0, 2);
            turns(random, count)
        }
        _ => {
            let count = random.between(3, 24);
            turns(random, count)
        }
    };
    let most = course.totals.iter().copied().max().unwrap_or(3);
    let then = random.pick(&course.totals);
    let then = if then == 3 { most } else { then };
    let length = match random.below(24) {
        0 => random.below(3),
        1 => random.pick(&[3, 4, 18, 19, 20]),
        2..=5 => most,
        6..=8 => most - 1,
        9 => most + 1,
        10..=14 => then,
        15..=17 => then - 1,
        _ => most + random.between(2, 60),
    };
    let shown = course.calls.iter().map(|call| match call {
        Call::Add { id, name } => format!("+{id}:{}", pairs(name)),
        Call::Withdraw { id } => format!("-{id}"),
    });
    [vec![length.to_string()], shown.collect()].concat().join(" ")
}
