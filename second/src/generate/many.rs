//! Many queries at once: one line of their protocol.

use crate::generate::{imports, logs};
use crate::many::{search_many, search_one, Outcome, Queries};
use crate::protocol::{pairs, spaced};
use crate::random::Random;
use crate::search::AnswerRow;

/// Ends that do not ascend, or lie beyond the bytes: one of them is changed.
fn damage(random: &mut Random, queries: &mut Queries) {
    let (at, bytes) = (random.below(queries.ends.len()), queries.bytes.len() as u32);
    let before = queries.start(at);
    let any = random.below(bytes as usize + 2) as u32;
    queries.ends[at] =
        random.pick(&[before.saturating_sub(1), 0, bytes, bytes + 1, any, any, u32::MAX, queries.ends[at] + 1]);
}

/// No query, one, some, or many; of an index good or damaged; places and rooms at what is needed, one below and one above,
/// or at the rows of some of the queries.
pub fn many(random: &mut Random) -> String {
    let (words, known) = imports::index(random);
    let (settings, name) = logs::settings(random, &words, &known);
    let count = match random.below(12) {
        0 => 0,
        1 | 2 => 1,
        3 => random.between(13, 60),
        _ => random.between(2, 12),
    };
    let known = [known, vec![name]].concat();
    let names: Vec<Vec<u8>> = (0..count).map(|_| logs::typed(random, &known)).collect();
    let ends = names.iter().scan(0, |end, name| {
        *end += name.len() as u32;
        Some(*end)
    });
    let mut queries = Queries {
        measure: settings.measure,
        p: settings.p,
        q: settings.q,
        allowance: settings.allowance,
        ends: ends.collect(),
        bytes: names.concat(),
    };
    if count > 0 && random.once_in(4) {
        damage(random, &mut queries);
    }
    match random.below(20) {
        0 => drop(queries.bytes.pop()),
        1 => queries.bytes.push(b'A'),
        _ => (),
    }

    let each: Vec<usize> = (0..count).map(|k| search_one(&words, &queries, k).1.len()).collect();
    let all: usize = each.iter().sum();
    let some: usize = each[..random.below(count + 1)].iter().sum();
    let places = match random.below(10) {
        0..=5 => count,
        6 => count.saturating_sub(1),
        7 => count + 1,
        8 => random.below(count + 1),
        _ => random.pick(&[0, count + 5]),
    };
    let rows = match random.below(10) {
        0..=3 => all,
        4 => all.saturating_sub(1),
        5 => all + 1,
        6 => some,
        7 => (some + 1).min(all),
        8 => some.saturating_sub(1),
        _ => random.pick(&[0, all + 5, 300]),
    };
    let (mut outcomes, mut found) = (
        vec![Outcome { number: 0, until: 0, touches: 0 }; count],
        vec![AnswerRow { id: 0, shared: 0, size: 0, least: 0 }; all],
    );
    assert_eq!(search_many(&words, &queries, &mut outcomes, &mut found).number, 0);
    let numbers = [queries.measure, queries.p, queries.q, queries.allowance, places as u32, rows as u32];
    let ends = [vec![queries.ends.len() as u32], queries.ends].concat();
    [spaced(&numbers), pairs(&queries.bytes), spaced(&[ends, words].concat())].join(" ")
}
