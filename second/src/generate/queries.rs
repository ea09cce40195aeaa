//! Queries, made for an index: thresholds that lie on a similarity, allowances at the count of touches.

use crate::features::features;
use crate::frames::write_query;
use crate::generate::names;
use crate::index::{good_index, Index};
use crate::limits::MOST_Q;
use crate::lookup::written;
use crate::measures::{similar, Measure, Threshold};
use crate::random::Random;
use crate::search::{judged, search_sizes, Query};

/// A query for an index: a name of the register, one like it or another, now and then a refused one.
pub fn query(random: &mut Random, words: &[u32], register: &[Vec<u8>]) -> Query {
    let name = query_name(random, register);
    let measure = if random.once_in(16) { random.pick(&[0, 5, 6, 255]) } else { random.between(1, 4) as u32 };
    let (p, q) = match good_index(words) {
        Some(index) if !index.names.is_empty() => threshold(random, &index, &features(&name), measure),
        _ => any_threshold(random),
    };
    let mut query = Query { measure, p, q, allowance: 0, name };
    query.allowance = allowance(random, words, &query);
    query
}

fn query_name(random: &mut Random, register: &[Vec<u8>]) -> Vec<u8> {
    match random.below(16) {
        0 => names::bad(random),
        1..=4 if !register.is_empty() => random.pick(register),
        5..=11 if !register.is_empty() => {
            let name = random.pick(register);
            names::like(random, &name)
        }
        _ => names::fresh(random),
    }
}

/// A threshold on the similarity to one name of the index, just above it, just below it, or any other.
fn threshold(random: &mut Random, index: &Index<'_>, query: &[u32], measure: u32) -> (u32, u32) {
    let Ok(measure) = Measure::of(measure) else { return any_threshold(random) };
    if query.is_empty() || random.once_in(4) {
        return any_threshold(random);
    }
    let name = random.pick(&index.names);
    let shared = query.iter().filter(|feature| index.list_for(name.size, **feature).contains(&name.id)).count();
    let (p, q) = on_similarity(random, measure, query.len() as u32, name.size, shared as u32);
    match random.below(6) {
        0 if p < q => (p + 1, q),
        1 if p > 1 => (p - 1, q),
        _ => (p, q),
    }
}

/// A threshold equal to the similarity, in terms up to 1000; where there is none, the greatest below it with some q.
pub fn on_similarity(random: &mut Random, measure: Measure, x: u32, y: u32, c: u32) -> (u32, u32) {
    let exact = match measure {
        Measure::Dice => Some((2 * c, x + y)),
        Measure::Jaccard => Some((c, x + y - c)),
        Measure::Cosine => (1..=x.max(y)).find(|root| root * root == x * y).map(|root| (c, root)),
        Measure::Overlap => Some((c, x.min(y))),
    };
    if c == 0 {
        return (1, MOST_Q);
    }
    let (p, q) = exact.unwrap_or_else(|| {
        let q = random.pick(&[1000, 1000, 999, 100, 10, 7]);
        let under = |p: &u32| Threshold::of(*p, q).is_ok_and(|threshold| similar(measure, threshold, x, y, c));
        ((1..=q).rev().find(under).unwrap_or(1), q)
    });
    let times = random.between(1, (MOST_Q / q) as usize) as u32;
    (p * times, q * times)
}

/// A threshold of any kind, now and then a refused one.
pub fn any_threshold(random: &mut Random) -> (u32, u32) {
    match random.below(8) {
        0 => random.pick(&[(0, 1), (0, 0), (1, 0), (2, 1), (1, 1001), (1001, 1001), (1000, 999), (65_535, 65_535)]),
        1 | 2 => random.pick(&[(1, 1), (1000, 1000), (1, 1000), (999, 1000), (1, 2), (500, 1000), (70, 100), (7, 10)]),
        3 => {
            let q = random.between(1, MOST_Q as usize);
            (random.between(1, q) as u32, q as u32)
        }
        _ => {
            let q = random.between(1, 12);
            (random.between(1, q) as u32, q as u32)
        }
    }
}

/// An allowance at the count of touches, one below it or one above, or at an edge of its own.
fn allowance(random: &mut Random, words: &[u32], query: &Query) -> u32 {
    let count = judged(words, query)
        .map_or(0, |(index, measure, threshold)| search_sizes(&index, &features(&query.name), measure, threshold).0);
    match random.below(10) {
        0..=2 => count,
        3 => count.saturating_sub(1),
        4 | 5 => count + 1,
        6 => 0,
        7 => random.below(count as usize + 1) as u32,
        _ => random.pick(&[16_896, 65_536, 2_147_483_648, 4_294_967_295]),
    }
}

/// The line of a query. Fields beyond their bytes keep their low ones.
pub fn line(query: &Query) -> Vec<u8> {
    written(|buffer| {
        let (measure, p, q) = (query.measure as u8, query.p as u16, query.q as u16);
        write_query(measure, p, q, query.allowance, &query.name, buffer)
    })
}
