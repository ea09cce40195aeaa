//! The counted search, in the rule's own steps.

use crate::features::{features, judge};
use crate::index::{good_index, Index};
use crate::limits::{LEAST_SIZE, MOST_SIZE};
use crate::measures::{least_count, searched, Measure, Threshold};
use crate::refusal::Refusal;

/// An answer row.
#[derive(Clone, Copy, Debug, PartialEq, Eq)]
pub struct AnswerRow {
    pub id: u32,
    pub shared: u32,
    pub size: u32,
    /// The least count for this size and the query's.
    pub least: u32,
}

/// What a search asks for.
#[derive(Clone, Debug, PartialEq, Eq)]
pub struct Query {
    pub measure: u32,
    pub p: u32,
    pub q: u32,
    pub allowance: u32,
    pub name: Vec<u8>,
}

/// What a search reports: its number, how many rows it wrote, its touches, and the threshold in lowest terms,
/// 0/0 with a refusal.
#[derive(Clone, Copy, Debug, PartialEq, Eq)]
pub struct Answer {
    pub number: u8,
    pub rows: usize,
    pub touches: u32,
    pub p: u32,
    pub q: u32,
}

impl Answer {
    pub fn refused(refusal: Refusal, touches: u32) -> Answer {
        Answer { number: refusal.number(), rows: 0, touches, p: 0, q: 0 }
    }
}

/// The search of one size, with what its bounds speak of.
#[derive(Clone, Debug, PartialEq, Eq)]
pub struct SizeSearch {
    pub least: u32,
    /// The postings of the signature lists.
    pub postings: u32,
    /// The distinct ids met in the signature lists.
    pub candidates: u32,
    pub touches: u32,
    pub rows: Vec<AnswerRow>,
}

/// A candidate: an id, and in how many of the lists gone through so far it stands.
#[derive(Clone, Copy)]
struct Candidate {
    id: u32,
    count: u32,
}

/// Searches one size for a query's features.
pub fn search_size(index: &Index<'_>, size: u32, query: &[u32], measure: Measure, threshold: Threshold) -> SizeSearch {
    let x = query.len() as u32;
    let t = least_count(measure, threshold, x, size);

    // The features by list length, then by feature number.
    let mut order: Vec<(usize, u32, &[u32])> = query
        .iter()
        .map(|feature| {
            let list = index.list_for(size, *feature);
            (list.len(), *feature, list)
        })
        .collect();
    order.sort_by_key(|(length, feature, _)| (*length, *feature));

    // The first x−t+1 are signatures; each posting of theirs is a touch.
    let signatures = (x + 1 - t) as usize;
    let mut touches = 0;
    let mut candidates: Vec<Candidate> = Vec::new();
    for (_, _, list) in &order[..signatures] {
        for id in *list {
            touches += 1;
            match candidates.iter_mut().find(|candidate| candidate.id == *id) {
                Some(candidate) => candidate.count += 1,
                None => candidates.push(Candidate { id: *id, count: 1 }),
            }
        }
    }
    let (postings, met) = (touches, candidates.len() as u32);

    // Each later feature: one test, one touch, for each candidate left; then those out of reach are dropped.
    for k in signatures as u32..x {
        let (_, _, list) = order[k as usize];
        let mut left = Vec::new();
        for mut candidate in candidates {
            touches += 1;
            if list.contains(&candidate.id) {
                candidate.count += 1;
            }
            let dropped = candidate.count + x - k - 1 < t;
            if !dropped {
                left.push(candidate);
            }
        }
        candidates = left;
    }

    let rows = candidates.iter().map(|left| AnswerRow { id: left.id, shared: left.count, size, least: t }).collect();
    SizeSearch { least: t, postings, candidates: met, touches, rows }
}

/// Searches every searched size upward: all touches, and all rows by ascending id.
pub fn search_sizes(index: &Index<'_>, query: &[u32], measure: Measure, threshold: Threshold) -> (u32, Vec<AnswerRow>) {
    let mut touches = 0;
    let mut rows = Vec::new();
    for size in LEAST_SIZE..=MOST_SIZE {
        if searched(measure, threshold, query.len() as u32, size) {
            let one = search_size(index, size, query, measure, threshold);
            touches += one.touches;
            rows.extend(one.rows);
        }
    }
    rows.sort_by_key(|row| row.id);
    (touches, rows)
}

/// Searches an index. Rows beyond the answers keep their contents, after a refusal all rows do.
pub fn search(words: &[u32], query: &Query, rows: &mut [AnswerRow]) -> Answer {
    match judged(words, query) {
        Err(refusal) => Answer::refused(refusal, 0),
        Ok((index, measure, threshold)) => {
            let (touches, found) = search_sizes(&index, &features(&query.name), measure, threshold);
            if touches > query.allowance {
                return Answer::refused(Refusal::Allowance, query.allowance);
            }
            if found.len() > rows.len() {
                return Answer::refused(Refusal::Room, touches);
            }
            rows[..found.len()].copy_from_slice(&found);
            let (p, q) = threshold.lowest();
            Answer { number: 0, rows: found.len(), touches, p, q }
        }
    }
}

/// What is judged before the search itself: 1, 2, 3, 12, 4, 5, 6 in that order.
pub fn judged<'a>(words: &'a [u32], query: &Query) -> Result<(Index<'a>, Measure, Threshold), Refusal> {
    judge(&query.name)?;
    let measure = Measure::of(query.measure)?;
    let threshold = Threshold::of(query.p, query.q)?;
    let index = good_index(words).ok_or(Refusal::NotGood)?;
    Ok((index, measure, threshold))
}
