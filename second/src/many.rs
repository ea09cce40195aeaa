//! Many queries of one index at once.

use crate::limits::NAMES;
use crate::refusal::Refusal;
use crate::search::{search, Answer, AnswerRow, Query};

/// What many queries ask for: they stand one after the other in the bytes, and each goes to its end.
#[derive(Clone, Debug, PartialEq, Eq)]
pub struct Queries {
    pub measure: u32,
    pub p: u32,
    pub q: u32,
    pub allowance: u32,
    pub bytes: Vec<u8>,
    pub ends: Vec<u32>,
}

/// What became of a query: its number, where its rows end among those of all, and its touches.
#[derive(Clone, Copy, Debug, PartialEq, Eq)]
pub struct Outcome {
    pub number: u32,
    pub until: u32,
    pub touches: u32,
}

/// How far a call came: 0 with every query, or 8; how many have their outcome, and how many rows they have.
#[derive(Clone, Copy, Debug, PartialEq, Eq)]
pub struct Came {
    pub number: u8,
    pub queries: usize,
    pub rows: usize,
}

impl Queries {
    /// The query from one place to another, or 11 where it doesn't lie in the bytes.
    pub fn query(&self, from: u32, to: u32) -> Result<Query, Refusal> {
        let part = self.bytes.get(from as usize..to as usize).ok_or(Refusal::Malformed)?;
        Ok(Query { measure: self.measure, p: self.p, q: self.q, allowance: self.allowance, name: part.to_vec() })
    }

    /// Where query k begins: where the one before it ends.
    pub fn start(&self, k: usize) -> u32 {
        if k == 0 {
            0
        } else {
            self.ends[k - 1]
        }
    }
}

/// A search of query k by itself, and its rows.
pub fn search_one(words: &[u32], queries: &Queries, k: usize) -> (Answer, Vec<AnswerRow>) {
    let mut rows = vec![AnswerRow { id: 0, shared: 0, size: 0, least: 0 }; NAMES];
    let answer = match queries.query(queries.start(k), queries.ends[k]) {
        Err(refusal) => Answer::refused(refusal, 0),
        Ok(query) => search(words, &query, &mut rows),
    };
    rows.truncate(answer.rows);
    (answer, rows)
}

/// Searches them in order, until one has no place for its outcome or no room for its rows. What is beyond keeps its
/// contents.
pub fn search_many(words: &[u32], queries: &Queries, outcomes: &mut [Outcome], rows: &mut [AnswerRow]) -> Came {
    let mut used = 0;
    for k in 0..queries.ends.len() {
        let (answer, found) = search_one(words, queries, k);
        if k == outcomes.len() || used + found.len() > rows.len() {
            return Came { number: Refusal::Room.number(), queries: k, rows: used };
        }
        rows[used..used + found.len()].copy_from_slice(&found);
        used += found.len();
        outcomes[k] = Outcome { number: answer.number.into(), until: used as u32, touches: answer.touches };
    }
    Came { number: 0, queries: queries.ends.len(), rows: used }
}
