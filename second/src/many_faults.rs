//! Calls with many queries that are wrong on purpose, one fault each, to see that a comparison catches them. Nothing else
//! uses this.

use crate::limits::NAMES;
use crate::many::{search_many, search_one, Came, Outcome, Queries};
use crate::protocol::LENT_ROW;
use crate::refusal::Refusal;
use crate::search::{search, AnswerRow, Query};

/// A call with many queries.
pub type Many = fn(&[u32], &Queries, &mut [Outcome], &mut [AnswerRow]) -> Came;

/// Every fault.
pub const MANY_FAULTS: [(&str, Many); 17] = [
    // How far it comes.
    ("stopped_call_is_answered", |words, queries, outcomes, rows| Came {
        number: 0,
        ..search_many(words, queries, outcomes, rows)
    }),
    ("all_or_nothing", all_or_nothing),
    ("one_row_left_over", |words, queries, outcomes, rows| {
        let room = rows.len().saturating_sub(1);
        search_many(words, queries, outcomes, &mut rows[..room])
    }),
    ("one_place_left_over", |words, queries, outcomes, rows| {
        let places = outcomes.len().saturating_sub(1);
        search_many(words, queries, &mut outcomes[..places], rows)
    }),
    ("room_for_256_each", room_for_256_each),
    ("stops_at_a_refusal", stops_at_a_refusal),
    ("query_without_room_passed_over", passed_over),
    // Where a query lies.
    ("ends_are_lengths", |words, queries, outcomes, rows| {
        let sums = queries.ends.iter().scan(0, |sum: &mut u32, length| {
            *sum = sum.saturating_add(*length);
            Some(*sum)
        });
        search_many(words, &Queries { ends: sums.collect(), ..queries.clone() }, outcomes, rows)
    }),
    ("end_beyond_the_bytes_is_their_end", |words, queries, outcomes, rows| {
        let ends = queries.ends.iter().map(|end| (*end).min(queries.bytes.len() as u32)).collect();
        search_many(words, &Queries { ends, ..queries.clone() }, outcomes, rows)
    }),
    ("end_before_its_start_is_no_query", |words, queries, outcomes, rows| {
        let ends = queries.ends.iter().scan(0, |last: &mut u32, end| {
            *last = (*last).max(*end);
            Some(*last)
        });
        search_many(words, &Queries { ends: ends.collect(), ..queries.clone() }, outcomes, rows)
    }),
    ("settings_judged_before_the_ends", settings_first),
    // What is written.
    ("until_is_a_count", |words, queries, outcomes, rows| {
        let came = search_many(words, queries, outcomes, rows);
        for k in (1..came.queries).rev() {
            outcomes[k].until -= outcomes[k - 1].until;
        }
        came
    }),
    ("until_of_a_refusal_is_0", |words, queries, outcomes, rows| {
        let came = search_many(words, queries, outcomes, rows);
        for outcome in outcomes[..came.queries].iter_mut().filter(|outcome| outcome.number != 0) {
            outcome.until = 0;
        }
        came
    }),
    ("rows_of_the_last_first", |words, queries, outcomes, rows| {
        let came = search_many(words, queries, outcomes, rows);
        rows[..came.rows].reverse();
        came
    }),
    ("rows_beyond_are_blank", |words, queries, outcomes, rows| {
        let came = search_many(words, queries, outcomes, rows);
        rows[came.rows..].fill(AnswerRow { id: 0, shared: 0, size: 0, least: 0 });
        came
    }),
    ("places_beyond_are_blank", |words, queries, outcomes, rows| {
        let came = search_many(words, queries, outcomes, rows);
        outcomes[came.queries..].fill(Outcome { number: 0, until: 0, touches: 0 });
        came
    }),
    ("one_allowance_for_all", one_allowance),
];

/// The call of a fault, if there is such a fault.
pub fn many_fault(name: &str) -> Option<Many> {
    MANY_FAULTS.into_iter().find(|(known, _)| *known == name).map(|(_, wrong)| wrong)
}

/// Without room for all, nothing is written.
fn all_or_nothing(words: &[u32], queries: &Queries, outcomes: &mut [Outcome], rows: &mut [AnswerRow]) -> Came {
    let came = search_many(words, queries, &mut outcomes.to_vec(), &mut rows.to_vec());
    if came.number == 0 {
        search_many(words, queries, outcomes, rows)
    } else {
        Came { queries: 0, rows: 0, ..came }
    }
}

/// A query is asked only where there is room for every name.
fn room_for_256_each(words: &[u32], queries: &Queries, outcomes: &mut [Outcome], rows: &mut [AnswerRow]) -> Came {
    let before = |k: usize| (0..k).map(|at| search_one(words, queries, at).1.len()).sum::<usize>();
    let fit = (0..queries.ends.len()).take_while(|k| before(*k) + NAMES <= rows.len()).count();
    let places = fit.min(outcomes.len());
    let came = search_many(words, queries, &mut outcomes[..places], rows);
    Came { number: if fit < queries.ends.len() { Refusal::Room.number() } else { came.number }, ..came }
}

/// After the first refused query there are no more.
fn stops_at_a_refusal(words: &[u32], queries: &Queries, outcomes: &mut [Outcome], rows: &mut [AnswerRow]) -> Came {
    let first = (0..queries.ends.len()).position(|k| search_one(words, queries, k).0.number != 0);
    match first {
        Some(at) if at < outcomes.len() => search_many(words, queries, &mut outcomes[..at], rows),
        _ => search_many(words, queries, outcomes, rows),
    }
}

/// The measure and the threshold are judged before the place of a query.
fn settings_first(words: &[u32], queries: &Queries, outcomes: &mut [Outcome], rows: &mut [AnswerRow]) -> Came {
    let came = search_many(words, queries, outcomes, rows);
    let any = Query { measure: queries.measure, p: queries.p, q: queries.q, allowance: u32::MAX, name: b"A".to_vec() };
    let judged = search(words, &any, &mut [LENT_ROW; NAMES]).number;
    for outcome in outcomes[..came.queries].iter_mut().filter(|outcome| outcome.number == 11 && judged != 0) {
        outcome.number = judged.into();
    }
    came
}

/// What the queries before have used of the allowance is not there for the next.
fn one_allowance(words: &[u32], queries: &Queries, outcomes: &mut [Outcome], rows: &mut [AnswerRow]) -> Came {
    let came = search_many(words, queries, outcomes, rows);
    let mut left = queries.allowance;
    for outcome in &mut outcomes[..came.queries] {
        if outcome.number == 0 && left < outcome.touches {
            outcome.number = Refusal::Allowance.number().into();
        }
        left = left.saturating_sub(outcome.touches);
    }
    came
}

/// Where one has no room it is 8, and the next is asked.
fn passed_over(words: &[u32], queries: &Queries, outcomes: &mut [Outcome], rows: &mut [AnswerRow]) -> Came {
    let (asked, mut used) = (queries.ends.len().min(outcomes.len()), 0);
    for k in 0..asked {
        let (answer, found) = search_one(words, queries, k);
        let mut number = Refusal::Room.number();
        if used + found.len() <= rows.len() {
            rows[used..used + found.len()].copy_from_slice(&found);
            used += found.len();
            number = answer.number;
        }
        outcomes[k] = Outcome { number: number.into(), until: used as u32, touches: answer.touches };
    }
    Came { number: if asked < queries.ends.len() { Refusal::Room.number() } else { 0 }, queries: asked, rows: used }
}
