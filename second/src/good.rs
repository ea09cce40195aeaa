//! When index words are a good index, condition by condition.

use crate::index::{cut, Index};
use crate::limits::{LEAST_SIZE, MOST_ID, MOST_SIZE, NAMES, POSTINGS};

/// One condition: what it says, and whether it holds.
pub type Condition = (&'static str, fn(&Index<'_>) -> bool);

/// All conditions but the first of all: that there are three words, and 3+N+4D+P within the slice.
pub const CONDITIONS: [Condition; 12] = [
    ("at most 256 names", |index| index.names.len() <= NAMES),
    ("at most 51,712 postings", |index| index.postings.len() <= POSTINGS),
    ("ids up to 65,535", |index| index.names.iter().all(|name| name.id <= MOST_ID)),
    ("ids strictly ascending", |index| index.names.windows(2).all(|two| two[0].id < two[1].id)),
    ("sizes 3 to 202", |index| index.names.iter().all(|name| (LEAST_SIZE..=MOST_SIZE).contains(&name.size))),
    ("rows strictly ascending by size, then feature", rows_ascend),
    ("counts at least 1", |index| index.rows.iter().all(|row| row.count >= 1)),
    ("the first place 0, each next the previous place plus the previous count", places_follow),
    ("counts sum to P", counts_sum),
    ("lists strictly ascending in id", lists_ascend),
    ("every listed id a name of its row's size", listed_are_names),
    ("every name in exactly as many lists as its size", names_are_listed),
];

/// Whether the words are a good index. Words beyond the total are not looked at.
pub fn good(words: &[u32]) -> bool {
    good_but(words, None)
}

/// The check with one condition left out, to show that comparisons miss it.
pub fn good_but(words: &[u32], left_out: Option<usize>) -> bool {
    let Some(index) = cut(words) else { return false };
    (0..CONDITIONS.len()).all(|at| left_out == Some(at) || CONDITIONS[at].1(&index))
}

fn rows_ascend(index: &Index<'_>) -> bool {
    index
        .rows
        .windows(2)
        .all(|two| two[0].size < two[1].size || (two[0].size == two[1].size && two[0].feature < two[1].feature))
}

fn places_follow(index: &Index<'_>) -> bool {
    index.rows.first().is_none_or(|row| row.place == 0)
        && index.rows.windows(2).all(|two| u64::from(two[1].place) == u64::from(two[0].place) + u64::from(two[0].count))
}

fn counts_sum(index: &Index<'_>) -> bool {
    index.rows.iter().map(|row| u64::from(row.count)).sum::<u64>() == index.postings.len() as u64
}

fn lists_ascend(index: &Index<'_>) -> bool {
    index.rows.iter().all(|row| index.list(row).is_some_and(|list| list.windows(2).all(|two| two[0] < two[1])))
}

fn listed_are_names(index: &Index<'_>) -> bool {
    index.rows.iter().all(|row| {
        index.list(row).is_some_and(|list| {
            list.iter().all(|id| index.names.iter().any(|name| name.id == *id && name.size == row.size))
        })
    })
}

fn names_are_listed(index: &Index<'_>) -> bool {
    index.names.iter().all(|name| {
        let holding = index.rows.iter().filter(|row| index.list(row).is_some_and(|list| list.contains(&name.id)));
        holding.count() as u64 == u64::from(name.size)
    })
}
