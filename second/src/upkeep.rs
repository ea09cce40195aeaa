//! Names that come and go: an add and a withdrawal, in place. Both read a good index into its live names, change these,
//! and write the index of the names that are live then.

use std::collections::{BTreeMap, BTreeSet};

use crate::build::words_of;
use crate::features::{features, judge};
use crate::index::good_index;
use crate::limits::{BLANK, NAMES};
use crate::refusal::{number_of, Refusal};

/// The live names: each id, and the features that its name stands for.
pub type Live = BTreeMap<u32, BTreeSet<u32>>;

/// The live names of words that are a good index: each stands for the features whose lists hold its id.
pub fn live_names(words: &[u32]) -> Result<Live, Refusal> {
    let index = good_index(words).ok_or(Refusal::NotGood)?;
    let mut live: Live = index.names.iter().map(|name| (name.id, BTreeSet::new())).collect();
    for row in &index.rows {
        for id in index.list(row).unwrap_or(&[]) {
            live.entry(*id).or_default().insert(row.feature);
        }
    }
    Ok(live)
}

/// The index words of live names.
pub fn words_of_live(live: &Live) -> Vec<u32> {
    let names: Vec<(u32, Vec<u32>)> =
        live.iter().map(|(id, features)| (*id, features.iter().copied().collect())).collect();
    words_of(&names)
}

/// The names that are live after an add, judged 6, then 1, 2, 3 and 12, then 9, 10, 8.
pub fn added(words: &[u32], id: u32, name: &[u8]) -> Result<Live, Refusal> {
    let mut live = live_names(words)?;
    judge(name)?;
    if live.contains_key(&id) {
        return Err(Refusal::Order);
    }
    if live.len() == NAMES {
        return Err(Refusal::Crowd);
    }
    live.insert(id, features(name).into_iter().collect());
    if words_of_live(&live).len() > words.len() {
        return Err(Refusal::Room);
    }
    Ok(live)
}

/// The names that are live after a withdrawal, judged 6, then 13.
pub fn withdrawn(words: &[u32], id: u32) -> Result<Live, Refusal> {
    let mut live = live_names(words)?;
    live.remove(&id).ok_or(Refusal::NotLive)?;
    Ok(live)
}

/// Sets every word: those of the index of the names that are live after a call, and all others to 4,294,967,295.
/// Where the call is refused no word is set. Its number.
fn settle(after: Result<Live, Refusal>, words: &mut [u32]) -> u8 {
    let written = after.map(|live| {
        let index = words_of_live(&live);
        words.fill(BLANK);
        words[..index.len()].copy_from_slice(&index);
    });
    number_of(written)
}

/// Adds a name to the index under an id, and gives the number.
pub fn add(words: &mut [u32], id: u32, name: &[u8]) -> u8 {
    settle(added(words, id, name), words)
}

/// Withdraws an id from the index, and gives the number.
pub fn withdraw(words: &mut [u32], id: u32) -> u8 {
    settle(withdrawn(words, id), words)
}

/// A call: a name that comes or an id that goes.
#[derive(Clone, Debug, PartialEq, Eq)]
pub enum Call {
    Add { id: u32, name: Vec<u8> },
    Withdraw { id: u32 },
}

/// An add: words, an id and a name to a number.
pub type Add = fn(&mut [u32], u32, &[u8]) -> u8;

/// A withdrawal: words and an id to a number.
pub type Withdraw = fn(&mut [u32], u32) -> u8;

/// A run of calls, one after the other: the number of each.
pub fn run(words: &mut [u32], calls: &[Call]) -> Vec<u8> {
    run_by(words, calls, add, withdraw)
}

/// A run by a given add and withdrawal.
pub fn run_by(words: &mut [u32], calls: &[Call], add: Add, withdraw: Withdraw) -> Vec<u8> {
    let made = |call: &Call| match call {
        Call::Add { id, name } => add(words, *id, name),
        Call::Withdraw { id } => withdraw(words, *id),
    };
    calls.iter().map(made).collect()
}
