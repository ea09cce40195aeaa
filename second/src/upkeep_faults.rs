//! Adds, withdrawals and runs of them that are wrong on purpose, one fault each, to see that a comparison catches them.
//! Nothing else uses this.

use std::collections::BTreeSet;

use crate::features::{control, grams, judge, numbered};
use crate::generate::words::Plan;
use crate::index::{cut, header, total};
use crate::limits::{BLANK, INDEX_WORDS, MOST_ID, NAMES, NAME_BYTES};
use crate::listed::features_of_index;
use crate::refusal::Refusal;
use crate::upkeep::{add, live_names, run, run_by, withdraw, words_of_live, Add, Call, Live, Withdraw};

/// Every fault of an add.
pub const ADD_FAULTS: [(&str, Add); 57] = [
    // What is refused, and in which order.
    ("add_takes_damaged_words", |words, id, name| {
        in_order(words, id, name, &[IS_NAME, IS_UNUSED, HAS_PLACE, HAS_ROOM])
    }),
    ("add_needs_a_slice_of_just_the_index", |words, id, name| add_if(just, words, id, name)),
    ("add_refuses_features_of_no_name", |words, id, name| add_if(named, words, id, name)),
    ("add_refuses_live_control_characters", |words, id, name| add_if(printed, words, id, name)),
    ("name_judged_before_index", |words, id, name| {
        in_order(words, id, name, &[IS_NAME, IS_GOOD, IS_UNUSED, HAS_PLACE, HAS_ROOM])
    }),
    ("live_id_judged_before_index", |words, id, name| {
        in_order(words, id, name, &[IS_UNUSED, IS_GOOD, IS_NAME, HAS_PLACE, HAS_ROOM])
    }),
    ("live_id_judged_before_name", |words, id, name| {
        in_order(words, id, name, &[IS_GOOD, IS_UNUSED, IS_NAME, HAS_PLACE, HAS_ROOM])
    }),
    ("256_names_judged_before_name", |words, id, name| {
        in_order(words, id, name, &[IS_GOOD, HAS_PLACE, IS_NAME, IS_UNUSED, HAS_ROOM])
    }),
    ("256_names_judged_before_live_id", |words, id, name| {
        in_order(words, id, name, &[IS_GOOD, IS_NAME, HAS_PLACE, IS_UNUSED, HAS_ROOM])
    }),
    ("room_judged_before_name", |words, id, name| {
        in_order(words, id, name, &[IS_GOOD, HAS_ROOM, IS_NAME, IS_UNUSED, HAS_PLACE])
    }),
    ("room_judged_before_live_id", |words, id, name| {
        in_order(words, id, name, &[IS_GOOD, IS_NAME, HAS_ROOM, IS_UNUSED, HAS_PLACE])
    }),
    ("room_judged_before_256_names", |words, id, name| {
        in_order(words, id, name, &[IS_GOOD, IS_NAME, IS_UNUSED, HAS_ROOM, HAS_PLACE])
    }),
    ("live_id_passes", |words, id, name| in_order(words, id, name, &[IS_GOOD, IS_NAME, HAS_PLACE, HAS_ROOM])),
    ("live_id_with_its_own_name_passes", |words, id, name| {
        let same = stands_for(words, id).is_some_and(|of| of == of_name(name));
        if same {
            0
        } else {
            add(words, id, name)
        }
    }),
    ("live_name_under_another_id_is_9", |words, id, name| {
        let there = live_names(words).is_ok_and(|live| live.values().any(|of| *of == of_name(name)));
        if there {
            Refusal::Order.number()
        } else {
            add(words, id, name)
        }
    }),
    ("id_0_is_always_live", |words, id, name| taken_if(|id, _| id == 0, words, id, name)),
    ("id_65535_is_always_live", |words, id, name| taken_if(|id, _| id == MOST_ID, words, id, name)),
    ("id_below_the_last_is_9", |words, id, name| {
        taken_if(|id, live| live.last_key_value().is_some_and(|(last, _)| id < *last), words, id, name)
    }),
    ("255_names_are_too_many", |words, id, name| {
        let crowd = live_names(words).is_ok_and(|live| live.len() == NAMES - 1 && !live.contains_key(&id));
        if crowd && judge(name).is_ok() {
            Refusal::Crowd.number()
        } else {
            add(words, id, name)
        }
    }),
    ("257th_name_added", |words, id, name| in_order(words, id, name, &[IS_GOOD, IS_NAME, IS_UNUSED, HAS_ROOM])),
    ("control_character_passes", |words, id, name| {
        pass_if(|name| judge(name) == Err(Refusal::Control), words, id, name)
    }),
    ("delete_code_passes", |words, id, name| pass_if(|name| but_for(127, name), words, id, name)),
    ("byte_31_passes", |words, id, name| pass_if(|name| but_for(31, name), words, id, name)),
    ("0_byte_passes", |words, id, name| pass_if(|name| but_for(0, name), words, id, name)),
    ("65_bytes_pass", |words, id, name| {
        pass_if(|name| name.len() == NAME_BYTES + 1 && !name.iter().any(|byte| control(*byte)), words, id, name)
    }),
    ("64_bytes_are_too_long", |words, id, name| {
        if name.len() == NAME_BYTES && live_names(words).is_ok() {
            Refusal::Long.number()
        } else {
            add(words, id, name)
        }
    }),
    ("room_judged_on_the_old_total", |words, id, name| {
        in_order(words, id, name, &[IS_GOOD, IS_NAME, IS_UNUSED, HAS_PLACE])
    }),
    ("room_one_word_too_strict", |words, id, name| {
        in_order(words, id, name, &[IS_GOOD, IS_NAME, IS_UNUSED, HAS_PLACE, |asked| room_but(asked, 1)])
    }),
    ("room_for_a_row_of_each_feature", |words, id, name| {
        in_order(words, id, name, &[IS_GOOD, IS_NAME, IS_UNUSED, HAS_PLACE, row_each])
    }),
    ("room_for_both_indexes", |words, id, name| {
        in_order(words, id, name, &[IS_GOOD, IS_NAME, IS_UNUSED, HAS_PLACE, room_for_both])
    }),
    ("room_of_a_lookup", |words, id, name| {
        in_order(words, id, name, &[IS_GOOD, IS_NAME, IS_UNUSED, HAS_PLACE, HAS_ROOM, room_of_a_lookup])
    }),
    // What a refusal leaves.
    ("refused_add_blanks_all", |words, id, name| refused_add(words, id, name, |_, _, words| words.fill(BLANK))),
    ("refused_add_blanks_beyond", |words, id, name| refused_add(words, id, name, |_, _, words| blank_beyond(words))),
    ("refused_add_has_written", |words, id, name| {
        refused_add(words, id, name, |id, name, words| {
            let mut live = loose(words);
            live.entry(id).or_insert(of_name(name));
            let index = words_of_live(&live);
            let end = index.len().min(words.len());
            words[..end].copy_from_slice(&index[..end]);
        })
    }),
    ("refused_add_has_changed_the_head", |words, id, name| {
        refused_add(words, id, name, |_, _, words| words[0] = words[0].wrapping_add(1))
    }),
    // The words of an accepted one.
    ("add_leaves_words_beyond", |words, id, name| after_add(words, id, name, beyond_left)),
    ("add_sets_words_beyond_to_0", |words, id, name| after_add(words, id, name, beyond_0)),
    ("add_keeps_the_head", |words, id, name| after_add(words, id, name, |_, before, words| head(0..3, before, words))),
    ("add_keeps_the_count_of_names", |words, id, name| {
        after_add(words, id, name, |_, before, words| head(0..1, before, words))
    }),
    ("add_keeps_the_count_of_rows", |words, id, name| {
        after_add(words, id, name, |_, before, words| head(1..2, before, words))
    }),
    ("add_keeps_the_places", |words, id, name| {
        after_add(words, id, name, |_, before, words| places_kept(before, words))
    }),
    ("add_puts_its_posting_last", |words, id, name| after_add(words, id, name, posting_last)),
    ("add_puts_its_posting_first", |words, id, name| after_add(words, id, name, posting_first)),
    ("add_puts_its_name_last", |words, id, name| after_add(words, id, name, name_last)),
    ("add_puts_its_rows_last", |words, id, name| after_add(words, id, name, rows_last)),
    ("add_orders_features_as_signed", |words, id, name| after_add(words, id, name, features_as_signed)),
    ("add_orders_ids_as_signed", |words, id, name| after_add(words, id, name, ids_as_signed)),
    ("add_counts_a_list_in_8_bits", |words, id, name| after_add(words, id, name, counts_of_8_bits)),
    ("add_makes_rows_of_its_own", |words, id, name| after_add(words, id, name, own_rows)),
    ("add_joins_a_row_of_another_size", |words, id, name| after_add(words, id, name, other_size_joined)),
    ("add_drops_another_posting", |words, id, name| after_add(words, id, name, another_dropped)),
    ("add_drops_features_of_no_name", |words, id, name| after_add(words, id, name, |_, _, words| kept(words, of_gram))),
    ("add_drops_control_features", |words, id, name| after_add(words, id, name, |_, _, words| kept(words, printable))),
    ("add_of_bytes_for_size", |words, id, name| after_add(words, id, name, bytes_for_size)),
    ("add_of_equal_grams_as_one", |words, id, name| {
        let once = grams(name).into_iter().collect::<BTreeSet<_>>();
        instead(words, id, name, once.into_iter().map(|[a, b, c]| u32::from_be_bytes([a, b, c, 1])).collect())
    }),
    ("add_of_a_last_feature_lost", |words, id, name| {
        instead(words, id, name, of_name(name).into_iter().rev().skip(1).collect())
    }),
    ("add_of_the_last_byte_lost", |words, id, name| {
        instead(words, id, name, of_name(&name[..name.len().saturating_sub(1)]))
    }),
];

/// Every fault of a withdrawal.
pub const WITHDRAW_FAULTS: [(&str, Withdraw); 35] = [
    // What is refused, and in which order.
    ("withdraw_takes_damaged_words", |words, id| {
        let mut live = loose(words);
        match live.remove(&id) {
            Some(_) => put(words, &words_of_live(&live)),
            None => withdraw(words, id),
        }
    }),
    ("withdraw_needs_a_slice_of_just_the_index", |words, id| withdraw_if(just, words, id)),
    ("withdraw_refuses_features_of_no_name", |words, id| withdraw_if(named, words, id)),
    ("withdraw_refuses_live_control_characters", |words, id| withdraw_if(printed, words, id)),
    ("missing_id_judged_before_index", |words, id| match loose(words).get(&id) {
        Some(_) => withdraw(words, id),
        None => NOT_LIVE,
    }),
    ("missing_id_passes", |words, id| match withdraw(words, id) {
        NOT_LIVE => 0,
        number => number,
    }),
    ("missing_id_passes_and_blanks_beyond", |words, id| {
        let number = withdraw(words, id);
        if number == NOT_LIVE {
            blank_beyond(words);
            0
        } else {
            number
        }
    }),
    ("missing_id_is_9", |words, id| match withdraw(words, id) {
        NOT_LIVE => Refusal::Order.number(),
        number => number,
    }),
    ("missing_id_takes_the_next", |words, id| {
        let next = live_names(words).ok().and_then(|live| live.range(id..).next().map(|(next, _)| *next));
        withdraw(words, next.unwrap_or(id))
    }),
    ("missing_id_takes_the_last", |words, id| {
        let last = live_names(words).ok().and_then(|live| live.last_key_value().map(|(last, _)| (*last).min(id)));
        withdraw(words, last.unwrap_or(id))
    }),
    ("id_0_is_never_live", |words, id| if id == 0 { never(words) } else { withdraw(words, id) }),
    ("id_65535_is_never_live", |words, id| if id == MOST_ID { never(words) } else { withdraw(words, id) }),
    ("empty_index_is_6", |words, id| if words.first() == Some(&0) { NOT_GOOD } else { withdraw(words, id) }),
    ("only_name_stays", |words, id| if words.first() == Some(&1) { never(words) } else { withdraw(words, id) }),
    ("256_names_stay", |words, id| if words.first() == Some(&256) { never(words) } else { withdraw(words, id) }),
    ("equal_names_go_too", |words, id| {
        let Ok(mut live) = live_names(words) else { return NOT_GOOD };
        let Some(of) = live.get(&id).cloned() else { return NOT_LIVE };
        live.retain(|_, other| *other != of);
        put(words, &words_of_live(&live))
    }),
    // What a refusal leaves.
    ("refused_withdrawal_blanks_all", |words, id| refused_withdrawal(words, id, |words| words.fill(BLANK))),
    ("refused_withdrawal_blanks_beyond", |words, id| refused_withdrawal(words, id, blank_beyond)),
    ("refused_withdrawal_has_changed_the_head", |words, id| {
        refused_withdrawal(words, id, |words| words[0] = words[0].wrapping_sub(1))
    }),
    // The words of an accepted one.
    ("withdraw_leaves_words_beyond", |words, id| after_withdrawal(words, id, beyond_left)),
    ("withdraw_leaves_words_beyond_the_old_total", |words, id| {
        after_withdrawal(words, id, |_, before, words| {
            let old = of_words(before);
            words[old..].copy_from_slice(&before[old..]);
        })
    }),
    ("withdraw_blanks_beyond_the_old_total_alone", |words, id| {
        after_withdrawal(words, id, |_, before, words| {
            let (new, old) = (of_words(words), of_words(before));
            words[new..old].copy_from_slice(&before[new..old]);
        })
    }),
    ("withdraw_sets_words_beyond_to_0", |words, id| after_withdrawal(words, id, beyond_0)),
    ("withdraw_of_the_only_name_blanks_all", |words, id| {
        after_withdrawal(words, id, |_, _, words| {
            if words[0] == 0 {
                words.fill(BLANK);
            }
        })
    }),
    ("withdraw_keeps_the_head", |words, id| after_withdrawal(words, id, |_, before, words| head(0..3, before, words))),
    ("withdraw_keeps_the_count_of_names", |words, id| {
        after_withdrawal(words, id, |_, before, words| head(0..1, before, words))
    }),
    ("withdraw_keeps_the_count_of_rows", |words, id| {
        after_withdrawal(words, id, |_, before, words| head(1..2, before, words))
    }),
    ("withdraw_keeps_the_places", |words, id| {
        after_withdrawal(words, id, |_, before, words| places_kept(before, words))
    }),
    ("emptied_row_stays_with_count_0", |words, id| {
        by_plan(words, id, |plan| plan.rows.iter_mut().for_each(|row| row.2.retain(|posting| *posting != id)))
    }),
    ("row_of_a_shared_list_goes", |words, id| by_plan(words, id, |plan| plan.rows.retain(|row| !row.2.contains(&id)))),
    ("posting_stays_in_its_last_list", |words, id| {
        by_plan(words, id, |plan| {
            let last = plan.rows.iter().rposition(|row| row.2.contains(&id));
            for (_, row) in plan.rows.iter_mut().enumerate().filter(|(at, _)| Some(*at) != last) {
                row.2.retain(|posting| *posting != id);
            }
            plan.rows.retain(|row| !row.2.is_empty());
        })
    }),
    ("another_posting_goes_too", |words, id| after_withdrawal(words, id, first_posting_dropped)),
    ("name_stays", |words, id| {
        let before = words.to_vec();
        let number = withdraw(words, id);
        if let (0, Some(mut plan), Some(old)) = (number, Plan::of(words), Plan::of(&before)) {
            plan.names = old.names;
            put(words, &plan.words());
        }
        number
    }),
    ("withdraw_drops_features_of_no_name", |words, id| after_withdrawal(words, id, |_, _, words| kept(words, of_gram))),
    ("withdraw_drops_control_features", |words, id| after_withdrawal(words, id, |_, _, words| kept(words, printable))),
];

/// A run of calls: the number of each.
pub type Run = fn(&mut [u32], &[Call]) -> Vec<u8>;

/// Every fault of a run that no single call has.
pub const RUN_FAULTS: [(&str, Run); 5] = [
    ("withdrawn_id_stays_taken", withdrawn_id_stays_taken),
    ("room_given_up_is_lost", room_given_up_is_lost),
    ("rows_given_up_are_lost", rows_given_up_are_lost),
    ("names_ever_added_are_counted", names_ever_added_are_counted),
    ("run_ends_at_a_refusal", run_ends_at_a_refusal),
];

/// The add of a fault, if there is such a fault.
pub fn add_fault(name: &str) -> Option<Add> {
    ADD_FAULTS.iter().find(|(known, _)| *known == name).map(|(_, add)| *add)
}

/// The withdrawal of a fault, if there is such a fault.
pub fn withdraw_fault(name: &str) -> Option<Withdraw> {
    WITHDRAW_FAULTS.iter().find(|(known, _)| *known == name).map(|(_, withdraw)| *withdraw)
}

/// What is wrong with a run: its adds, its withdrawals, or the whole of it.
#[derive(Clone, Copy)]
pub enum Wrong {
    Add(Add),
    Withdraw(Withdraw),
    Run(Run),
}

impl Wrong {
    /// The run that is wrong so.
    pub fn run(self, words: &mut [u32], calls: &[Call]) -> Vec<u8> {
        match self {
            Wrong::Add(add) => run_by(words, calls, add, withdraw),
            Wrong::Withdraw(withdraw) => run_by(words, calls, add, withdraw),
            Wrong::Run(run) => run(words, calls),
        }
    }
}

/// Every fault that a run can have.
pub fn wrong_runs() -> Vec<(&'static str, Wrong)> {
    let adds = ADD_FAULTS.iter().map(|(name, add)| (*name, Wrong::Add(*add)));
    let withdrawals = WITHDRAW_FAULTS.iter().map(|(name, withdraw)| (*name, Wrong::Withdraw(*withdraw)));
    let runs = RUN_FAULTS.iter().map(|(name, run)| (*name, Wrong::Run(*run)));
    adds.chain(withdrawals).chain(runs).collect()
}

/// The run of a fault, if there is such a fault.
pub fn run_fault(name: &str) -> Option<Wrong> {
    wrong_runs().into_iter().find(|(known, _)| *known == name).map(|(_, wrong)| wrong)
}

const NOT_GOOD: u8 = Refusal::NotGood as u8;
const NOT_LIVE: u8 = Refusal::NotLive as u8;

// What words and names hold.

/// The live names of words that can be cut, good or not; of others none.
fn loose(words: &[u32]) -> Live {
    cut(words).map_or(Live::new(), |index| features_of_index(&index).into_iter().collect())
}

/// The total that the head says, or the whole slice where it says more.
fn of_words(words: &[u32]) -> usize {
    let said = header(words).map_or(u64::MAX, |(names, rows, postings)| total(names, rows, postings));
    said.min(words.len() as u64) as usize
}

/// The features of bytes, whether they are a name or not.
fn of_name(name: &[u8]) -> BTreeSet<u32> {
    numbered(name).into_iter().collect()
}

fn stands_for(words: &[u32], id: u32) -> Option<BTreeSet<u32>> {
    live_names(words).ok()?.remove(&id)
}

/// Whether a feature may be that of a gram with its number.
fn of_gram(feature: u32) -> bool {
    feature.to_be_bytes()[3] != 0
}

/// Whether the gram of a feature has no control character but the 0 bytes beside a name.
fn printable(feature: u32) -> bool {
    feature.to_be_bytes()[..3].iter().all(|byte| *byte == 0 || !control(*byte))
}

fn just(words: &[u32]) -> bool {
    live_names(words).map_or(true, |live| words_of_live(&live).len() == words.len())
}

fn named(words: &[u32]) -> bool {
    loose(words).values().flatten().all(|feature| of_gram(*feature))
}

fn printed(words: &[u32]) -> bool {
    loose(words).values().flatten().all(|feature| printable(*feature))
}

/// Sets every word, as far as there is room; the number 0.
fn put(words: &mut [u32], index: &[u32]) -> u8 {
    let end = index.len().min(words.len());
    words.fill(BLANK);
    words[..end].copy_from_slice(&index[..end]);
    0
}

fn blank_beyond(words: &mut [u32]) {
    let end = of_words(words);
    words[end..].fill(BLANK);
}

// An add judged by tests in an order of their own.

struct Asked<'a> {
    words: &'a [u32],
    id: u32,
    name: &'a [u8],
    live: Live,
}

type Test = fn(&Asked<'_>) -> Result<(), Refusal>;

fn unless_refused(held: bool, refusal: Refusal) -> Result<(), Refusal> {
    if held {
        Ok(())
    } else {
        Err(refusal)
    }
}

const IS_GOOD: Test = |asked| live_names(asked.words).map(drop);
const IS_NAME: Test = |asked| judge(asked.name);
const IS_UNUSED: Test = |asked| unless_refused(!asked.live.contains_key(&asked.id), Refusal::Order);
const HAS_PLACE: Test = |asked| unless_refused(asked.live.len() < NAMES, Refusal::Crowd);
const HAS_ROOM: Test = |asked| room_but(asked, 0);

/// The total with one name more, whatever its id.
fn needed(asked: &Asked<'_>) -> usize {
    let mut more = asked.live.clone();
    more.insert(MOST_ID + 1, of_name(asked.name));
    words_of_live(&more).len()
}

/// Whether there is room, and for so many words besides.
fn room_but(asked: &Asked<'_>, besides: usize) -> Result<(), Refusal> {
    unless_refused(needed(asked) + besides <= asked.words.len(), Refusal::Room)
}

/// Room is asked for as though each feature took a row of its own.
fn row_each(asked: &Asked<'_>) -> Result<(), Refusal> {
    let more = 1 + 5 * of_name(asked.name).len();
    unless_refused(of_words(asked.words) + more <= asked.words.len(), Refusal::Room)
}

fn room_for_both(asked: &Asked<'_>) -> Result<(), Refusal> {
    room_but(asked, of_words(asked.words))
}

fn room_of_a_lookup(asked: &Asked<'_>) -> Result<(), Refusal> {
    unless_refused(needed(asked) <= INDEX_WORDS, Refusal::Room)
}

/// The add whose tests are these, in this order.
fn in_order(words: &mut [u32], id: u32, name: &[u8], tests: &[Test]) -> u8 {
    let asked = Asked { words, id, name, live: loose(words) };
    if let Some(refusal) = tests.iter().find_map(|test| test(&asked).err()) {
        return refusal.number();
    }
    let mut live = asked.live;
    live.insert(id, of_name(name));
    put(words, &words_of_live(&live))
}

/// The add where the words are as wanted, and otherwise 6.
fn add_if(wanted: fn(&[u32]) -> bool, words: &mut [u32], id: u32, name: &[u8]) -> u8 {
    if wanted(words) {
        add(words, id, name)
    } else {
        NOT_GOOD
    }
}

fn withdraw_if(wanted: fn(&[u32]) -> bool, words: &mut [u32], id: u32) -> u8 {
    if wanted(words) {
        withdraw(words, id)
    } else {
        NOT_GOOD
    }
}

/// 9 for ids that are not live too.
fn taken_if(taken: fn(u32, &Live) -> bool, words: &mut [u32], id: u32, name: &[u8]) -> u8 {
    match (live_names(words), judge(name)) {
        (Ok(live), Ok(())) if taken(id, &live) => Refusal::Order.number(),
        _ => add(words, id, name),
    }
}

/// Some names that are refused pass, where nothing else refuses them.
fn pass_if(passes: fn(&[u8]) -> bool, words: &mut [u32], id: u32, name: &[u8]) -> u8 {
    if passes(name) {
        in_order(words, id, name, &[IS_GOOD, IS_UNUSED, HAS_PLACE, HAS_ROOM])
    } else {
        add(words, id, name)
    }
}

/// Whether bytes are a name but for those that are this one.
fn but_for(byte: u8, name: &[u8]) -> bool {
    let others: Vec<u8> = name.iter().map(|other| if *other == byte { b'A' } else { *other }).collect();
    others != name && judge(&others).is_ok()
}

/// The add of other features than those of the name.
fn instead(words: &mut [u32], id: u32, name: &[u8], others: BTreeSet<u32>) -> u8 {
    let Ok(mut live) = live_names(words) else { return NOT_GOOD };
    let number = add(words, id, name);
    if number == 0 {
        live.insert(id, others);
        put(words, &words_of_live(&live));
    }
    number
}

// Calls that go on after they are done.

/// The true add; where it is refused, and the words are a good index, more is done to them.
fn refused_add(words: &mut [u32], id: u32, name: &[u8], then: fn(u32, &[u8], &mut [u32])) -> u8 {
    let number = add(words, id, name);
    if number != 0 && number != NOT_GOOD {
        then(id, name, words);
    }
    number
}

fn refused_withdrawal(words: &mut [u32], id: u32, then: fn(&mut [u32])) -> u8 {
    let number = withdraw(words, id);
    if number == NOT_LIVE {
        then(words);
    }
    number
}

/// What is done after an accepted call: to the id, the words of before, and the words.
type Then = fn(u32, &[u32], &mut [u32]);

fn after_add(words: &mut [u32], id: u32, name: &[u8], then: Then) -> u8 {
    let before = words.to_vec();
    let number = add(words, id, name);
    if number == 0 {
        then(id, &before, words);
    }
    number
}

fn after_withdrawal(words: &mut [u32], id: u32, then: Then) -> u8 {
    let before = words.to_vec();
    let number = withdraw(words, id);
    if number == 0 {
        then(id, &before, words);
    }
    number
}

fn beyond_left(_: u32, before: &[u32], words: &mut [u32]) {
    let end = of_words(words);
    words[end..].copy_from_slice(&before[end..]);
}

fn beyond_0(_: u32, _: &[u32], words: &mut [u32]) {
    let end = of_words(words);
    words[end..].fill(0);
}

/// Some head words stay as they were.
fn head(which: std::ops::Range<usize>, before: &[u32], words: &mut [u32]) {
    words[which.clone()].copy_from_slice(&before[which]);
}

/// The rows that were there keep their places.
fn places_kept(before: &[u32], words: &mut [u32]) {
    let (Some(old), Some(names)) = (cut(before), words.first().map(|names| *names as usize)) else { return };
    let rows = words[1] as usize;
    for row in words[3 + names..3 + names + 4 * rows].chunks_mut(4) {
        if let Some(was) = old.rows.iter().find(|was| (was.size, was.feature) == (row[0], row[1])) {
            row[2] = was.place;
        }
    }
}

/// The plan of the words, changed.
fn replanned(words: &mut [u32], change: impl FnOnce(&mut Plan)) {
    if let Some(mut plan) = Plan::of(words) {
        change(&mut plan);
        put(words, &plan.words());
    }
}

fn posting_last(id: u32, _: &[u32], words: &mut [u32]) {
    replanned(words, |plan| {
        for (_, _, list) in plan.rows.iter_mut().filter(|row| row.2.contains(&id)) {
            list.retain(|posting| *posting != id);
            list.push(id);
        }
    });
}

fn posting_first(id: u32, _: &[u32], words: &mut [u32]) {
    replanned(words, |plan| {
        for (_, _, list) in plan.rows.iter_mut().filter(|row| row.2.contains(&id)) {
            list.retain(|posting| *posting != id);
            list.insert(0, id);
        }
    });
}

fn name_last(id: u32, _: &[u32], words: &mut [u32]) {
    replanned(words, |plan| plan.names.sort_by_key(|name| name.0 == id));
}

fn rows_last(_: u32, before: &[u32], words: &mut [u32]) {
    let old = Plan::of(before).map_or(Vec::new(), |plan| plan.rows);
    replanned(words, |plan| {
        plan.rows.sort_by_key(|row| !old.iter().any(|was| (was.0, was.1) == (row.0, row.1)));
    });
}

fn features_as_signed(_: u32, _: &[u32], words: &mut [u32]) {
    replanned(words, |plan| plan.rows.sort_by_key(|row| (row.0, row.1 as i32)));
}

/// Ids from 32,768 on come before the others.
fn ids_as_signed(_: u32, _: &[u32], words: &mut [u32]) {
    replanned(words, |plan| {
        plan.names.sort_by_key(|name| name.0 as i16);
        plan.rows.iter_mut().for_each(|row| row.2.sort_by_key(|id| *id as i16));
    });
}

fn counts_of_8_bits(_: u32, _: &[u32], words: &mut [u32]) {
    let (names, rows) = (words[0] as usize, words[1] as usize);
    words[3 + names..3 + names + 4 * rows].chunks_mut(4).for_each(|row| row[3] %= 256);
}

/// Each feature of the name has a row of its own beside the one that is there.
fn own_rows(id: u32, _: &[u32], words: &mut [u32]) {
    replanned(words, |plan| {
        let mut rows = Vec::new();
        for (size, feature, mut list) in plan.rows.drain(..) {
            let own = list.len() > 1 && list.contains(&id);
            if own {
                list.retain(|posting| *posting != id);
            }
            rows.push((size, feature, list));
            if own {
                rows.push((size, feature, vec![id]));
            }
        }
        plan.rows = rows;
    });
}

/// Where a row of another size has the feature and none of this size, the posting goes there.
fn other_size_joined(id: u32, _: &[u32], words: &mut [u32]) {
    replanned(words, |plan| {
        let alone: Vec<u32> = plan.rows.iter().filter(|row| row.2 == [id]).map(|row| row.1).collect();
        for feature in alone {
            let other = plan.rows.iter().position(|row| row.1 == feature && row.2 != [id]);
            if let Some(at) = other {
                plan.rows[at].2.push(id);
                plan.rows[at].2.sort_unstable();
                plan.rows.retain(|row| row.1 != feature || row.2 != [id]);
            }
        }
    });
}

/// In a list that the name joins, another's posting makes place for its own.
fn another_dropped(id: u32, _: &[u32], words: &mut [u32]) {
    replanned(words, |plan| {
        if let Some(row) = plan.rows.iter_mut().find(|row| row.2.len() > 1 && row.2.contains(&id)) {
            let other = row.2.iter().position(|posting| *posting != id);
            other.map(|at| row.2.remove(at));
        }
    });
}

fn first_posting_dropped(_: u32, _: &[u32], words: &mut [u32]) {
    replanned(words, |plan| {
        if let Some(row) = plan.rows.first_mut() {
            row.2.remove(0);
        }
        plan.rows.retain(|row| !row.2.is_empty());
    });
}

/// The index of the same names with only those of their features that a test keeps.
fn kept(words: &mut [u32], keep: fn(u32) -> bool) {
    let mut live = loose(words);
    live.values_mut().for_each(|of| of.retain(|feature| keep(*feature)));
    put(words, &words_of_live(&live));
}

/// The name word has the name's bytes for its size.
fn bytes_for_size(id: u32, _: &[u32], words: &mut [u32]) {
    replanned(words, |plan| {
        if let Some(name) = plan.names.iter_mut().find(|name| name.0 == id) {
            name.1 -= 2;
        }
    });
}

/// A withdrawal that takes the name word away and does something else to the rows.
fn by_plan(words: &mut [u32], id: u32, change: impl FnOnce(&mut Plan)) -> u8 {
    let before = words.to_vec();
    let number = withdraw(words, id);
    if let (0, Some(mut plan)) = (number, Plan::of(&before)) {
        plan.names.retain(|name| name.0 != id);
        change(&mut plan);
        put(words, &plan.words());
    }
    number
}

/// The number of a withdrawal of what is never live.
fn never(words: &[u32]) -> u8 {
    live_names(words).map_or(NOT_GOOD, |_| NOT_LIVE)
}

// Runs.

/// A run in which something is remembered from call to call. Before each call and after it the words are shown to what
/// remembers; where it gives a number for an add that was accepted, that add is undone and has this number.
fn remembering(
    words: &mut [u32],
    calls: &[Call],
    mut refuse: impl FnMut(&Call, &[u32], &[u32]) -> Option<u8>,
) -> Vec<u8> {
    let made = |call: &Call| {
        let before = words.to_vec();
        let number = run(words, std::slice::from_ref(call))[0];
        match refuse(call, &before, words) {
            Some(other) if number == 0 => {
                words.copy_from_slice(&before);
                other
            }
            _ => number,
        }
    };
    calls.iter().map(made).collect()
}

fn withdrawn_id_stays_taken(words: &mut [u32], calls: &[Call]) -> Vec<u8> {
    let mut withdrawn = BTreeSet::new();
    remembering(words, calls, |call, before, after| match call {
        Call::Add { id, .. } => withdrawn.contains(id).then_some(Refusal::Order.number()),
        Call::Withdraw { id } => {
            if before != after {
                withdrawn.insert(*id);
            }
            None
        }
    })
}

/// What an add has used stays used.
fn room_given_up_is_lost(words: &mut [u32], calls: &[Call]) -> Vec<u8> {
    let mut used = of_words(words);
    remembering(words, calls, |call, before, after| {
        let more = of_words(after).saturating_sub(of_words(before));
        if matches!(call, Call::Add { .. }) && used + more > after.len() {
            return Some(Refusal::Room.number());
        }
        used += more;
        None
    })
}

/// A row that was there once has its four words for good.
fn rows_given_up_are_lost(words: &mut [u32], calls: &[Call]) -> Vec<u8> {
    let mut ever = BTreeSet::new();
    remembering(words, calls, |call, _, after| {
        let index = cut(after)?;
        let with: BTreeSet<(u32, u32)> =
            index.rows.iter().map(|row| (row.size, row.feature)).chain(ever.iter().copied()).collect();
        let idle = 4 * (with.len() - index.rows.len());
        if matches!(call, Call::Add { .. }) && of_words(after) + idle > after.len() {
            return Some(Refusal::Room.number());
        }
        ever = with;
        None
    })
}

fn names_ever_added_are_counted(words: &mut [u32], calls: &[Call]) -> Vec<u8> {
    let mut ever = 0;
    remembering(words, calls, |call, before, after| {
        let more = matches!(call, Call::Add { .. }) && before != after;
        if more && ever == NAMES {
            return Some(Refusal::Crowd.number());
        }
        ever += usize::from(more);
        None
    })
}

/// Every call after the first that is refused is refused with the same number.
fn run_ends_at_a_refusal(words: &mut [u32], calls: &[Call]) -> Vec<u8> {
    let mut ended = 0;
    let made = |call: &Call| {
        if ended == 0 {
            ended = run(words, std::slice::from_ref(call))[0];
        }
        ended
    };
    calls.iter().map(made).collect()
}

#[cfg(test)]
mod tests {
    use std::collections::BTreeSet;

    use super::{in_order, instead, of_name, remembering, wrong_runs};
    use super::{HAS_PLACE, HAS_ROOM, IS_GOOD, IS_NAME, IS_UNUSED};
    use crate::generate;
    use crate::protocol::{add_answer, calls_answer, Kind};
    use crate::upkeep::{add, run};

    /// With its tests in the rule's order, or with its own features, an add is the true one; and so is a run that forgets.
    #[test]
    fn what_the_faults_are_made_of_is_no_fault() {
        for at in 0..300 {
            let input = generate::input(Kind::Add, 3, at);
            let right = add_answer(&input, add);
            let tests = |words: &mut [u32], id: u32, name: &[u8]| {
                in_order(words, id, name, &[IS_GOOD, IS_NAME, IS_UNUSED, HAS_PLACE, HAS_ROOM])
            };
            assert_eq!(add_answer(&input, tests), right);
            assert_eq!(add_answer(&input, |words, id, name| instead(words, id, name, of_name(name))), right);
            let input = generate::input(Kind::Calls, 3, at);
            let forgetting = |words: &mut [u32], calls: &[_]| remembering(words, calls, |_, _, _| None);
            assert_eq!(calls_answer(&input, forgetting), calls_answer(&input, run));
        }
    }

    #[test]
    fn faults_have_names_of_their_own() {
        let names: Vec<&str> = wrong_runs().into_iter().map(|(name, _)| name).collect();
        assert_eq!(names.iter().collect::<BTreeSet<_>>().len(), names.len());
    }
}
