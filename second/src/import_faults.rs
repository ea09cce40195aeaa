//! Imports and importers that are wrong on purpose, one fault each, to see that a comparison catches them. Nothing else
//! uses this.

use crate::build::{build, lines};
use crate::faults::without;
use crate::frames::{read_query, IMPORT_END, OUTCOME, PAIR};
use crate::good::good;
use crate::import::{
    belonging, import, import_by, log_line, log_lines, outcome_of, pairs_of, week_of, Imported, Lines, LogLine,
    Outcome, Outcomes, Pair, Pairs, Settings, Steps, TRUE,
};
use crate::importer::{importer, importer_by, refused_line, settings_of, three_parts, Import, Part};
use crate::limits::{FRAME_NAME, IMPORTER_INPUT, INDEX_WORDS, INPUT, LOG_LINES, ROWS};
use crate::measures::{Measure, Threshold};
use crate::refusal::Refusal;
use crate::search::{search, AnswerRow, Query};

/// What is wrong with an import: one of its steps, or the whole of it.
#[derive(Clone, Copy)]
pub enum Wrong {
    Lines(fn(&[u8]) -> Lines),
    Outcome(fn(&[u32], &Settings, &[u8]) -> Outcome),
    Pairs(fn(&[(u32, LogLine)]) -> Vec<Pair>),
    Whole(Import),
}

impl Wrong {
    /// The import that is wrong so.
    pub fn import(self, log: &[u8], s: &Settings, words: &[u32], o: &mut Outcomes, p: &mut Pairs) -> Imported {
        match self {
            Wrong::Lines(lines) => import_by(log, s, words, o, p, &Steps { lines, ..TRUE }),
            Wrong::Outcome(outcome) => import_by(log, s, words, o, p, &Steps { outcome, ..TRUE }),
            Wrong::Pairs(pairs) => import_by(log, s, words, o, p, &Steps { pairs, ..TRUE }),
            Wrong::Whole(import) => import(log, s, words, o, p),
        }
    }
}

/// Every fault of an import.
pub const IMPORT_FAULTS: [(&str, Wrong); 35] = [
    // Readings.
    ("missing_reading_counted_as_0", Wrong::Pairs(missing_is_0)),
    ("missing_reading_added_to_the_sum", Wrong::Pairs(missing_is_summed)),
    ("missing_reading_counted", Wrong::Pairs(missing_is_counted)),
    ("reading_of_0_missing", Wrong::Pairs(|belonging| without_reading(belonging, 0))),
    ("reading_of_65534_missing", Wrong::Pairs(|belonging| without_reading(belonging, 65_534))),
    ("sum_of_16_bits", Wrong::Pairs(sum_of_16_bits)),
    ("last_reading_for_the_sum", Wrong::Pairs(last_reading)),
    // Pairs.
    ("week_rounded_up", Wrong::Pairs(week_rounded_up)),
    ("day_for_week", Wrong::Pairs(day_for_week)),
    ("pair_without_readings_left_out", Wrong::Pairs(with_readings_alone)),
    ("pairs_by_week_then_id", Wrong::Pairs(by_week)),
    ("pairs_as_they_come", Wrong::Pairs(as_they_come)),
    ("pair_twice", Wrong::Pairs(pair_twice)),
    // Outcomes.
    ("refused_taken_as_unresolved", Wrong::Outcome(|words, s, name| turned(words, s, name, refused_as_unresolved))),
    ("ambiguous_given_to_first_id", Wrong::Outcome(first_id)),
    ("ambiguous_taken_as_unresolved", Wrong::Outcome(|words, s, name| turned(words, s, name, ambiguous_as_unresolved))),
    ("unresolved_taken_as_refused", Wrong::Outcome(|words, s, name| turned(words, s, name, unresolved_as_refused))),
    ("index_judged_before_name", Wrong::Outcome(index_first)),
    ("settings_judged_before_name", Wrong::Outcome(settings_first)),
    ("room_for_255_rows", Wrong::Outcome(fewer_rows)),
    ("one_allowance_for_all_lines", Wrong::Whole(one_allowance)),
    ("one_number_for_all_lines", Wrong::Whole(one_number)),
    // Refusals of the whole.
    ("bad_settings_refuse_the_whole", Wrong::Whole(bad_settings_refuse)),
    ("bad_index_refuses_the_whole", Wrong::Whole(bad_index_refuses)),
    ("line_1025_read_before_it_is_refused", Wrong::Lines(read_first)),
    ("1024_lines_are_too_many", Wrong::Lines(|log| at_most(log, LOG_LINES - 1))),
    ("1025_lines_are_taken", Wrong::Lines(|log| at_most(log, LOG_LINES + 1))),
    ("too_many_lines_judged_before_frames", Wrong::Lines(too_many_first)),
    ("malformed_line_passed_over", Wrong::Lines(passed_over)),
    ("line_counted_from_0", Wrong::Lines(|log| log_lines(log).map_err(|(why, line)| (why, line - 1)))),
    ("room_judged_before_lines", Wrong::Whole(room_first)),
    ("room_one_too_strict", Wrong::Whole(room_too_strict)),
    ("pairs_need_no_room", Wrong::Whole(pairs_cut_off)),
    // Lent places.
    ("outcomes_written_though_refused", Wrong::Whole(written_though_refused)),
    ("places_behind_set_to_0", Wrong::Whole(places_behind)),
];

/// An importer: an input to an output.
pub type Importer = fn(&[u8]) -> Vec<u8>;

/// Every fault of the program.
pub const IMPORTER_FAULTS: [(&str, Importer); 24] = [
    // What is written.
    ("no_end_line", |input| kept(&importer(input), |line| kind_of(line) != Some(IMPORT_END))),
    ("end_line_after_a_refusal", end_after_refusal),
    ("pairs_before_outcomes", pairs_first),
    ("no_outcome_lines", |input| kept(&importer(input), |line| kind_of(line) != Some(OUTCOME))),
    ("outcomes_before_a_refusal", outcomes_before_refusal),
    ("refusal_of_the_lookup", |input| {
        if importer(input).starts_with(b"59") {
            b"580B00000000\n".to_vec()
        } else {
            importer(input)
        }
    }),
    // The parts and their order.
    ("every_part_is_the_log", every_part_is_the_log),
    ("lines_counted_over_all", lines_counted_over_all),
    ("settings_judged_before_register", settings_before_register),
    ("log_judged_before_settings", log_before_settings),
    ("no_settings_and_no_log_is_answered", |input| {
        importer_by(input, build, |line| if line.is_empty() { Some(NOTHING) } else { settings_of(line) }, import)
    }),
    ("settings_with_a_name_taken", |input| importer_by(input, build, named_settings, import)),
    ("bad_settings_refused_at_once", |input| importer_by(input, build, good_settings, import)),
    ("later_settings_passed_over", later_settings),
    // Limits.
    ("input_one_less", |input| if input.len() == IMPORTER_INPUT { too_much() } else { importer(input) }),
    ("input_one_more", |input| {
        if input.len() == IMPORTER_INPUT + 1 {
            importer(&input[..IMPORTER_INPUT])
        } else {
            importer(input)
        }
    }),
    ("input_cut_off", |input| importer(&input[..input.len().min(IMPORTER_INPUT)])),
    ("input_of_a_lookup", |input| if input.len() > INPUT { too_much() } else { importer(input) }),
    ("index_of_a_lookup", |input| {
        importer_by(input, |register, words| build(register, &mut words[..INDEX_WORDS]), settings_of, import)
    }),
    ("register_judged_before_input", register_before_input),
    // Lines and bytes.
    ("last_line_feed_not_needed", |input| {
        if input.last().is_some_and(|last| *last != b'\n') {
            importer(&[input, b"\n"].concat())
        } else {
            importer(input)
        }
    }),
    ("carriage_return_taken", |input| importer(&without(input, b'\r'))),
    ("lower_case_taken", |input| importer(&input.to_ascii_uppercase())),
    ("empty_line_passed_over", |input| kept_lines(input, |line| line != b"\n")),
];

/// The import of a fault, if there is such a fault.
pub fn import_fault(name: &str) -> Option<Wrong> {
    IMPORT_FAULTS.iter().find(|(known, _)| *known == name).map(|(_, wrong)| *wrong)
}

/// The importer of a fault, if there is such a fault.
pub fn importer_fault(name: &str) -> Option<Importer> {
    IMPORTER_FAULTS.iter().find(|(known, _)| *known == name).map(|(_, importer)| *importer)
}

// Imports.

/// The pairs of lines with other readings.
fn with_readings(belonging: &[(u32, LogLine)], reading: fn(Option<u32>) -> Option<u32>) -> Vec<Pair> {
    let other = |(id, line): &(u32, LogLine)| (*id, LogLine { reading: reading(line.reading), ..line.clone() });
    pairs_of(&belonging.iter().map(other).collect::<Vec<_>>())
}

fn missing_is_0(belonging: &[(u32, LogLine)]) -> Vec<Pair> {
    with_readings(belonging, |reading| Some(reading.unwrap_or(0)))
}

/// The number that says that there is no reading is taken for one.
fn missing_is_counted(belonging: &[(u32, LogLine)]) -> Vec<Pair> {
    with_readings(belonging, |reading| Some(reading.unwrap_or(65_535)))
}

fn missing_is_summed(belonging: &[(u32, LogLine)]) -> Vec<Pair> {
    let summed = missing_is_counted(belonging);
    let counted = pairs_of(belonging);
    summed.iter().zip(&counted).map(|(one, other)| Pair { count: other.count, ..*one }).collect()
}

fn without_reading(belonging: &[(u32, LogLine)], reading: u32) -> Vec<Pair> {
    let mut others = belonging.to_vec();
    for (_, line) in &mut others {
        line.reading = line.reading.filter(|there| *there != reading);
    }
    pairs_of(&others)
}

fn with_readings_alone(belonging: &[(u32, LogLine)]) -> Vec<Pair> {
    pairs_of(belonging).into_iter().filter(|pair| pair.count > 0).collect()
}

fn sum_of_16_bits(belonging: &[(u32, LogLine)]) -> Vec<Pair> {
    pairs_of(belonging).into_iter().map(|pair| Pair { sum: pair.sum % 65_536, ..pair }).collect()
}

fn last_reading(belonging: &[(u32, LogLine)]) -> Vec<Pair> {
    let of = |pair: Pair| {
        let lines = belonging.iter().filter(|(id, line)| (*id, week_of(line.day)) == (pair.id, pair.week));
        Pair { sum: lines.filter_map(|(_, line)| line.reading).next_back().unwrap_or(0), ..pair }
    };
    pairs_of(belonging).into_iter().map(of).collect()
}

/// The pairs of lines with other days, each given as a week.
fn with_weeks(belonging: &[(u32, LogLine)], week: fn(u32) -> u32) -> Vec<Pair> {
    let other = |(id, line): &(u32, LogLine)| (*id, LogLine { day: 7 * week(line.day), ..line.clone() });
    pairs_of(&belonging.iter().map(other).collect::<Vec<_>>())
}

fn week_rounded_up(belonging: &[(u32, LogLine)]) -> Vec<Pair> {
    with_weeks(belonging, |day| day.div_ceil(7))
}

fn day_for_week(belonging: &[(u32, LogLine)]) -> Vec<Pair> {
    with_weeks(belonging, |day| day)
}

fn by_week(belonging: &[(u32, LogLine)]) -> Vec<Pair> {
    let mut pairs = pairs_of(belonging);
    pairs.sort_by_key(|pair| (pair.week, pair.id));
    pairs
}

/// The pairs in the order in which their first lines come.
fn as_they_come(belonging: &[(u32, LogLine)]) -> Vec<Pair> {
    let mut pairs = pairs_of(belonging);
    let first = |pair: &Pair| belonging.iter().position(|(id, line)| (*id, week_of(line.day)) == (pair.id, pair.week));
    pairs.sort_by_key(first);
    pairs
}

/// A pair for each run of lines of one id and week.
fn pair_twice(belonging: &[(u32, LogLine)]) -> Vec<Pair> {
    let same =
        |one: &(u32, LogLine), other: &(u32, LogLine)| (one.0, week_of(one.1.day)) == (other.0, week_of(other.1.day));
    let mut pairs: Vec<Pair> = belonging.chunk_by(same).flat_map(pairs_of).collect();
    pairs.sort_by_key(|pair| (pair.id, pair.week));
    pairs
}

/// The true outcome, turned.
fn turned(words: &[u32], settings: &Settings, name: &[u8], turn: fn(Outcome) -> Outcome) -> Outcome {
    turn(outcome_of(words, settings, name))
}

fn refused_as_unresolved(outcome: Outcome) -> Outcome {
    if matches!(outcome, Outcome::Refused(_)) {
        Outcome::Unresolved
    } else {
        outcome
    }
}

fn ambiguous_as_unresolved(outcome: Outcome) -> Outcome {
    if outcome == Outcome::Ambiguous {
        Outcome::Unresolved
    } else {
        outcome
    }
}

fn unresolved_as_refused(outcome: Outcome) -> Outcome {
    if outcome == Outcome::Unresolved {
        Outcome::Refused(0)
    } else {
        outcome
    }
}

/// The rows of a line's search, with so much room, and its touches; or its number.
fn rows_of(words: &[u32], settings: &Settings, name: &[u8], room: usize) -> Result<(Vec<AnswerRow>, u32), u8> {
    let Settings { measure, p, q, allowance } = *settings;
    let mut rows = vec![AnswerRow { id: 0, shared: 0, size: 0, least: 0 }; room];
    let answer = search(words, &Query { measure, p, q, allowance, name: name.to_vec() }, &mut rows);
    rows.truncate(answer.rows);
    if answer.number == 0 {
        Ok((rows, answer.touches))
    } else {
        Err(answer.number)
    }
}

fn first_id(words: &[u32], settings: &Settings, name: &[u8]) -> Outcome {
    match rows_of(words, settings, name, ROWS) {
        Ok((rows, _)) => rows.first().map_or(Outcome::Unresolved, |row| Outcome::Belongs(row.id)),
        Err(number) => Outcome::Refused(number),
    }
}

fn fewer_rows(words: &[u32], settings: &Settings, name: &[u8]) -> Outcome {
    match rows_of(words, settings, name, ROWS - 1) {
        Err(number) => Outcome::Refused(number),
        Ok(_) => outcome_of(words, settings, name),
    }
}

fn index_first(words: &[u32], settings: &Settings, name: &[u8]) -> Outcome {
    if good(words) {
        outcome_of(words, settings, name)
    } else {
        Outcome::Refused(Refusal::NotGood.number())
    }
}

/// What is wrong with a measure and a threshold.
fn wrong(settings: &Settings) -> Option<Refusal> {
    Measure::of(settings.measure).err().or(Threshold::of(settings.p, settings.q).err())
}

fn settings_first(words: &[u32], settings: &Settings, name: &[u8]) -> Outcome {
    wrong(settings).map_or_else(|| outcome_of(words, settings, name), |why| Outcome::Refused(why.number()))
}

/// The import of a log by outcomes that depend on those of the lines before.
fn in_turn(
    log: &[u8],
    outcomes: &mut Outcomes,
    pairs: &mut Pairs,
    mut outcome: impl FnMut(&LogLine) -> Outcome,
) -> Imported {
    let lines = match log_lines(log) {
        Ok(lines) => lines,
        Err((refusal, line)) => return Imported::refused(refusal, line),
    };
    let given: Vec<Outcome> = lines.iter().map(&mut outcome).collect();
    let found = pairs_of(&belonging(&lines, &given));
    if given.len() > outcomes.room() || found.len() > pairs.room() {
        return Imported::refused(Refusal::Room, 0);
    }
    outcomes.put(&given);
    pairs.put(&found);
    Imported { number: 0, line: 0, lines: given.len(), pairs: found.len() }
}

/// The touches of a line are taken from the allowance of those after it.
fn one_allowance(log: &[u8], settings: &Settings, words: &[u32], o: &mut Outcomes, p: &mut Pairs) -> Imported {
    let mut left = *settings;
    in_turn(log, o, p, |line| {
        let outcome = outcome_of(words, &left, &line.name);
        left.allowance -= rows_of(words, &left, &line.name, ROWS).map_or(0, |(_, touches)| touches);
        outcome
    })
}

/// The first refused line's number is that of all refused ones.
fn one_number(log: &[u8], settings: &Settings, words: &[u32], o: &mut Outcomes, p: &mut Pairs) -> Imported {
    let mut first = None;
    in_turn(log, o, p, |line| match outcome_of(words, settings, &line.name) {
        Outcome::Refused(number) => Outcome::Refused(*first.get_or_insert(number)),
        other => other,
    })
}

fn bad_settings_refuse(log: &[u8], settings: &Settings, words: &[u32], o: &mut Outcomes, p: &mut Pairs) -> Imported {
    match wrong(settings) {
        Some(why) => Imported::refused(why, 0),
        None => import(log, settings, words, o, p),
    }
}

fn bad_index_refuses(log: &[u8], settings: &Settings, words: &[u32], o: &mut Outcomes, p: &mut Pairs) -> Imported {
    if good(words) {
        import(log, settings, words, o, p)
    } else {
        Imported::refused(Refusal::NotGood, 0)
    }
}

/// The 1,025th line is read, and where it is no frame that is its refusal.
fn read_first(log: &[u8]) -> Lines {
    let mut found = Vec::new();
    for (at, line) in lines(log).into_iter().enumerate() {
        found.push(log_line(line).ok_or((Refusal::Malformed, at + 1))?);
        if at == LOG_LINES {
            return Err((Refusal::Crowd, at + 1));
        }
    }
    Ok(found)
}

fn at_most(log: &[u8], most: usize) -> Lines {
    let mut found = Vec::new();
    for (at, line) in lines(log).into_iter().enumerate() {
        if at == most {
            return Err((Refusal::Crowd, at + 1));
        }
        found.push(log_line(line).ok_or((Refusal::Malformed, at + 1))?);
    }
    Ok(found)
}

fn too_many_first(log: &[u8]) -> Lines {
    if lines(log).len() > LOG_LINES {
        Err((Refusal::Crowd, LOG_LINES + 1))
    } else {
        log_lines(log)
    }
}

fn passed_over(log: &[u8]) -> Lines {
    let whole: Vec<&[u8]> = lines(log).into_iter().filter(|line| log_line(line).is_some()).collect();
    log_lines(&whole.concat())
}

/// 8 for more lines than room before any line is read.
fn room_first(log: &[u8], settings: &Settings, words: &[u32], o: &mut Outcomes, p: &mut Pairs) -> Imported {
    if lines(log).len() > o.room() {
        Imported::refused(Refusal::Room, 0)
    } else {
        import(log, settings, words, o, p)
    }
}

/// 8 where the outcomes just fit.
fn room_too_strict(log: &[u8], settings: &Settings, words: &[u32], o: &mut Outcomes, p: &mut Pairs) -> Imported {
    let (before, kept) = (o.clone(), p.clone());
    let imported = import(log, settings, words, o, p);
    if imported.number == 0 && imported.lines > 0 && imported.lines == before.room() {
        (*o, *p) = (before, kept);
        return Imported::refused(Refusal::Room, 0);
    }
    imported
}

/// The pairs that have room are given, and no word of the others.
fn pairs_cut_off(log: &[u8], settings: &Settings, words: &[u32], o: &mut Outcomes, p: &mut Pairs) -> Imported {
    let mut plenty = Pairs::lent(LOG_LINES, 0);
    let imported = import(log, settings, words, o, &mut plenty);
    let given = imported.pairs.min(p.room());
    p.ids[..given].copy_from_slice(&plenty.ids[..given]);
    p.weeks[..given].copy_from_slice(&plenty.weeks[..given]);
    p.sums[..given].copy_from_slice(&plenty.sums[..given]);
    p.counts[..given].copy_from_slice(&plenty.counts[..given]);
    Imported { pairs: given, ..imported }
}

/// Outcomes are written line by line, until the whole is refused.
fn written_though_refused(log: &[u8], settings: &Settings, words: &[u32], o: &mut Outcomes, p: &mut Pairs) -> Imported {
    let imported = import(log, settings, words, o, p);
    if imported.number != 0 {
        let whole = lines(log).into_iter().map_while(log_line).take(o.room());
        let given: Vec<Outcome> = whole.map(|line| outcome_of(words, settings, &line.name)).collect();
        o.put(&given);
    }
    imported
}

fn places_behind(log: &[u8], settings: &Settings, words: &[u32], o: &mut Outcomes, p: &mut Pairs) -> Imported {
    let imported = import(log, settings, words, o, p);
    if imported.number == 0 {
        o.cases[imported.lines..].fill(0);
        p.sums[imported.pairs..].fill(0);
    }
    imported
}

// Importers.

const NOTHING: Settings = Settings { measure: 1, p: 1, q: 1, allowance: 0 };

fn too_much() -> Vec<u8> {
    refused_line(Part::Whole, Refusal::Room.number(), 0)
}

/// The kind of a line that the program writes.
fn kind_of(line: &[u8]) -> Option<u8> {
    crate::frames::bytes_of(line)?.first().copied()
}

/// The lines of an output that a test keeps.
fn kept(output: &[u8], keep: fn(&[u8]) -> bool) -> Vec<u8> {
    lines(output).into_iter().filter(|line| keep(line)).collect::<Vec<_>>().concat()
}

/// The output for the lines of an input that a test keeps, where it is not too much.
fn kept_lines(input: &[u8], keep: fn(&[u8]) -> bool) -> Vec<u8> {
    if input.len() > IMPORTER_INPUT {
        too_much()
    } else {
        importer(&kept(input, keep))
    }
}

fn end_after_refusal(input: &[u8]) -> Vec<u8> {
    let output = importer(input);
    if output.starts_with(b"59") {
        [&output[..], b"5A00000000\n"].concat()
    } else {
        output
    }
}

fn pairs_first(input: &[u8]) -> Vec<u8> {
    let output = importer(input);
    let pairs = kept(&output, |line| kind_of(line) == Some(PAIR));
    [pairs, kept(&output, |line| kind_of(line) != Some(PAIR))].concat()
}

/// The outcomes of the lines before the one that is refused stand before the refusal.
fn outcomes_before_refusal(input: &[u8]) -> Vec<u8> {
    let output = importer(input);
    if !output.starts_with(b"5903") {
        return output;
    }
    let (register, settings, log) = three_parts(input);
    let whole: Vec<&[u8]> =
        lines(log).into_iter().take_while(|line| log_line(line).is_some()).take(LOG_LINES).collect();
    let before = importer(&[register, settings, &whole.concat()].concat());
    [kept(&before, |line| kind_of(line) == Some(OUTCOME)), output].concat()
}

/// A refusal's part, number and line.
fn refusal_in(output: &[u8]) -> Option<(u8, u8, usize)> {
    let frame = crate::frames::read_import_refused(output);
    (frame.number == 0).then_some((frame.part, frame.refusal, usize::from(frame.line)))
}

fn every_part_is_the_log(input: &[u8]) -> Vec<u8> {
    let output = importer(input);
    match refusal_in(&output) {
        Some((1 | 2, number, line)) => refused_line(Part::Log, number, line),
        _ => output,
    }
}

fn lines_counted_over_all(input: &[u8]) -> Vec<u8> {
    let output = importer(input);
    let before = lines(three_parts(input).0).len();
    match refusal_in(&output) {
        Some((2, number, line)) => refused_line(Part::Settings, number, before + line),
        Some((3, number, line)) => refused_line(Part::Log, number, before + 1 + line),
        _ => output,
    }
}

fn settings_before_register(input: &[u8]) -> Vec<u8> {
    let (_, line, _) = three_parts(input);
    if input.len() <= IMPORTER_INPUT && settings_of(line).is_none() {
        return refused_line(Part::Settings, Refusal::Malformed.number(), 1);
    }
    importer(input)
}

fn log_before_settings(input: &[u8]) -> Vec<u8> {
    let output = importer(input);
    let (_, _, log) = three_parts(input);
    match (refusal_in(&output), log_lines(log)) {
        (Some((2, ..)), Err((why, line))) => refused_line(Part::Log, why.number(), line),
        _ => output,
    }
}

fn named_settings(line: &[u8]) -> Option<Settings> {
    let frame = read_query(line, &mut [0; FRAME_NAME]);
    let (measure, p, q) = (u32::from(frame.measure), u32::from(frame.p), u32::from(frame.q));
    (frame.number == 0).then_some(Settings { measure, p, q, allowance: frame.allowance })
}

fn good_settings(line: &[u8]) -> Option<Settings> {
    settings_of(line).filter(|settings| wrong(settings).is_none())
}

/// A 51 line in the log is passed over.
fn later_settings(input: &[u8]) -> Vec<u8> {
    if input.len() > IMPORTER_INPUT {
        return too_much();
    }
    let (register, line, log) = three_parts(input);
    let others: Vec<&[u8]> = lines(log).into_iter().filter(|line| !line.starts_with(b"51")).collect();
    importer(&[register, line, &others.concat()].concat())
}

fn register_before_input(input: &[u8]) -> Vec<u8> {
    let output = importer(three_parts(input).0);
    if output.starts_with(b"5901") {
        output
    } else {
        importer(input)
    }
}

#[cfg(test)]
mod tests {
    use std::collections::BTreeSet;

    use super::{in_turn, IMPORTER_FAULTS, IMPORT_FAULTS};
    use crate::generate;
    use crate::import::{import, outcome_of};
    use crate::protocol::{import_answer, Kind};

    /// Line by line the import is the true one, so what a fault changes is that fault's doing.
    #[test]
    fn in_turn_is_no_fault() {
        for at in 0..300 {
            let input = generate::input(Kind::Import, 3, at);
            let by_turn =
                import_answer(&input, |log, s, w, o, p| in_turn(log, o, p, |line| outcome_of(w, s, &line.name)));
            assert_eq!(by_turn, import_answer(&input, import));
        }
    }

    #[test]
    fn faults_have_names_of_their_own() {
        let names = |all: Vec<&'static str>| all.iter().copied().collect::<BTreeSet<_>>().len() == all.len();
        assert!(names(IMPORT_FAULTS.iter().map(|(name, _)| *name).collect()));
        assert!(names(IMPORTER_FAULTS.iter().map(|(name, _)| *name).collect()));
    }
}
