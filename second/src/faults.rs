//! Lookups that are wrong on purpose, one fault each, to see that a comparison catches them. Nothing else uses this.

use crate::build::{build, lines, register_line, register_names, words_of, Built, Registered};
use crate::features::{control, features, judge};
use crate::frames::read_name;
use crate::index::Index;
use crate::limits::{BLANK, FRAME_NAME, INPUT, LEAST_SIZE, MOST_SIZE, NAMES};
use crate::lookup::{lookup, lookup_by, parts, Build, Search};
use crate::measures::{least_count, searched, similar, Measure, Threshold};
use crate::refusal::Refusal;
use crate::search::{judged, search, Answer, AnswerRow, Query};

/// A lookup: an input to an output.
pub type Lookup = fn(&[u8]) -> Vec<u8>;

/// A fault's name, and the lookup that has it.
pub type Fault = (&'static str, Lookup);

/// Every fault.
pub const FAULTS: [Fault; 54] = [
    // Lists that are short, long or out of order.
    ("list_always_empty", |input| searching(input, |words, query, rows| kept(words, query, rows, |_, _, _| false))),
    ("refused_always", |input| searching(input, |_, query, _| Answer::refused(Refusal::Allowance, query.allowance))),
    ("first_size_only", |input| searching(input, |words, query, rows| kept(words, query, rows, first_size))),
    ("name_on_threshold_lost", |input| searching(input, |words, query, rows| kept(words, query, rows, above))),
    ("least_count_one_lost", |input| searching(input, |words, query, rows| kept(words, query, rows, not_of_one))),
    ("size_66_lost", |input| {
        searching(input, |words, query, rows| kept(words, query, rows, |_, _, row| row.size < MOST_SIZE))
    }),
    ("id_65535_lost", |input| {
        searching(input, |words, query, rows| kept(words, query, rows, |_, _, row| row.id < 65_535))
    }),
    ("count_clipped", |input| searching(input, |words, query, rows| altered(words, query, rows, clipped))),
    ("sizes_not_merged", |input| searching(input, sizes_not_merged)),
    ("equal_grams_are_one", |input| {
        lookup_by(input, equal_grams_build, |w, q, r| turned(w, q, r, Turn { grams: true, ..STRAIGHT }))
    }),
    // Least counts that are wrong or in the wrong place.
    ("least_count_of_own_size", |input| searching(input, least_count_of_own_size)),
    ("least_count_one_more", |input| searching(input, |words, query, rows| altered(words, query, rows, one_more))),
    ("least_counts_not_merged", |input| searching(input, least_counts_not_merged)),
    ("shared_and_least_swapped", |input| searching(input, |words, query, rows| altered(words, query, rows, swapped))),
    ("least_before_size", least_before_size),
    // Numbers that are wrong.
    ("threshold_not_lowered", |input| searching(input, threshold_not_lowered)),
    ("touches_one_more", |input| searching(input, touches_one_more)),
    ("allowance_one_too_strict", |input| searching(input, allowance_one_too_strict)),
    ("allowance_one_too_loose", |input| searching(input, allowance_one_too_loose)),
    ("measure_judged_first", |input| searching(input, measure_judged_first)),
    ("threshold_judged_before_measure", |input| searching(input, threshold_judged_before_measure)),
    ("order_judged_before_name", |input| building(input, |register, words| built_by(register, words, behind))),
    ("257th_judged_before_order", |input| building(input, |register, words| built_by(register, words, one_too_many))),
    ("257th_judged_before_frame", |input| {
        building(input, |register, words| built_by(register, words, one_line_too_many))
    }),
    // Control characters.
    ("delete_code_passes", |input| lookup(&rewritten(input, b"7F", b"7E"))),
    ("byte_31_passes", |input| lookup(&rewritten(input, b"1F", b"20"))),
    ("byte_32_refused", |input| searching(input, |words, query, rows| refusing(words, query, rows, 32))),
    ("byte_126_refused", |input| searching(input, |words, query, rows| refusing(words, query, rows, 126))),
    ("byte_128_refused", |input| searching(input, |words, query, rows| refusing(words, query, rows, 128))),
    ("control_judged_before_0", |input| searching(input, control_judged_before_0)),
    ("measure_judged_before_control", |input| searching(input, measure_judged_before_control)),
    ("register_takes_tabs", |input| {
        building(input, |register, words| build(&rewritten(register, b"09", b"20"), words))
    }),
    // Touches by another method.
    ("ties_by_falling_feature", |input| searching(input, |w, q, r| turned(w, q, r, Turn { ties: true, ..STRAIGHT }))),
    ("features_not_ordered", |input| searching(input, |w, q, r| turned(w, q, r, Turn { order: true, ..STRAIGHT }))),
    ("one_signature_more", |input| searching(input, |w, q, r| turned(w, q, r, Turn { signature: true, ..STRAIGHT }))),
    ("absent_test_free", |input| searching(input, |w, q, r| turned(w, q, r, Turn { absent: true, ..STRAIGHT }))),
    ("nothing_dropped", |input| searching(input, |w, q, r| turned(w, q, r, Turn { keep: true, ..STRAIGHT }))),
    ("dropped_one_late", |input| searching(input, |w, q, r| turned(w, q, r, Turn { late: true, ..STRAIGHT }))),
    ("dropped_one_early", |input| searching(input, |w, q, r| turned(w, q, r, Turn { early: true, ..STRAIGHT }))),
    ("settled_not_tested", |input| searching(input, |w, q, r| turned(w, q, r, Turn { settled: true, ..STRAIGHT }))),
    // Lines and bytes.
    ("last_line_feed_not_needed", last_line_feed_not_needed),
    ("carriage_return_taken", |input| lookup(&without(input, b'\r'))),
    ("lower_case_taken", |input| lookup(&input.to_ascii_uppercase())),
    ("empty_line_passed_over", empty_line_passed_over),
    ("register_sorted", register_sorted),
    ("257th_name_passed_over", names_passed_over),
    ("stops_at_bad_query", stops_at_bad_query),
    ("goes_on_after_bad_register", goes_on_after_bad_register),
    ("queries_begin_with_5", queries_begin_with_5),
    ("one_query_only", one_query_only),
    ("input_one_less", |input| if input.len() < INPUT { lookup(input) } else { lookup(&[0; INPUT + 1]) }),
    ("input_one_more", |input| if input.len() == INPUT + 1 { lookup(&input[..INPUT]) } else { lookup(input) }),
    ("input_cut_off", |input| lookup(&input[..input.len().min(INPUT)])),
    ("register_judged_before_input", register_judged_before_input),
];

/// The program over a given search.
fn searching(input: &[u8], search: Search) -> Vec<u8> {
    lookup_by(input, build, search)
}

/// The program over a given build.
fn building(input: &[u8], build: Build) -> Vec<u8> {
    lookup_by(input, build, search)
}

/// The lookup of a fault, if there is such a fault.
pub fn fault(name: &str) -> Option<Lookup> {
    FAULTS.iter().find(|(known, _)| *known == name).map(|(_, lookup)| *lookup)
}

/// The true answer with only the rows that a test keeps.
fn kept(
    words: &[u32],
    query: &Query,
    rows: &mut [AnswerRow],
    keep: fn(&Query, &[AnswerRow], &AnswerRow) -> bool,
) -> Answer {
    let answer = search(words, query, rows);
    let all = rows[..answer.rows].to_vec();
    let left: Vec<AnswerRow> = all.iter().filter(|row| keep(query, &all, row)).copied().collect();
    rows[..left.len()].copy_from_slice(&left);
    Answer { rows: left.len(), ..answer }
}

fn first_size(_: &Query, all: &[AnswerRow], row: &AnswerRow) -> bool {
    all.iter().all(|other| other.size >= row.size)
}

/// What an answered query asked for.
fn asked(query: &Query) -> Option<(Measure, Threshold, u32)> {
    let (measure, threshold) = (Measure::of(query.measure).ok()?, Threshold::of(query.p, query.q).ok()?);
    Some((measure, threshold, features(&query.name).len() as u32))
}

/// Whether a row lies above the threshold, not on it.
fn above(query: &Query, _: &[AnswerRow], row: &AnswerRow) -> bool {
    asked(query).is_some_and(|(measure, threshold, x)| {
        let (p, q) = (u128::from(threshold.p()), u128::from(threshold.q()));
        let (x, y, c) = (u128::from(x), u128::from(row.size), u128::from(row.shared));
        match measure {
            Measure::Dice => 2 * c * q > p * (x + y),
            Measure::Jaccard => c * q > p * (x + y - c),
            Measure::Cosine => c * c * q * q > p * p * x * y,
            Measure::Overlap => c * q > p * x.min(y),
        }
    })
}

fn not_of_one(_: &Query, _: &[AnswerRow], row: &AnswerRow) -> bool {
    row.least > 1
}

/// The true answer with each row altered.
fn altered(words: &[u32], query: &Query, rows: &mut [AnswerRow], alter: fn(&mut AnswerRow)) -> Answer {
    let answer = search(words, query, rows);
    rows[..answer.rows].iter_mut().for_each(alter);
    answer
}

/// A candidate that reaches the least count is answered with that count.
fn clipped(row: &mut AnswerRow) {
    row.shared = row.shared.min(row.least);
}

fn one_more(row: &mut AnswerRow) {
    row.least += 1;
}

fn swapped(row: &mut AnswerRow) {
    (row.shared, row.least) = (row.least, row.shared);
}

/// Each row has the least count for a name of the query's own size.
fn least_count_of_own_size(words: &[u32], query: &Query, rows: &mut [AnswerRow]) -> Answer {
    let answer = search(words, query, rows);
    if let Some((measure, threshold, x)) = asked(query) {
        for row in &mut rows[..answer.rows] {
            row.least = least_count(measure, threshold, x, x);
        }
    }
    answer
}

/// The least counts stay in the order of the sizes, while all else goes by id.
fn least_counts_not_merged(words: &[u32], query: &Query, rows: &mut [AnswerRow]) -> Answer {
    let answer = search(words, query, rows);
    let mut by_size = rows[..answer.rows].to_vec();
    by_size.sort_by_key(|row| (row.size, row.id));
    for (row, other) in rows.iter_mut().zip(by_size) {
        row.least = other.least;
    }
    answer
}

/// In each 52 line the least count stands before the size.
fn least_before_size(input: &[u8]) -> Vec<u8> {
    let output = lookup(input);
    let turned = |line: &[u8]| match line {
        [b'5', b'2', ..] => [&line[..8], &line[10..12], &line[8..10], &line[12..]].concat(),
        _ => line.to_vec(),
    };
    lines(&output).into_iter().flat_map(turned).collect()
}

fn sizes_not_merged(words: &[u32], query: &Query, rows: &mut [AnswerRow]) -> Answer {
    let answer = search(words, query, rows);
    rows[..answer.rows].sort_by_key(|row| (row.size, row.id));
    answer
}

fn threshold_not_lowered(words: &[u32], query: &Query, rows: &mut [AnswerRow]) -> Answer {
    let answer = search(words, query, rows);
    if answer.number == 0 {
        Answer { p: query.p, q: query.q, ..answer }
    } else {
        answer
    }
}

fn touches_one_more(words: &[u32], query: &Query, rows: &mut [AnswerRow]) -> Answer {
    let answer = search(words, query, rows);
    Answer { touches: answer.touches.saturating_add(1), ..answer }
}

fn allowance_one_too_strict(words: &[u32], query: &Query, rows: &mut [AnswerRow]) -> Answer {
    let answer = search(words, query, rows);
    if answer.number == 0 && answer.touches == query.allowance {
        Answer::refused(Refusal::Allowance, query.allowance)
    } else {
        answer
    }
}

fn allowance_one_too_loose(words: &[u32], query: &Query, rows: &mut [AnswerRow]) -> Answer {
    let more = Query { allowance: query.allowance.saturating_add(1), ..query.clone() };
    let answer = search(words, &more, rows);
    if answer.number == Refusal::Allowance.number() {
        Answer { touches: query.allowance, ..answer }
    } else {
        answer
    }
}

fn measure_judged_first(words: &[u32], query: &Query, rows: &mut [AnswerRow]) -> Answer {
    match Measure::of(query.measure) {
        Err(refusal) => Answer::refused(refusal, 0),
        Ok(_) => search(words, query, rows),
    }
}

fn threshold_judged_before_measure(words: &[u32], query: &Query, rows: &mut [AnswerRow]) -> Answer {
    let answer = search(words, query, rows);
    match Threshold::of(query.p, query.q) {
        Err(refusal) if answer.number == Refusal::Measure.number() => Answer::refused(refusal, 0),
        _ => answer,
    }
}

/// The lines with one byte of their names put in another's place.
fn rewritten(input: &[u8], from: &[u8; 2], to: &[u8; 2]) -> Vec<u8> {
    let mut output = Vec::new();
    for line in lines(input) {
        // The digits before the name: kind, fields and length.
        let fields = match line {
            [b'4', b'E', ..] => 8,
            [b'5', b'1', ..] => 22,
            _ => line.len(),
        };
        let (head, name) = line.split_at(fields.min(line.len()));
        output.extend(head);
        for pair in name.chunks(2) {
            output.extend(if pair == from { to } else { pair });
        }
    }
    output
}

/// The true answer, but for a query with this byte, which is taken for a control character.
fn refusing(words: &[u32], query: &Query, rows: &mut [AnswerRow], byte: u8) -> Answer {
    if judge(&query.name).is_ok() && query.name.contains(&byte) {
        Answer::refused(Refusal::Control, 0)
    } else {
        search(words, query, rows)
    }
}

fn control_judged_before_0(words: &[u32], query: &Query, rows: &mut [AnswerRow]) -> Answer {
    let answer = search(words, query, rows);
    if answer.number == Refusal::Zero.number() && query.name.iter().any(|byte| *byte != 0 && control(*byte)) {
        Answer::refused(Refusal::Control, 0)
    } else {
        answer
    }
}

fn measure_judged_before_control(words: &[u32], query: &Query, rows: &mut [AnswerRow]) -> Answer {
    let answer = search(words, query, rows);
    match Measure::of(query.measure) {
        Err(refusal) if answer.number == Refusal::Control.number() => Answer::refused(refusal, 0),
        _ => answer,
    }
}

/// What a turned search does otherwise than the true one.
#[derive(Clone, Copy)]
struct Turn {
    /// Equal lengths are ordered by falling feature.
    ties: bool,
    /// The features stay in order of appearance.
    order: bool,
    /// The signatures are one more, where there are features for it.
    signature: bool,
    /// A test that finds nothing costs no touch.
    absent: bool,
    /// No candidate is dropped before the end.
    keep: bool,
    /// A candidate is dropped one place later than it could be.
    late: bool,
    /// A candidate that can only just reach the least count is dropped.
    early: bool,
    /// A candidate that has reached the least count is no longer charged.
    settled: bool,
    /// Equal grams are one feature.
    grams: bool,
}

const STRAIGHT: Turn = Turn {
    ties: false,
    order: false,
    signature: false,
    absent: false,
    keep: false,
    late: false,
    early: false,
    settled: false,
    grams: false,
};

/// The counted search with turns; with none it is the true one.
fn turned(words: &[u32], query: &Query, rows: &mut [AnswerRow], turn: Turn) -> Answer {
    let (index, measure, threshold) = match judged(words, query) {
        Err(refusal) => return Answer::refused(refusal, 0),
        Ok(judged) => judged,
    };
    let wanted = if turn.grams { different_grams(&query.name) } else { features(&query.name) };
    let x = wanted.len() as u32;
    let (mut touches, mut found) = (0, Vec::new());
    for size in (LEAST_SIZE..=MOST_SIZE).filter(|size| searched(measure, threshold, x, *size)) {
        let t = least_count(measure, threshold, x, size);
        let (cost, counts) = turned_size(&index, size, &wanted, t, turn);
        touches += cost;
        let similar = counts.into_iter().filter(|(_, shared)| similar(measure, threshold, x, size, *shared));
        found.extend(similar.map(|(id, shared)| AnswerRow { id, shared, size, least: t }));
    }
    found.sort_by_key(|row| row.id);
    if touches > query.allowance {
        return Answer::refused(Refusal::Allowance, query.allowance);
    }
    rows[..found.len()].copy_from_slice(&found);
    let (p, q) = threshold.lowest();
    Answer { number: 0, rows: found.len(), touches, p, q }
}

/// The touches of one size, and the candidates left with their counts.
fn turned_size(index: &Index<'_>, size: u32, wanted: &[u32], t: u32, turn: Turn) -> (u32, Vec<(u32, u32)>) {
    let x = wanted.len() as u32;
    let mut order: Vec<(u32, &[u32])> =
        wanted.iter().map(|feature| (*feature, index.list_for(size, *feature))).collect();
    if turn.ties {
        order.sort_by_key(|(feature, list)| (list.len(), u32::MAX - feature));
    } else if !turn.order {
        order.sort_by_key(|(feature, list)| (list.len(), *feature));
    }
    let signatures = (x + 1 - t + u32::from(turn.signature)).min(x);
    let (mut touches, mut counts) = (0, Vec::<(u32, u32)>::new());
    for (_, list) in &order[..signatures as usize] {
        for id in *list {
            touches += 1;
            match counts.iter_mut().find(|count| count.0 == *id) {
                Some(count) => count.1 += 1,
                None => counts.push((*id, 1)),
            }
        }
    }
    for k in signatures..x {
        for count in &mut counts {
            let present = order[k as usize].1.contains(&count.0);
            let free = (turn.absent && !present) || (turn.settled && count.1 >= t);
            touches += u32::from(!free);
            count.1 += u32::from(present);
        }
        let reach = x - k - 1 + u32::from(turn.late);
        counts.retain(|(_, count)| turn.keep || count + reach >= t + u32::from(turn.early));
    }
    (touches, counts)
}

/// The features of a name's different grams.
fn different_grams(name: &[u8]) -> Vec<u32> {
    features(name).into_iter().filter(|feature| feature % 256 == 1).collect()
}

fn equal_grams_build(register: &[u8], words: &mut [u32]) -> Built {
    let built = build(register, words);
    if let (0, Ok(names)) = (built.number, register_names(register)) {
        let names: Vec<(u32, Vec<u32>)> = names.iter().map(|name| (name.id, different_grams(&name.name))).collect();
        let index = words_of(&names);
        words.fill(BLANK);
        words[..index.len()].copy_from_slice(&index);
    }
    built
}

/// A build that judges something before the rest of each line.
fn built_by(register: &[u8], words: &mut [u32], first: fn(&[u8], &[Registered]) -> Option<Refusal>) -> Built {
    let mut names = Vec::new();
    for (at, line) in lines(register).into_iter().enumerate() {
        let judged = first(line, &names).map_or_else(|| register_line(line, &names), Err);
        match judged {
            Ok(name) => names.push(name),
            Err(refusal) => return Built { number: refusal.number(), line: at + 1 },
        }
    }
    build(register, words)
}

/// The id of a line that is a 4E frame.
fn id_of(line: &[u8]) -> Option<u32> {
    let frame = read_name(line, &mut [0; FRAME_NAME]);
    (frame.number == 0).then_some(u32::from(frame.id))
}

fn behind(line: &[u8], before: &[Registered]) -> Option<Refusal> {
    (id_of(line)? <= before.last()?.id).then_some(Refusal::Order)
}

fn one_too_many(line: &[u8], before: &[Registered]) -> Option<Refusal> {
    (register_line(line, &[]).is_ok() && before.len() == NAMES).then_some(Refusal::Crowd)
}

fn one_line_too_many(_: &[u8], before: &[Registered]) -> Option<Refusal> {
    (before.len() == NAMES).then_some(Refusal::Crowd)
}

pub fn without(input: &[u8], byte: u8) -> Vec<u8> {
    input.iter().copied().filter(|other| *other != byte).collect()
}

fn last_line_feed_not_needed(input: &[u8]) -> Vec<u8> {
    if input.len() < INPUT && input.last().is_some_and(|last| *last != b'\n') {
        lookup(&[input, b"\n"].concat())
    } else {
        lookup(input)
    }
}

fn empty_line_passed_over(input: &[u8]) -> Vec<u8> {
    let full: Vec<&[u8]> = lines(input).into_iter().filter(|line| *line != b"\n").collect();
    lookup(&full.concat())
}

fn stops_at_bad_query(input: &[u8]) -> Vec<u8> {
    let output = lookup(input);
    let mut kept = Vec::new();
    for line in lines(&output) {
        kept.extend(line);
        if line.starts_with(b"580B") {
            break;
        }
    }
    kept
}

/// A refused register is answered with its 58 line, and then the queries with an empty index.
fn goes_on_after_bad_register(input: &[u8]) -> Vec<u8> {
    let (register, queries) = parts(input);
    let output = lookup(register);
    if output.is_empty() || input.len() > INPUT {
        lookup(input)
    } else {
        [output, lookup(queries)].concat()
    }
}

fn register_judged_before_input(input: &[u8]) -> Vec<u8> {
    let (register, _) = parts(input);
    let output = lookup(register);
    if output.is_empty() {
        lookup(input)
    } else {
        output
    }
}

/// The register lines are put in order, which their digits give, before they are read.
fn register_sorted(input: &[u8]) -> Vec<u8> {
    let (register, queries) = parts(input);
    let mut sorted = lines(register);
    sorted.sort();
    lookup(&[sorted.concat(), queries.to_vec()].concat())
}

/// Nothing is read after the first line among the queries.
fn one_query_only(input: &[u8]) -> Vec<u8> {
    let (register, queries) = parts(input);
    let first: Vec<&[u8]> = lines(queries).into_iter().take(1).collect();
    if input.len() > INPUT {
        lookup(input)
    } else {
        lookup(&[register, &first.concat()].concat())
    }
}

/// A name after the 256th is left out, with no refusal.
fn names_passed_over(input: &[u8]) -> Vec<u8> {
    let (register, queries) = parts(input);
    let first: Vec<&[u8]> = lines(register).into_iter().take(NAMES).collect();
    lookup(&[first.concat(), queries.to_vec()].concat())
}

/// The queries begin at a line that begins with 5.
fn queries_begin_with_5(input: &[u8]) -> Vec<u8> {
    let mut replaced: Vec<Vec<u8>> = lines(input).into_iter().map(<[u8]>::to_vec).collect();
    if let Some(first) = replaced.iter_mut().find(|line| line.starts_with(b"5")) {
        if !first.starts_with(b"51") {
            *first = b"51\n".to_vec();
        }
    }
    if input.len() > INPUT {
        lookup(input)
    } else {
        lookup(&replaced.concat())
    }
}

#[cfg(test)]
mod tests {
    use super::{lookup, searching, turned, STRAIGHT};
    use crate::generate;
    use crate::protocol::Kind;

    /// Without a turn the turned search is the true one, so what a turn changes is that turn's doing.
    #[test]
    fn no_turn_is_no_fault() {
        for at in 0..400 {
            let input = generate::input(Kind::Lookup, 3, at);
            assert_eq!(searching(&input, |words, query, rows| turned(words, query, rows, STRAIGHT)), lookup(&input));
        }
    }
}
