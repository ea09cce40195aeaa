//! The line protocols by which another program can be compared with this one, part by part. README.md sets them out.
//! One case a line in, one line out; the programs `lookup` and `importer` take their inputs whole.

use std::fmt::Write;
use std::ops::Range;

use crate::build::build;
use crate::features::{features, judge};
use crate::frames;
use crate::good::good;
use crate::import::{import, Imported, Outcomes, Pairs, Settings};
use crate::importer::importer;
use crate::index::list_for;
use crate::lookup::lookup;
use crate::many::{search_many, Outcome as QueryOutcome, Queries};
use crate::many_faults::Many;
use crate::measures::{least_count, searched, similar, Measure, Threshold};
use crate::refusal::number_of;
use crate::search::{search, AnswerRow, Query};
use crate::upkeep::{add, run, withdraw, Add, Call, Withdraw};

/// What every lent byte holds before a call.
pub const LENT_BYTE: u8 = 0xA5;
/// What every lent word holds before a call.
pub const LENT_WORD: u32 = 0xA5A5_A5A5;
/// What every lent row holds before a call.
pub const LENT_ROW: AnswerRow = AnswerRow { id: 165, shared: 165, size: 165, least: 165 };

/// What every lent place of a column holds before a call.
pub const LENT_FIELD: u32 = 165;

/// The part of the rule that a protocol is for. A new one goes last, so that seeds keep their inputs.
#[derive(Clone, Copy, Debug, PartialEq, Eq)]
pub enum Kind {
    Lookup,
    Features,
    Likeness,
    Good,
    List,
    Build,
    Search,
    Frames,
    /// The protocol of `Good`, on indexes of which every word is changed in turn.
    Sweep,
    Import,
    Importer,
    /// The protocol of `Frames`, on the lines of a log.
    LogFrames,
    /// The protocol of `Frames`, on the lines that an importer writes.
    ImportFrames,
    Add,
    Withdraw,
    /// A run of adds and withdrawals.
    Calls,
    /// Many queries at once.
    Many,
}

impl Kind {
    pub const ALL: [Kind; 17] = [
        Kind::Lookup,
        Kind::Features,
        Kind::Likeness,
        Kind::Good,
        Kind::List,
        Kind::Build,
        Kind::Search,
        Kind::Frames,
        Kind::Sweep,
        Kind::Import,
        Kind::Importer,
        Kind::LogFrames,
        Kind::ImportFrames,
        Kind::Add,
        Kind::Withdraw,
        Kind::Calls,
        Kind::Many,
    ];

    pub fn word(self) -> &'static str {
        match self {
            Kind::Lookup => "lookup",
            Kind::Features => "features",
            Kind::Likeness => "likeness",
            Kind::Good => "good",
            Kind::List => "list",
            Kind::Build => "build",
            Kind::Search => "search",
            Kind::Frames => "frames",
            Kind::Sweep => "sweep",
            Kind::Import => "import",
            Kind::Importer => "importer",
            Kind::LogFrames => "log_frames",
            Kind::ImportFrames => "import_frames",
            Kind::Add => "add",
            Kind::Withdraw => "withdraw",
            Kind::Calls => "calls",
            Kind::Many => "many",
        }
    }

    pub fn of(word: &str) -> Option<Kind> {
        Kind::ALL.into_iter().find(|kind| kind.word() == word)
    }

    /// Whether an input is one line, so that many can be given at once.
    pub fn by_line(self) -> bool {
        self != Kind::Lookup && self != Kind::Importer
    }

    /// The whole output for a whole input, or why the input does not follow the protocol.
    pub fn answer(self, input: &[u8]) -> Result<Vec<u8>, String> {
        let line: fn(&mut Words<'_>) -> Result<String, String> = match self {
            Kind::Lookup => return Ok(lookup(input)),
            Kind::Importer => return Ok(importer(input)),
            Kind::Features => features_line,
            Kind::Likeness => likeness_line,
            Kind::Good | Kind::Sweep => good_line,
            Kind::List => list_line,
            Kind::Build => build_line,
            Kind::Search => search_line,
            Kind::Frames | Kind::LogFrames | Kind::ImportFrames => frames_line,
            Kind::Import => return import_answer(input, import),
            Kind::Add => return add_answer(input, add),
            Kind::Withdraw => return withdraw_answer(input, withdraw),
            Kind::Calls => return calls_answer(input, run),
            Kind::Many => return many_answer(input, search_many),
        };
        by_lines(input, line)
    }
}

/// The answers to the cases of an input, line by line, or why one does not follow its protocol.
fn by_lines(input: &[u8], line: impl Fn(&mut Words<'_>) -> Result<String, String>) -> Result<Vec<u8>, String> {
    let text = std::str::from_utf8(input).map_err(|_| "not text".to_string())?;
    let mut output = String::new();
    for (at, case) in text.lines().enumerate() {
        let mut words = Words { rest: case.split_ascii_whitespace().collect() };
        let answered = line(&mut words).and_then(|answer| words.end().map(|()| answer));
        output += &answered.map_err(|why| format!("line {}: {why}", at + 1))?;
        output.push('\n');
    }
    Ok(output.into_bytes())
}

/// The protocol `import` over a given import.
pub fn import_answer(
    input: &[u8],
    import: impl Fn(&[u8], &Settings, &[u32], &mut Outcomes, &mut Pairs) -> Imported,
) -> Result<Vec<u8>, String> {
    by_lines(input, |case| import_line(case, &import))
}

/// The protocol `add` over a given add.
pub fn add_answer(input: &[u8], add: Add) -> Result<Vec<u8>, String> {
    by_lines(input, |case| {
        let (id, name) = (case.number::<u16>("id")?, case.bytes("name")?);
        let mut words = case.slice()?;
        let number = add(&mut words, id.into(), &name);
        Ok(joined(number.to_string(), &spaced(&words)))
    })
}

/// The protocol `withdraw` over a given withdrawal.
pub fn withdraw_answer(input: &[u8], withdraw: Withdraw) -> Result<Vec<u8>, String> {
    by_lines(input, |case| {
        let id = case.number::<u16>("id")?;
        let mut words = case.slice()?;
        let number = withdraw(&mut words, id.into());
        Ok(joined(number.to_string(), &spaced(&words)))
    })
}

/// The protocol `calls` over a given run of calls, which begins with what a build of no register leaves.
pub fn calls_answer(input: &[u8], run: impl Fn(&mut [u32], &[Call]) -> Vec<u8>) -> Result<Vec<u8>, String> {
    by_lines(input, |case| {
        let mut words = vec![LENT_WORD; case.number("length")?];
        let calls: Vec<Call> = (0..case.rest.len()).map(|_| case.call()).collect::<Result<_, _>>()?;
        build(b"", &mut words);
        let numbers = run(&mut words, &calls).into_iter().map(u32::from);
        Ok(spaced(&numbers.chain(words).collect::<Vec<_>>()))
    })
}

/// The protocol `many` over a given call.
pub fn many_answer(input: &[u8], search_many: Many) -> Result<Vec<u8>, String> {
    by_lines(input, |case| {
        let (measure, p, q) = (case.number("measure")?, case.number("p")?, case.number("q")?);
        let (allowance, places, room) = (case.number("allowance")?, case.number("places")?, case.number("room")?);
        let (bytes, count) = (case.bytes("bytes")?, case.number::<u32>("count")?);
        let ends = (0..count).map(|_| case.number("end")).collect::<Result<_, _>>()?;
        let queries = Queries { measure, p, q, allowance, bytes, ends };
        let lent = QueryOutcome { number: LENT_FIELD, until: LENT_FIELD, touches: LENT_FIELD };
        let (mut outcomes, mut rows) = (vec![lent; places], vec![LENT_ROW; room]);
        let came = search_many(&case.slice()?, &queries, &mut outcomes, &mut rows);
        let outcome = |of: &QueryOutcome| format!("{}:{}:{}", of.number, of.until, of.touches);
        let shown: Vec<String> = outcomes.iter().map(outcome).chain(rows.iter().map(shown_row)).collect();
        Ok(joined(format!("{} {} {}", came.number, came.queries, came.rows), &spaced(&shown)))
    })
}

/// The words of a case that are still to be read.
struct Words<'a> {
    rest: std::collections::VecDeque<&'a str>,
}

impl Words<'_> {
    fn word(&mut self, what: &str) -> Result<&str, String> {
        self.rest.pop_front().ok_or(format!("no {what}"))
    }

    /// A number that fits its type.
    fn number<T: TryFrom<u64>>(&mut self, what: &str) -> Result<T, String> {
        let word = self.word(what)?;
        number_in(word).ok_or(format!("{what} is {word}"))
    }

    /// Bytes as hexadecimal pairs, or `-` for none.
    fn bytes(&mut self, what: &str) -> Result<Vec<u8>, String> {
        let word = self.word(what)?;
        bytes_in(word).ok_or(format!("{what} is {word}"))
    }

    /// A call: `+ID:NAME` or `-ID`.
    fn call(&mut self) -> Result<Call, String> {
        let word = self.word("call")?;
        let id = |digits| number_in::<u16>(digits).map(u32::from);
        let call = match (word.strip_prefix('+').and_then(|rest| rest.split_once(':')), word.strip_prefix('-')) {
            (Some((digits, name)), _) => id(digits).zip(bytes_in(name)).map(|(id, name)| Call::Add { id, name }),
            (None, Some(digits)) => id(digits).map(|id| Call::Withdraw { id }),
            (None, None) => None,
        };
        call.ok_or(format!("call is {word}"))
    }

    /// All words that are left, as the 32-bit words of a slice.
    fn slice(&mut self) -> Result<Vec<u32>, String> {
        (0..self.rest.len()).map(|_| self.number("word")).collect()
    }

    fn end(&self) -> Result<(), String> {
        self.rest.front().map_or(Ok(()), |word| Err(format!("{word} is one too many")))
    }
}

/// The number of a word in decimal, or in hexadecimal after `0x`, where it fits its type.
fn number_in<T: TryFrom<u64>>(word: &str) -> Option<T> {
    let number = match word.strip_prefix("0x") {
        Some(digits) => u64::from_str_radix(digits, 16),
        None => word.parse(),
    };
    number.ok().and_then(|number| T::try_from(number).ok())
}

/// The bytes of a word of hexadecimal pairs, or of `-`, which is none.
fn bytes_in(word: &str) -> Option<Vec<u8>> {
    let digits = if word == "-" { "" } else { word };
    let byte = |pair: &[u8]| match pair {
        [high, low] => {
            let value = |digit: &u8| char::from(*digit).to_digit(16);
            Some((value(high)? * 16 + value(low)?) as u8)
        }
        _ => None,
    };
    digits.as_bytes().chunks(2).map(byte).collect()
}

/// Numbers with one space between them.
pub fn spaced<T: ToString>(numbers: &[T]) -> String {
    numbers.iter().map(ToString::to_string).collect::<Vec<_>>().join(" ")
}

/// Bytes as hexadecimal pairs, or `-` for none.
pub fn pairs(bytes: &[u8]) -> String {
    if bytes.is_empty() {
        return "-".to_string();
    }
    bytes.iter().fold(String::new(), |mut text, byte| {
        let _ = write!(text, "{byte:02X}");
        text
    })
}

/// `HEAD TAIL`, or only the head where the tail is empty.
fn joined(head: String, tail: &str) -> String {
    if tail.is_empty() {
        head
    } else {
        format!("{head} {tail}")
    }
}

fn features_line(case: &mut Words<'_>) -> Result<String, String> {
    let name = case.bytes("name")?;
    Ok(joined(number_of(judge(&name)).to_string(), &spaced(&features(&name))))
}

fn likeness_line(case: &mut Words<'_>) -> Result<String, String> {
    let (measure, p, q) = (case.number("measure")?, case.number("p")?, case.number("q")?);
    let (x, y, c): (u16, u16, u16) = (case.number("x")?, case.number("y")?, case.number("c")?);
    let (x, y, c) = (u32::from(x), u32::from(y), u32::from(c));
    let judged = Measure::of(measure).and_then(|measure| Ok((measure, Threshold::of(p, q)?)));
    Ok(match judged {
        Err(refusal) => format!("{} 0 0 0 0 0", refusal.number()),
        Ok((measure, threshold)) => {
            let similar = u8::from(similar(measure, threshold, x, y, c));
            let searched = u8::from(searched(measure, threshold, x, y));
            let (p, q) = threshold.lowest();
            format!("0 {similar} {searched} {} {p} {q}", least_count(measure, threshold, x, y))
        }
    })
}

fn good_line(case: &mut Words<'_>) -> Result<String, String> {
    Ok(u8::from(good(&case.slice()?)).to_string())
}

/// Where a list stands among the words that it is a part of.
fn range_of(words: &[u32], list: &[u32]) -> Range<usize> {
    let start = (list.as_ptr() as usize - words.as_ptr() as usize) / size_of::<u32>();
    start..start + list.len()
}

fn list_line(case: &mut Words<'_>) -> Result<String, String> {
    let (size, feature): (u32, u64) = (case.number("size")?, case.number("feature")?);
    let words = case.slice()?;
    let list = list_for(&words, size, feature);
    if list.is_empty() {
        return Ok("0 0".to_string());
    }
    let range = range_of(&words, list);
    Ok(joined(format!("{} {}", range.start, range.len()), &spaced(&words[range])))
}

fn build_line(case: &mut Words<'_>) -> Result<String, String> {
    let (room, register) = (case.number("length")?, case.bytes("register")?);
    let mut words = vec![LENT_WORD; room];
    let built = build(&register, &mut words);
    Ok(joined(format!("{} {}", built.number, built.line), &spaced(&words)))
}

fn search_line(case: &mut Words<'_>) -> Result<String, String> {
    let (measure, p, q) = (case.number("measure")?, case.number("p")?, case.number("q")?);
    let (allowance, room) = (case.number("allowance")?, case.number("room")?);
    let query = Query { measure, p, q, allowance, name: case.bytes("query")? };
    let mut rows = vec![LENT_ROW; room];
    let answer = search(&case.slice()?, &query, &mut rows);
    let rows: Vec<String> = rows.iter().map(shown_row).collect();
    let head = format!("{} {} {} {} {}", answer.number, answer.rows, answer.touches, answer.p, answer.q);
    Ok(joined(head, &spaced(&rows)))
}

fn shown_row(row: &AnswerRow) -> String {
    format!("{}:{}:{}:{}", row.id, row.shared, row.size, row.least)
}

fn import_line(
    case: &mut Words<'_>,
    import: impl Fn(&[u8], &Settings, &[u32], &mut Outcomes, &mut Pairs) -> Imported,
) -> Result<String, String> {
    let (measure, p, q) = (case.number("measure")?, case.number("p")?, case.number("q")?);
    let settings = Settings { measure, p, q, allowance: case.number("allowance")? };
    let (lines, of_weeks) = (case.number("lines")?, case.number("pairs")?);
    let (mut outcomes, mut pairs) = (Outcomes::lent(lines, LENT_FIELD), Pairs::lent(of_weeks, LENT_FIELD));
    let log = case.bytes("log")?;
    let answer = import(&log, &settings, &case.slice()?, &mut outcomes, &mut pairs);
    let mut shown: Vec<String> = (0..lines).map(|at| shown_outcome(outcomes.cases[at], outcomes.values[at])).collect();
    shown.extend(
        (0..of_weeks)
            .map(|at| format!("{}:{}:{}:{}", pairs.ids[at], pairs.weeks[at], pairs.sums[at], pairs.counts[at])),
    );
    let head = format!("{} {} {} {}", answer.number, answer.line, answer.lines, answer.pairs);
    Ok(joined(head, &spaced(&shown)))
}

/// An outcome as `bID`, `u`, `a` or `rNUMBER`; two numbers that are none as `CASE:VALUE`.
fn shown_outcome(case: u32, value: u32) -> String {
    match (case, value) {
        (1, id) => format!("b{id}"),
        (2, 0) => "u".to_string(),
        (3, 0) => "a".to_string(),
        (4, number) => format!("r{number}"),
        _ => format!("{case}:{value}"),
    }
}

fn frames_line(case: &mut Words<'_>) -> Result<String, String> {
    match case.word("read or write")? {
        "read" => read_line(case),
        "write" => write_line(case),
        other => Err(format!("{other} is neither read nor write")),
    }
}

fn read_line(case: &mut Words<'_>) -> Result<String, String> {
    let (kind, room, line) = (case.bytes("kind")?, case.number("room")?, case.bytes("line")?);
    let mut buffer = vec![LENT_BYTE; room];
    let fields = match kind[..] {
        [frames::NAME] => {
            let frame = frames::read_name(&line, &mut buffer);
            format!("{} {} {}", frame.number, frame.id, frame.length)
        }
        [frames::QUERY] => {
            let frame = frames::read_query(&line, &mut buffer);
            let threshold = format!("{} {} {}", frame.measure, frame.p, frame.q);
            format!("{} {threshold} {} {}", frame.number, frame.allowance, frame.length)
        }
        [frames::ROW] => {
            let frame = frames::read_row(&line);
            format!("{} {} {} {} {}", frame.number, frame.id, frame.shared, frame.size, frame.least)
        }
        [frames::END] => {
            let frame = frames::read_end(&line);
            format!("{} {} {} {} {}", frame.number, frame.rows, frame.touches, frame.p, frame.q)
        }
        [frames::REFUSED] => {
            let frame = frames::read_refused(&line);
            format!("{} {} {}", frame.number, frame.refusal, frame.touches)
        }
        [frames::LOG] => {
            let frame = frames::read_log(&line, &mut buffer);
            format!("{} {} {} {}", frame.number, frame.day, frame.reading, frame.length)
        }
        [frames::OUTCOME] => {
            let frame = frames::read_outcome(&line);
            format!("{} {} {}", frame.number, frame.case, frame.value)
        }
        [frames::PAIR] => {
            let frame = frames::read_pair(&line);
            format!("{} {} {} {} {}", frame.number, frame.id, frame.week, frame.sum, frame.count)
        }
        [frames::IMPORT_END] => {
            let frame = frames::read_import_end(&line);
            format!("{} {} {}", frame.number, frame.outcomes, frame.pairs)
        }
        [frames::IMPORT_REFUSED] => {
            let frame = frames::read_import_refused(&line);
            format!("{} {} {} {}", frame.number, frame.part, frame.refusal, frame.line)
        }
        _ => return Err("no such kind".to_string()),
    };
    Ok(format!("{fields} {}", pairs(&buffer)))
}

fn write_line(case: &mut Words<'_>) -> Result<String, String> {
    let (kind, room) = (case.bytes("kind")?, case.number("room")?);
    let mut buffer = vec![LENT_BYTE; room];
    let written = match kind[..] {
        [frames::NAME] => frames::write_name(case.number("id")?, &case.bytes("name")?, &mut buffer),
        [frames::QUERY] => {
            let (measure, p, q) = (case.number("measure")?, case.number("p")?, case.number("q")?);
            let (allowance, name) = (case.number("allowance")?, case.bytes("query")?);
            frames::write_query(measure, p, q, allowance, &name, &mut buffer)
        }
        [frames::ROW] => {
            let (id, shared, size) = (case.number("id")?, case.number("shared")?, case.number("size")?);
            frames::write_row(id, shared, size, case.number("least")?, &mut buffer)
        }
        [frames::END] => {
            let (rows, touches) = (case.number("rows")?, case.number("touches")?);
            frames::write_end(rows, touches, case.number("p")?, case.number("q")?, &mut buffer)
        }
        [frames::REFUSED] => frames::write_refused(case.number("number")?, case.number("touches")?, &mut buffer),
        [frames::LOG] => {
            let (day, reading) = (case.number("day")?, case.number("reading")?);
            frames::write_log(day, reading, &case.bytes("name")?, &mut buffer)
        }
        [frames::OUTCOME] => frames::write_outcome(case.number("case")?, case.number("value")?, &mut buffer),
        [frames::PAIR] => {
            let (id, week, sum) = (case.number("id")?, case.number("week")?, case.number("sum")?);
            frames::write_pair(id, week, sum, case.number("count")?, &mut buffer)
        }
        [frames::IMPORT_END] => frames::write_import_end(case.number("outcomes")?, case.number("pairs")?, &mut buffer),
        [frames::IMPORT_REFUSED] => {
            let (part, number) = (case.number("part")?, case.number("number")?);
            frames::write_import_refused(part, number, case.number("line")?, &mut buffer)
        }
        _ => return Err("no such kind".to_string()),
    };
    Ok(format!("{} {} {}", written.number, written.length, pairs(&buffer)))
}
