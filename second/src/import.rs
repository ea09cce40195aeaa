//! The import of a log: the outcome of each line, and the readings of each id and week.

use std::collections::BTreeSet;

use crate::build::lines;
use crate::frames::read_log;
use crate::limits::{FRAME_NAME, LOG_LINES, NO_READING, ROWS, WEEK};
use crate::refusal::Refusal;
use crate::search::{search, AnswerRow, Query};

/// What every line of a log is searched with; each search has the whole allowance.
#[derive(Clone, Copy, Debug, PartialEq, Eq)]
pub struct Settings {
    pub measure: u32,
    pub p: u32,
    pub q: u32,
    pub allowance: u32,
}

/// A line of a log. A reading that is missing is none; 0 is a reading.
#[derive(Clone, Debug, PartialEq, Eq)]
pub struct LogLine {
    pub day: u32,
    pub reading: Option<u32>,
    pub name: Vec<u8>,
}

/// What comes of a line.
#[derive(Clone, Copy, Debug, PartialEq, Eq)]
pub enum Outcome {
    /// Its search lists this one id.
    Belongs(u32),
    /// It lists none.
    Unresolved,
    /// It lists several.
    Ambiguous,
    /// It is refused, with this number.
    Refused(u8),
}

impl Outcome {
    /// Its case as a number, 1 to 4, and its value: the id of 1, the number of 4, 0 of the others.
    pub fn numbers(self) -> (u32, u32) {
        match self {
            Outcome::Belongs(id) => (1, id),
            Outcome::Unresolved => (2, 0),
            Outcome::Ambiguous => (3, 0),
            Outcome::Refused(number) => (4, u32::from(number)),
        }
    }
}

/// The readings of one id in one week: the sum of those present, and how many they are.
#[derive(Clone, Copy, Debug, PartialEq, Eq)]
pub struct Pair {
    pub id: u32,
    pub week: u32,
    pub sum: u32,
    pub count: u32,
}

/// Lent columns for outcomes. There is room for as many as the shorter has.
#[derive(Clone, Debug, PartialEq, Eq)]
pub struct Outcomes {
    pub cases: Vec<u32>,
    pub values: Vec<u32>,
}

impl Outcomes {
    /// Columns of one length, every place filled.
    pub fn lent(room: usize, fill: u32) -> Outcomes {
        Outcomes { cases: vec![fill; room], values: vec![fill; room] }
    }

    pub fn room(&self) -> usize {
        self.cases.len().min(self.values.len())
    }

    /// Puts outcomes at the start of the columns; what stands behind them stays.
    pub fn put(&mut self, outcomes: &[Outcome]) {
        for (at, outcome) in outcomes.iter().enumerate() {
            (self.cases[at], self.values[at]) = outcome.numbers();
        }
    }
}

/// Lent columns for pairs. There is room for as many as the shortest has.
#[derive(Clone, Debug, PartialEq, Eq)]
pub struct Pairs {
    pub ids: Vec<u32>,
    pub weeks: Vec<u32>,
    pub sums: Vec<u32>,
    pub counts: Vec<u32>,
}

impl Pairs {
    /// Columns of one length, every place filled.
    pub fn lent(room: usize, fill: u32) -> Pairs {
        let column = vec![fill; room];
        Pairs { ids: column.clone(), weeks: column.clone(), sums: column.clone(), counts: column }
    }

    pub fn room(&self) -> usize {
        [&self.ids, &self.weeks, &self.sums, &self.counts].into_iter().map(Vec::len).min().unwrap_or(0)
    }

    /// Puts pairs at the start of the columns; what stands behind them stays.
    pub fn put(&mut self, pairs: &[Pair]) {
        for (at, pair) in pairs.iter().enumerate() {
            self.ids[at] = pair.id;
            self.weeks[at] = pair.week;
            self.sums[at] = pair.sum;
            self.counts[at] = pair.count;
        }
    }
}

/// What an import returns: 0, line 0, and how many outcomes and pairs it wrote; or a refusal's number and the line that it
/// is about, from 1, or 0 for none, and nothing written.
#[derive(Clone, Copy, Debug, PartialEq, Eq)]
pub struct Imported {
    pub number: u8,
    pub line: usize,
    pub lines: usize,
    pub pairs: usize,
}

impl Imported {
    pub fn refused(refusal: Refusal, line: usize) -> Imported {
        Imported { number: refusal.number(), line, lines: 0, pairs: 0 }
    }
}

/// The lines of a log, or a refusal and the place of its line.
pub type Lines = Result<Vec<LogLine>, (Refusal, usize)>;

/// The steps of an import. Those of [`TRUE`] are right; others are wrong on purpose.
#[derive(Clone, Copy)]
pub struct Steps {
    pub lines: fn(&[u8]) -> Lines,
    pub outcome: fn(&[u32], &Settings, &[u8]) -> Outcome,
    pub pairs: fn(&[(u32, LogLine)]) -> Vec<Pair>,
}

/// The steps as the rule has them.
pub const TRUE: Steps = Steps { lines: log_lines, outcome: outcome_of, pairs: pairs_of };

/// One line of a log, or none where it is no 4C frame.
pub fn log_line(line: &[u8]) -> Option<LogLine> {
    let mut buffer = [0; FRAME_NAME];
    let frame = read_log(line, &mut buffer);
    if frame.number != 0 {
        return None;
    }
    let reading = (frame.reading != NO_READING).then_some(u32::from(frame.reading));
    Some(LogLine { day: u32::from(frame.day), reading, name: buffer[..usize::from(frame.length)].to_vec() })
}

/// The lines of a log, or the refusal of the first that has one, and its place from 1: 10 for the 1,025th, which is not
/// read, 11 for one that is no 4C frame.
pub fn log_lines(log: &[u8]) -> Lines {
    let mut found = Vec::new();
    for (at, line) in lines(log).into_iter().enumerate() {
        if at == LOG_LINES {
            return Err((Refusal::Crowd, at + 1));
        }
        found.push(log_line(line).ok_or((Refusal::Malformed, at + 1))?);
    }
    Ok(found)
}

/// The outcome of a typed name, by a search of its own with room for 256 rows.
pub fn outcome_of(words: &[u32], settings: &Settings, name: &[u8]) -> Outcome {
    let Settings { measure, p, q, allowance } = *settings;
    let mut rows = [AnswerRow { id: 0, shared: 0, size: 0, least: 0 }; ROWS];
    let answer = search(words, &Query { measure, p, q, allowance, name: name.to_vec() }, &mut rows);
    match (answer.number, &rows[..answer.rows]) {
        (0, []) => Outcome::Unresolved,
        (0, [row]) => Outcome::Belongs(row.id),
        (0, _) => Outcome::Ambiguous,
        (number, _) => Outcome::Refused(number),
    }
}

/// The week of a day.
pub fn week_of(day: u32) -> u32 {
    day / WEEK
}

/// The pairs of lines that belong, each line with its id: by id, then week, once each.
pub fn pairs_of(belonging: &[(u32, LogLine)]) -> Vec<Pair> {
    let there: BTreeSet<(u32, u32)> = belonging.iter().map(|(id, line)| (*id, week_of(line.day))).collect();
    let pair = |(id, week): (u32, u32)| {
        let lines = belonging.iter().filter(|(of, line)| *of == id && week_of(line.day) == week);
        let present: Vec<u32> = lines.filter_map(|(_, line)| line.reading).collect();
        Pair { id, week, sum: present.iter().sum(), count: present.len() as u32 }
    };
    there.into_iter().map(pair).collect()
}

/// The lines that belong, each with its id.
pub fn belonging(lines: &[LogLine], outcomes: &[Outcome]) -> Vec<(u32, LogLine)> {
    let with_id = |(line, outcome): (&LogLine, &Outcome)| match outcome {
        Outcome::Belongs(id) => Some((*id, line.clone())),
        Outcome::Unresolved | Outcome::Ambiguous | Outcome::Refused(_) => None,
    };
    lines.iter().zip(outcomes).filter_map(with_id).collect()
}

/// Imports a log. A refusal of the whole writes nothing: the first line that has one, then 8 with line 0 where there are
/// more lines or more pairs than room.
pub fn import(log: &[u8], settings: &Settings, words: &[u32], outcomes: &mut Outcomes, pairs: &mut Pairs) -> Imported {
    import_by(log, settings, words, outcomes, pairs, &TRUE)
}

/// An import by given steps.
pub fn import_by(
    log: &[u8],
    settings: &Settings,
    words: &[u32],
    outcomes: &mut Outcomes,
    pairs: &mut Pairs,
    steps: &Steps,
) -> Imported {
    let lines = match (steps.lines)(log) {
        Ok(lines) => lines,
        Err((refusal, line)) => return Imported::refused(refusal, line),
    };
    let of_lines: Vec<Outcome> = lines.iter().map(|line| (steps.outcome)(words, settings, &line.name)).collect();
    let of_weeks = (steps.pairs)(&belonging(&lines, &of_lines));
    if of_lines.len() > outcomes.room() || of_weeks.len() > pairs.room() {
        return Imported::refused(Refusal::Room, 0);
    }
    outcomes.put(&of_lines);
    pairs.put(&of_weeks);
    Imported { number: 0, line: 0, lines: of_lines.len(), pairs: of_weeks.len() }
}
