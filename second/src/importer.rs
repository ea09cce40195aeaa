//! The program `importer`: a register, the line of its settings and a log to outcomes and pairs.
//!
//! An input is lines. Those before the first that begins with the digits 51 are the register; that line is the settings
//! line; all after it are the log. Each part is judged by itself, in this order, and the first refusal ends the output:
//!
//! | part | refused |
//! |---|---|
//! | 0, the whole | with 8, line 0, where there are more than 668,439 bytes, before anything is read |
//! | 1, the register | with the number and line of its build; there is room for every index, so never with 8 |
//! | 2, the settings line | with 11, line 1, where it is no 51 frame, where its name is not empty, and where there is none |
//! | 3, the log | with the number and line of its import; there is room for every outcome and pair, so never with 8 |
//!
//! A line is counted from 1 within its part. Measure and threshold are not judged here: a bad one refuses each line of the
//! log, and a log without lines is answered.

use crate::build::{build, lines};
use crate::frames::{read_query, write_import_end, write_import_refused, write_outcome, write_pair};
use crate::import::{import, Imported, Outcomes, Pairs, Settings};
use crate::limits::{FRAME_NAME, IMPORTER_INPUT, IMPORTER_WORDS, LOG_LINES};
use crate::lookup::{parts, written, Build};
use crate::refusal::Refusal;

/// An import that the program can be run with: the true one, or one that is wrong on purpose.
pub type Import = fn(&[u8], &Settings, &[u32], &mut Outcomes, &mut Pairs) -> Imported;

/// The part of an input that a refusal is about.
#[derive(Clone, Copy, Debug, PartialEq, Eq)]
pub enum Part {
    Whole = 0,
    Register = 1,
    Settings = 2,
    Log = 3,
}

/// All that the program writes for an input.
pub fn importer(input: &[u8]) -> Vec<u8> {
    importer_by(input, build, settings_of, import)
}

/// The program over a given build, a given reading of the settings line and a given import.
pub fn importer_by(input: &[u8], build: Build, settings_of: fn(&[u8]) -> Option<Settings>, import: Import) -> Vec<u8> {
    if input.len() > IMPORTER_INPUT {
        return refused_line(Part::Whole, Refusal::Room.number(), 0);
    }
    let (register, line, log) = three_parts(input);
    let mut words = vec![0; IMPORTER_WORDS];
    let built = build(register, &mut words);
    if built.number != 0 {
        return refused_line(Part::Register, built.number, built.line);
    }
    let Some(settings) = settings_of(line) else {
        return refused_line(Part::Settings, Refusal::Malformed.number(), 1);
    };
    let (mut outcomes, mut pairs) = (Outcomes::lent(LOG_LINES, 0), Pairs::lent(LOG_LINES, 0));
    let imported = import(log, &settings, &words, &mut outcomes, &mut pairs);
    if imported.number != 0 {
        let part = if imported.line == 0 { Part::Whole } else { Part::Log };
        return refused_line(part, imported.number, imported.line);
    }
    let mut output = Vec::new();
    for at in 0..imported.lines {
        let (case, value) = (outcomes.cases[at] as u8, outcomes.values[at] as u16);
        output.extend(written(|line| write_outcome(case, value, line)));
    }
    for at in 0..imported.pairs {
        let (id, week) = (pairs.ids[at] as u16, pairs.weeks[at] as u16);
        output.extend(written(|line| write_pair(id, week, pairs.sums[at], pairs.counts[at] as u16, line)));
    }
    output.extend(written(|line| write_import_end(imported.lines as u16, imported.pairs as u16, line)));
    output
}

/// The register, the settings line, which is empty where no line begins with 51, and the log.
pub fn three_parts(input: &[u8]) -> (&[u8], &[u8], &[u8]) {
    let (register, rest) = parts(input);
    let first = lines(rest).first().map_or(0, |line| line.len());
    (register, &rest[..first], &rest[first..])
}

/// What the settings line says, or none where it is no 51 frame with an empty name.
pub fn settings_of(line: &[u8]) -> Option<Settings> {
    let frame = read_query(line, &mut [0; FRAME_NAME]);
    let whole = frame.number == 0 && frame.length == 0;
    whole.then_some(Settings {
        measure: u32::from(frame.measure),
        p: u32::from(frame.p),
        q: u32::from(frame.q),
        allowance: frame.allowance,
    })
}

/// The line of a refusal.
pub fn refused_line(part: Part, number: u8, line: usize) -> Vec<u8> {
    written(|buffer| write_import_refused(part as u8, number, line as u16, buffer))
}
