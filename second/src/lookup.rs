//! The program `lookup`: input bytes to output bytes.

use crate::build::{build, lines, Built};
use crate::frames::{read_query, write_end, write_refused, write_row, Written};
use crate::limits::{FRAME_NAME, INDEX_WORDS, INPUT, ROWS};
use crate::refusal::Refusal;
use crate::search::{search, Answer, AnswerRow, Query};

/// A build that the program can be run with: the true one, or one that is wrong on purpose.
pub type Build = fn(&[u8], &mut [u32]) -> Built;
/// A search that the program can be run with: the true one, or one that is wrong on purpose.
pub type Search = fn(&[u32], &Query, &mut [AnswerRow]) -> Answer;

/// All that the program writes for an input.
pub fn lookup(input: &[u8]) -> Vec<u8> {
    lookup_by(input, build, search)
}

/// The program over a given build and search.
pub fn lookup_by(input: &[u8], build: Build, search: Search) -> Vec<u8> {
    if input.len() > INPUT {
        return refused_line(Refusal::Room.number(), 0);
    }
    let (register, queries) = parts(input);
    let mut words = vec![0; INDEX_WORDS];
    let built = build(register, &mut words);
    if built.number != 0 {
        return refused_line(built.number, 0);
    }
    lines(queries).into_iter().flat_map(|line| answer_line(&words, line, search)).collect()
}

/// The register and the queries: the first line that begins with 51 and all after it are queries.
pub fn parts(input: &[u8]) -> (&[u8], &[u8]) {
    let register = lines(input).into_iter().take_while(|line| !line.starts_with(b"51"));
    input.split_at(register.map(<[u8]>::len).sum())
}

/// The lines that answer one line among the queries.
pub fn answer_line(words: &[u32], line: &[u8], search: Search) -> Vec<u8> {
    let mut buffer = [0; FRAME_NAME];
    let frame = read_query(line, &mut buffer);
    if frame.number != 0 {
        return refused_line(Refusal::Malformed.number(), 0);
    }
    let query = Query {
        measure: u32::from(frame.measure),
        p: u32::from(frame.p),
        q: u32::from(frame.q),
        allowance: frame.allowance,
        name: buffer[..usize::from(frame.length)].to_vec(),
    };
    let mut rows = [AnswerRow { id: 0, shared: 0, size: 0, least: 0 }; ROWS];
    let answer = search(words, &query, &mut rows);
    if answer.number != 0 {
        return refused_line(answer.number, answer.touches);
    }
    let mut output = Vec::new();
    for row in &rows[..answer.rows] {
        let (shared, size, least) = (row.shared as u8, row.size as u8, row.least as u8);
        output.extend(written(|line| write_row(row.id as u16, shared, size, least, line)));
    }
    let (p, q) = (answer.p as u16, answer.q as u16);
    output.extend(written(|line| write_end(answer.rows as u16, answer.touches, p, q, line)));
    output
}

fn refused_line(number: u8, touches: u32) -> Vec<u8> {
    written(|line| write_refused(number, touches, line))
}

/// The line that a writer writes into a buffer with room for it.
pub fn written(write: impl FnOnce(&mut [u8]) -> Written) -> Vec<u8> {
    let mut buffer = [0; 2 * (FRAME_NAME + 11) + 1];
    let length = write(&mut buffer).length;
    buffer[..length].to_vec()
}
