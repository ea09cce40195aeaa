//! Lines for the vectors, put together without the frames under test.

#![allow(dead_code)]

use second::build::build;
use second::search::{AnswerRow, Query};

/// What a lent row holds before a search.
pub const LENT: AnswerRow = AnswerRow { id: 7, shared: 7, size: 7, least: 7 };

pub fn hex(bytes: &[u8]) -> String {
    bytes.iter().map(|byte| format!("{byte:02X}")).collect()
}

/// A 4E line.
pub fn name_line(id: u16, name: &[u8]) -> Vec<u8> {
    format!("4E{id:04X}{:02X}{}\n", name.len(), hex(name)).into_bytes()
}

/// A 51 line.
pub fn query_line(measure: u8, p: u16, q: u16, allowance: u32, name: &[u8]) -> Vec<u8> {
    format!("51{measure:02X}{p:04X}{q:04X}{allowance:08X}{:02X}{}\n", name.len(), hex(name)).into_bytes()
}

/// A 4C line.
pub fn log_line(day: u16, reading: u16, name: &[u8]) -> Vec<u8> {
    format!("4C{day:04X}{reading:04X}{:02X}{}\n", name.len(), hex(name)).into_bytes()
}

/// The register lines of names under ids 10, 11, ..
pub fn register(names: &[&str]) -> Vec<u8> {
    (10..).zip(names).flat_map(|(id, name)| name_line(id, name.as_bytes())).collect()
}

/// The index words of names under ids 10, 11, ..
pub fn index(names: &[&str]) -> Vec<u32> {
    let mut words = vec![0; 60_000];
    let built = build(&register(names), &mut words);
    assert_eq!((built.number, built.line), (0, 0));
    words
}

pub fn query(measure: u32, p: u32, q: u32, allowance: u32, name: &[u8]) -> Query {
    Query { measure, p, q, allowance, name: name.to_vec() }
}

pub fn row(id: u32, shared: u32, size: u32, least: u32) -> AnswerRow {
    AnswerRow { id, shared, size, least }
}

/// The register of the listing.
pub const LISTING: [&str; 3] = ["LANE", "LANES", "PLANE"];
