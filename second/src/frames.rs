//! The ten frames: lines of hexadecimal to fields, and back.

use crate::limits::FRAME_NAME;
use crate::refusal::Refusal;

pub const NAME: u8 = 0x4E;
pub const QUERY: u8 = 0x51;
pub const ROW: u8 = 0x52;
pub const END: u8 = 0x45;
pub const REFUSED: u8 = 0x58;
pub const LOG: u8 = 0x4C;
pub const OUTCOME: u8 = 0x4F;
pub const PAIR: u8 = 0x50;
pub const IMPORT_END: u8 = 0x5A;
pub const IMPORT_REFUSED: u8 = 0x59;

/// The kinds of frame of a lookup.
pub const KINDS: [u8; 5] = [NAME, QUERY, ROW, END, REFUSED];

/// The kinds of frame that an importer writes.
pub const IMPORT_KINDS: [u8; 4] = [OUTCOME, PAIR, IMPORT_END, IMPORT_REFUSED];

/// 4E as read; the name's bytes are in the lent buffer. After a refusal every field is 0.
#[derive(Clone, Copy, Debug, Default, PartialEq, Eq)]
pub struct NameFrame {
    pub number: u8,
    pub id: u16,
    pub length: u8,
}

/// 51 as read; the query's bytes are in the lent buffer. After a refusal every field is 0.
#[derive(Clone, Copy, Debug, Default, PartialEq, Eq)]
pub struct QueryFrame {
    pub number: u8,
    pub measure: u8,
    pub p: u16,
    pub q: u16,
    pub allowance: u32,
    pub length: u8,
}

/// 52 as read. After a refusal every field is 0.
#[derive(Clone, Copy, Debug, Default, PartialEq, Eq)]
pub struct RowFrame {
    pub number: u8,
    pub id: u16,
    pub shared: u8,
    pub size: u8,
    pub least: u8,
}

/// 45 as read. After a refusal every field is 0.
#[derive(Clone, Copy, Debug, Default, PartialEq, Eq)]
pub struct EndFrame {
    pub number: u8,
    pub rows: u16,
    pub touches: u32,
    pub p: u16,
    pub q: u16,
}

/// 58 as read: `number` is that of the reading, `refusal` the one the frame carries. After a refusal every field is 0.
#[derive(Clone, Copy, Debug, Default, PartialEq, Eq)]
pub struct RefusedFrame {
    pub number: u8,
    pub refusal: u8,
    pub touches: u32,
}

/// 4C as read; the typed name's bytes are in the lent buffer. After a refusal every field is 0.
#[derive(Clone, Copy, Debug, Default, PartialEq, Eq)]
pub struct LogFrame {
    pub number: u8,
    pub day: u16,
    pub reading: u16,
    pub length: u8,
}

/// 4F as read. After a refusal every field is 0.
#[derive(Clone, Copy, Debug, Default, PartialEq, Eq)]
pub struct OutcomeFrame {
    pub number: u8,
    pub case: u8,
    pub value: u16,
}

/// 50 as read. After a refusal every field is 0.
#[derive(Clone, Copy, Debug, Default, PartialEq, Eq)]
pub struct PairFrame {
    pub number: u8,
    pub id: u16,
    pub week: u16,
    pub sum: u32,
    pub count: u16,
}

/// 5A as read. After a refusal every field is 0.
#[derive(Clone, Copy, Debug, Default, PartialEq, Eq)]
pub struct ImportEndFrame {
    pub number: u8,
    pub outcomes: u16,
    pub pairs: u16,
}

/// 59 as read: `number` is that of the reading, `refusal` the one the frame carries. After a refusal every field is 0.
#[derive(Clone, Copy, Debug, Default, PartialEq, Eq)]
pub struct ImportRefusedFrame {
    pub number: u8,
    pub part: u8,
    pub refusal: u8,
    pub line: u16,
}

/// What a writer reports: its number, and how many bytes it wrote, 0 with a refusal.
#[derive(Clone, Copy, Debug, PartialEq, Eq)]
pub struct Written {
    pub number: u8,
    pub length: usize,
}

const DIGITS: &[u8; 16] = b"0123456789ABCDEF";

fn digit(character: u8) -> Option<u8> {
    DIGITS.iter().position(|digit| *digit == character).map(|value| value as u8)
}

/// The bytes that a line stands for: pairs of digits, then one line feed; none where it is anything else.
pub fn bytes_of(line: &[u8]) -> Option<Vec<u8>> {
    let (last, digits) = line.split_last()?;
    if *last != b'\n' || digits.len() % 2 != 0 {
        return None;
    }
    digits.chunks(2).map(|pair| Some(digit(pair[0])? * 16 + digit(pair[1])?)).collect()
}

/// The line that stands for some bytes.
pub fn line_of(bytes: &[u8]) -> Vec<u8> {
    let pair = |byte: &u8| [DIGITS[usize::from(byte / 16)], DIGITS[usize::from(byte % 16)]];
    let mut line: Vec<u8> = bytes.iter().flat_map(pair).collect();
    line.push(b'\n');
    line
}

fn two(bytes: &[u8]) -> u16 {
    u16::from(bytes[0]) * 256 + u16::from(bytes[1])
}

fn four(bytes: &[u8]) -> u32 {
    u32::from(two(&bytes[..2])) * 65_536 + u32::from(two(&bytes[2..]))
}

/// The fields of a kind that ends in a length byte and a name: the bytes between the kind and the length, and the name.
fn named(line: &[u8], kind: u8, fields: usize) -> Option<(Vec<u8>, Vec<u8>)> {
    let bytes = bytes_of(line)?;
    if bytes.len() < fields + 2 || bytes[0] != kind {
        return None;
    }
    let (name, length) = (&bytes[fields + 2..], bytes[fields + 1]);
    if name.len() != usize::from(length) {
        return None;
    }
    Some((bytes[1..fields + 1].to_vec(), name.to_vec()))
}

/// The fields of a kind with a fixed number of bytes after it.
fn fixed(line: &[u8], kind: u8, fields: usize) -> Option<Vec<u8>> {
    let bytes = bytes_of(line)?;
    if bytes.len() == fields + 1 && bytes[0] == kind {
        Some(bytes[1..].to_vec())
    } else {
        None
    }
}

const MALFORMED: u8 = Refusal::Malformed as u8;
const ROOM: u8 = Refusal::Room as u8;

/// Reads a 4E line: 11, then 8 where the name does not fit the buffer. Other bytes of the buffer keep their contents.
pub fn read_name(line: &[u8], buffer: &mut [u8]) -> NameFrame {
    let Some((fields, name)) = named(line, NAME, 2) else {
        return NameFrame { number: MALFORMED, ..NameFrame::default() };
    };
    if name.len() > buffer.len() {
        return NameFrame { number: ROOM, ..NameFrame::default() };
    }
    buffer[..name.len()].copy_from_slice(&name);
    NameFrame { number: 0, id: two(&fields), length: name.len() as u8 }
}

/// Reads a 51 line: 11, then 8 where the query does not fit the buffer. Other bytes of the buffer keep their contents.
pub fn read_query(line: &[u8], buffer: &mut [u8]) -> QueryFrame {
    let Some((fields, name)) = named(line, QUERY, 9) else {
        return QueryFrame { number: MALFORMED, ..QueryFrame::default() };
    };
    if name.len() > buffer.len() {
        return QueryFrame { number: ROOM, ..QueryFrame::default() };
    }
    buffer[..name.len()].copy_from_slice(&name);
    QueryFrame {
        number: 0,
        measure: fields[0],
        p: two(&fields[1..3]),
        q: two(&fields[3..5]),
        allowance: four(&fields[5..9]),
        length: name.len() as u8,
    }
}

/// Reads a 52 line.
pub fn read_row(line: &[u8]) -> RowFrame {
    match fixed(line, ROW, 5) {
        Some(fields) => {
            RowFrame { number: 0, id: two(&fields[..2]), shared: fields[2], size: fields[3], least: fields[4] }
        }
        None => RowFrame { number: MALFORMED, ..RowFrame::default() },
    }
}

/// Reads a 45 line.
pub fn read_end(line: &[u8]) -> EndFrame {
    match fixed(line, END, 10) {
        Some(fields) => EndFrame {
            number: 0,
            rows: two(&fields[..2]),
            touches: four(&fields[2..6]),
            p: two(&fields[6..8]),
            q: two(&fields[8..]),
        },
        None => EndFrame { number: MALFORMED, ..EndFrame::default() },
    }
}

/// Reads a 58 line.
pub fn read_refused(line: &[u8]) -> RefusedFrame {
    match fixed(line, REFUSED, 5) {
        Some(fields) => RefusedFrame { number: 0, refusal: fields[0], touches: four(&fields[1..]) },
        None => RefusedFrame { number: MALFORMED, ..RefusedFrame::default() },
    }
}

/// Reads a 4C line: 11, then 8 where the name does not fit the buffer. Other bytes of the buffer keep their contents.
pub fn read_log(line: &[u8], buffer: &mut [u8]) -> LogFrame {
    let Some((fields, name)) = named(line, LOG, 4) else {
        return LogFrame { number: MALFORMED, ..LogFrame::default() };
    };
    if name.len() > buffer.len() {
        return LogFrame { number: ROOM, ..LogFrame::default() };
    }
    buffer[..name.len()].copy_from_slice(&name);
    LogFrame { number: 0, day: two(&fields[..2]), reading: two(&fields[2..]), length: name.len() as u8 }
}

/// Reads a 4F line.
pub fn read_outcome(line: &[u8]) -> OutcomeFrame {
    match fixed(line, OUTCOME, 3) {
        Some(fields) => OutcomeFrame { number: 0, case: fields[0], value: two(&fields[1..]) },
        None => OutcomeFrame { number: MALFORMED, ..OutcomeFrame::default() },
    }
}

/// Reads a 50 line.
pub fn read_pair(line: &[u8]) -> PairFrame {
    match fixed(line, PAIR, 10) {
        Some(fields) => PairFrame {
            number: 0,
            id: two(&fields[..2]),
            week: two(&fields[2..4]),
            sum: four(&fields[4..8]),
            count: two(&fields[8..]),
        },
        None => PairFrame { number: MALFORMED, ..PairFrame::default() },
    }
}

/// Reads a 5A line.
pub fn read_import_end(line: &[u8]) -> ImportEndFrame {
    match fixed(line, IMPORT_END, 4) {
        Some(fields) => ImportEndFrame { number: 0, outcomes: two(&fields[..2]), pairs: two(&fields[2..]) },
        None => ImportEndFrame { number: MALFORMED, ..ImportEndFrame::default() },
    }
}

/// Reads a 59 line.
pub fn read_import_refused(line: &[u8]) -> ImportRefusedFrame {
    match fixed(line, IMPORT_REFUSED, 4) {
        Some(fields) => ImportRefusedFrame { number: 0, part: fields[0], refusal: fields[1], line: two(&fields[2..]) },
        None => ImportRefusedFrame { number: MALFORMED, ..ImportRefusedFrame::default() },
    }
}

/// Puts the line of some bytes into the buffer, or refuses with 8; other bytes of the buffer keep their contents.
fn put(bytes: &[u8], buffer: &mut [u8]) -> Written {
    let line = line_of(bytes);
    if line.len() > buffer.len() {
        return Written { number: ROOM, length: 0 };
    }
    buffer[..line.len()].copy_from_slice(&line);
    Written { number: 0, length: line.len() }
}

/// Puts a kind, its fields, a length byte and a name: 2 where the name is past 255 bytes, then 8.
fn put_named(kind: u8, fields: &[u8], name: &[u8], buffer: &mut [u8]) -> Written {
    if name.len() > FRAME_NAME {
        return Written { number: Refusal::Long.number(), length: 0 };
    }
    put(&[&[kind], fields, &[name.len() as u8], name].concat(), buffer)
}

/// Writes a 4E line.
pub fn write_name(id: u16, name: &[u8], buffer: &mut [u8]) -> Written {
    put_named(NAME, &id.to_be_bytes(), name, buffer)
}

/// Writes a 51 line.
pub fn write_query(measure: u8, p: u16, q: u16, allowance: u32, name: &[u8], buffer: &mut [u8]) -> Written {
    let fields = [&[measure][..], &p.to_be_bytes(), &q.to_be_bytes(), &allowance.to_be_bytes()].concat();
    put_named(QUERY, &fields, name, buffer)
}

/// Writes a 52 line.
pub fn write_row(id: u16, shared: u8, size: u8, least: u8, buffer: &mut [u8]) -> Written {
    put(&[&[ROW][..], &id.to_be_bytes(), &[shared, size, least]].concat(), buffer)
}

/// Writes a 45 line, the threshold as given.
pub fn write_end(rows: u16, touches: u32, p: u16, q: u16, buffer: &mut [u8]) -> Written {
    let fields = [&rows.to_be_bytes()[..], &touches.to_be_bytes(), &p.to_be_bytes(), &q.to_be_bytes()].concat();
    put(&[&[END][..], &fields].concat(), buffer)
}

/// Writes a 58 line.
pub fn write_refused(refusal: u8, touches: u32, buffer: &mut [u8]) -> Written {
    put(&[&[REFUSED, refusal][..], &touches.to_be_bytes()].concat(), buffer)
}

/// Writes a 4C line.
pub fn write_log(day: u16, reading: u16, name: &[u8], buffer: &mut [u8]) -> Written {
    put_named(LOG, &[day.to_be_bytes(), reading.to_be_bytes()].concat(), name, buffer)
}

/// Writes a 4F line.
pub fn write_outcome(case: u8, value: u16, buffer: &mut [u8]) -> Written {
    put(&[&[OUTCOME, case][..], &value.to_be_bytes()].concat(), buffer)
}

/// Writes a 50 line.
pub fn write_pair(id: u16, week: u16, sum: u32, count: u16, buffer: &mut [u8]) -> Written {
    let fields = [&id.to_be_bytes()[..], &week.to_be_bytes(), &sum.to_be_bytes(), &count.to_be_bytes()].concat();
    put(&[&[PAIR][..], &fields].concat(), buffer)
}

/// Writes a 5A line.
pub fn write_import_end(outcomes: u16, pairs: u16, buffer: &mut [u8]) -> Written {
    put(&[&[IMPORT_END][..], &outcomes.to_be_bytes(), &pairs.to_be_bytes()].concat(), buffer)
}

/// Writes a 59 line.
pub fn write_import_refused(part: u8, refusal: u8, line: u16, buffer: &mut [u8]) -> Written {
    put(&[&[IMPORT_REFUSED, part, refusal][..], &line.to_be_bytes()].concat(), buffer)
}
