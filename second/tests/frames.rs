//! The ten frames: whole lines, every kind of damage, the lent buffers.

mod common;

use common::hex;
use second::frames::{
    read_end, read_import_end, read_import_refused, read_log, read_name, read_outcome, read_pair, read_query,
    read_refused, read_row, write_end, write_import_end, write_import_refused, write_log, write_name, write_outcome,
    write_pair, write_query, write_refused, write_row, EndFrame, ImportEndFrame, ImportRefusedFrame, LogFrame,
    NameFrame, OutcomeFrame, PairFrame, QueryFrame, RefusedFrame, RowFrame, Written,
};
use second::lookup::written;

/// What a lent byte holds before a call.
const LENT: u8 = 0xEE;

/// Whole 4E lines: the line, the id, the name.
fn names() -> Vec<(String, u16, Vec<u8>)> {
    vec![
        ("4E000A044C414E45\n".to_string(), 10, b"LANE".to_vec()),
        ("4E000000\n".to_string(), 0, vec![]),
        ("4EFFFF0100\n".to_string(), 65_535, vec![0]),
        ("4E010002FF0A\n".to_string(), 256, vec![255, 10]),
        (format!("4E1234FF{}\n", "41".repeat(255)), 0x1234, vec![b'A'; 255]),
        (format!("4E123441{}\n", "41".repeat(65)), 0x1234, vec![b'A'; 65]),
    ]
}

/// Whole 51 lines: the line, its fields without the length, the query.
#[allow(clippy::type_complexity)]
fn queries() -> Vec<(String, (u8, u16, u16, u32), Vec<u8>)> {
    vec![
        ("51010008000D0000000F044C414E45\n".to_string(), (1, 8, 13, 15), b"LANE".to_vec()),
        ("5100000000000000000000\n".to_string(), (0, 0, 0, 0), vec![]),
        ("51FFFFFFFFFFFFFFFFFF0100\n".to_string(), (255, 65_535, 65_535, 4_294_967_295), vec![0]),
        (
            format!("510101020304050607 08FF{}\n", "42".repeat(255)).replace(' ', ""),
            (1, 0x0102, 0x0304, 0x0506_0708),
            vec![b'B'; 255],
        ),
    ]
}

#[test]
fn whole_lines_are_read_and_written() {
    for (line, id, name) in names() {
        let mut buffer = [LENT; 256];
        let read = read_name(line.as_bytes(), &mut buffer);
        assert_eq!(read, NameFrame { number: 0, id, length: name.len() as u8 });
        assert_eq!(&buffer[..name.len()], name);
        assert!(buffer[name.len()..].iter().all(|byte| *byte == LENT));
        assert_eq!(written(|buffer| write_name(id, &name, buffer)), line.as_bytes());
    }
    for (line, (measure, p, q, allowance), name) in queries() {
        let mut buffer = [LENT; 256];
        let read = read_query(line.as_bytes(), &mut buffer);
        assert_eq!(read, QueryFrame { number: 0, measure, p, q, allowance, length: name.len() as u8 });
        assert_eq!(&buffer[..name.len()], name);
        assert!(buffer[name.len()..].iter().all(|byte| *byte == LENT));
        assert_eq!(written(|buffer| write_query(measure, p, q, allowance, &name, buffer)), line.as_bytes());
    }
    let row = |id, shared, size, least| RowFrame { number: 0, id, shared, size, least };
    for (line, frame) in [
        ("52000A060604\n", row(10, 6, 6, 4)),
        ("52000B040704\n", row(11, 4, 7, 4)),
        ("520000000000\n", row(0, 0, 0, 0)),
        ("52FFFFFFFFFF\n", row(65_535, 255, 255, 255)),
        ("520102030405\n", row(0x0102, 3, 4, 5)),
    ] {
        assert_eq!(read_row(line.as_bytes()), frame);
        let again = written(|buffer| write_row(frame.id, frame.shared, frame.size, frame.least, buffer));
        assert_eq!(again, line.as_bytes());
    }
    let end = |rows, touches, p, q| EndFrame { number: 0, rows, touches, p, q };
    for (line, frame) in [
        ("4500030000000F0008000D\n", end(3, 15, 8, 13)),
        // Not in lowest terms, and no threshold at all: a reader takes what fits, a writer writes what is given.
        ("4500000000000000460064\n", end(0, 0, 70, 100)),
        ("4500000000000000000000\n", end(0, 0, 0, 0)),
        ("45FFFFFFFFFFFFFFFFFFFF\n", end(65_535, 4_294_967_295, 65_535, 65_535)),
    ] {
        assert_eq!(read_end(line.as_bytes()), frame);
        let again = written(|buffer| write_end(frame.rows, frame.touches, frame.p, frame.q, buffer));
        assert_eq!(again, line.as_bytes());
    }
    let refused = |refusal, touches| RefusedFrame { number: 0, refusal, touches };
    for (line, frame) in [
        ("58070000000E\n", refused(7, 14)),
        ("580000000000\n", refused(0, 0)),
        ("58FFFFFFFFFF\n", refused(255, 4_294_967_295)),
    ] {
        assert_eq!(read_refused(line.as_bytes()), frame);
        assert_eq!(written(|buffer| write_refused(frame.refusal, frame.touches, buffer)), line.as_bytes());
    }
}

/// Whole 4C lines: the line, the day, the reading, the typed name.
fn logs() -> Vec<(String, u16, u16, Vec<u8>)> {
    vec![
        ("4C0007002D044C414E45\n".to_string(), 7, 45, b"LANE".to_vec()),
        ("4C0000000000\n".to_string(), 0, 0, vec![]),
        ("4CFFFFFFFF0100\n".to_string(), 65_535, 65_535, vec![0]),
        ("4C0102030402FF0A\n".to_string(), 0x0102, 0x0304, vec![255, 10]),
        (format!("4C0006FFFEFF{}\n", "41".repeat(255)), 6, 65_534, vec![b'A'; 255]),
    ]
}

#[test]
fn whole_lines_of_an_import_are_read_and_written() {
    for (line, day, reading, name) in logs() {
        let mut buffer = [LENT; 256];
        let read = read_log(line.as_bytes(), &mut buffer);
        assert_eq!(read, LogFrame { number: 0, day, reading, length: name.len() as u8 });
        assert_eq!(&buffer[..name.len()], name);
        assert!(buffer[name.len()..].iter().all(|byte| *byte == LENT));
        assert_eq!(written(|buffer| write_log(day, reading, &name, buffer)), line.as_bytes());
    }
    // A reader takes what fits, case and part among them.
    for (line, case, value) in
        [("4F01000A\n", 1, 10), ("4F020000\n", 2, 0), ("4FFFFFFF\n", 255, 65_535), ("4F000102\n", 0, 0x0102)]
    {
        assert_eq!(read_outcome(line.as_bytes()), OutcomeFrame { number: 0, case, value });
        assert_eq!(written(|buffer| write_outcome(case, value, buffer)), line.as_bytes());
    }
    let pair = |id, week, sum, count| PairFrame { number: 0, id, week, sum, count };
    for (line, frame) in [
        ("50000A0001000000870003\n", pair(10, 1, 135, 3)),
        ("5000000000000000000000\n", pair(0, 0, 0, 0)),
        ("50FFFFFFFFFFFFFFFFFFFF\n", pair(65_535, 65_535, 4_294_967_295, 65_535)),
        ("500102030405060708090A\n", pair(0x0102, 0x0304, 0x0506_0708, 0x090A)),
    ] {
        assert_eq!(read_pair(line.as_bytes()), frame);
        let again = written(|buffer| write_pair(frame.id, frame.week, frame.sum, frame.count, buffer));
        assert_eq!(again, line.as_bytes());
    }
    for (line, outcomes, pairs) in [
        ("5A00060002\n", 6, 2),
        ("5A00000000\n", 0, 0),
        ("5AFFFFFFFF\n", 65_535, 65_535),
        ("5A01020304\n", 0x0102, 0x0304),
    ] {
        assert_eq!(read_import_end(line.as_bytes()), ImportEndFrame { number: 0, outcomes, pairs });
        assert_eq!(written(|buffer| write_import_end(outcomes, pairs, buffer)), line.as_bytes());
    }
    for (line, part, refusal, at) in [
        ("59030B0002\n", 3, 11, 2),
        ("5900080000\n", 0, 8, 0),
        ("59FFFFFFFF\n", 255, 255, 65_535),
        ("5901020304\n", 1, 2, 0x0304),
    ] {
        assert_eq!(read_import_refused(line.as_bytes()), ImportRefusedFrame { number: 0, part, refusal, line: at });
        assert_eq!(written(|buffer| write_import_refused(part, refusal, at, buffer)), line.as_bytes());
    }
}

/// What is wrong with a line, and the line. No reader takes it.
const MALFORMED: [(&str, &[u8]); 60] = [
    ("nothing", b""),
    ("nothing but a line feed", b"\n"),
    ("4E, no line feed", b"4E000A044C414E45"),
    ("4E, two line feeds", b"4E000A044C414E45\n\n"),
    ("4E, a carriage return", b"4E000A044C414E45\r\n"),
    ("4E, a carriage return for the line feed", b"4E000A044C414E45\r"),
    ("4E, the line feed first", b"\n4E000A044C414E45"),
    ("4E, a lower-case digit of the kind", b"4e000A044C414E45\n"),
    ("4E, a lower-case digit of the id", b"4E000a044C414E45\n"),
    ("4E, a lower-case digit of the name", b"4E000A044c414E45\n"),
    ("4E, a space before it", b" 4E000A044C414E45\n"),
    ("4E, a space inside", b"4E 000A044C414E45\n"),
    ("4E, a space after it", b"4E000A044C414E45 \n"),
    ("4E, length too small", b"4E000A034C414E45\n"),
    ("4E, length too great", b"4E000A054C414E45\n"),
    ("4E, length 0 with a name", b"4E000A0041\n"),
    ("4E, length 255 with less", b"4E000AFF41\n"),
    ("4E, a byte too many", b"4E000A044C414E4500\n"),
    ("4E, a byte too few", b"4E000A044C414E\n"),
    ("4E, half a byte too many", b"4E000A044C414E450\n"),
    ("4E, half a byte too few", b"4E000A044C414E4\n"),
    ("4E, no name and no length", b"4E000A\n"),
    ("4E alone", b"4E\n"),
    ("a digit beyond F", b"4E000A044C414E4G\n"),
    ("a byte before 0", b"4E000A044C414E4/\n"),
    ("a byte after 9", b"4E000A044C414E4:\n"),
    ("a 0 byte", b"4E000A044C414E4\0\n"),
    ("unknown kind 4D", b"4D000A044C414E45\n"),
    ("unknown kind 00", b"00\n"),
    ("51, length too great", b"51010008000D0000000F054C414E45\n"),
    ("51, a byte too few before the length", b"51010008000D00000F044C414E45\n"),
    ("51 alone", b"51\n"),
    ("52, a byte too many", b"52000A06060400\n"),
    ("52, no least count", b"52000A0606\n"),
    ("52, half a least count", b"52000A06060\n"),
    ("52, spaces for the least count", b"52000A0606  \n"),
    ("52, no least count and no size", b"52000A06\n"),
    ("45, a byte too many", b"4500030000000F0008000D00\n"),
    ("45, a byte too few", b"4500030000000F000800\n"),
    ("58, a byte too many", b"58070000000E00\n"),
    ("58, a byte too few", b"5807000000\n"),
    ("4C, no line feed", b"4C0007002D044C414E45"),
    ("4C, two line feeds", b"4C0007002D044C414E45\n\n"),
    ("4C, a carriage return", b"4C0007002D044C414E45\r\n"),
    ("4C, a lower-case digit of the kind", b"4c0007002D044C414E45\n"),
    ("4C, a lower-case digit of the reading", b"4C0007002d044C414E45\n"),
    ("4C, length too small", b"4C0007002D034C414E45\n"),
    ("4C, length too great", b"4C0007002D054C414E45\n"),
    ("4C, a byte too many", b"4C0007002D044C414E4500\n"),
    ("4C, a byte too few before the length", b"4C00072D044C414E45\n"),
    ("4C, no name and no length", b"4C0007002D\n"),
    ("4C alone", b"4C\n"),
    ("4F, a byte too many", b"4F01000A00\n"),
    ("4F, a byte too few", b"4F0100\n"),
    ("50, a byte too many", b"50000A000100000087000300\n"),
    ("50, a byte too few", b"50000A00010000008700\n"),
    ("5A, a byte too many", b"5A0006000200\n"),
    ("5A, a byte too few", b"5A000600\n"),
    ("59, a byte too many", b"59030B000200\n"),
    ("59, a byte too few", b"59030B00\n"),
];

const MALFORMED_NAME: NameFrame = NameFrame { number: 11, id: 0, length: 0 };
const MALFORMED_QUERY: QueryFrame = QueryFrame { number: 11, measure: 0, p: 0, q: 0, allowance: 0, length: 0 };
const MALFORMED_ROW: RowFrame = RowFrame { number: 11, id: 0, shared: 0, size: 0, least: 0 };
const MALFORMED_END: EndFrame = EndFrame { number: 11, rows: 0, touches: 0, p: 0, q: 0 };
const MALFORMED_LOG: LogFrame = LogFrame { number: 11, day: 0, reading: 0, length: 0 };
const MALFORMED_REFUSED: RefusedFrame = RefusedFrame { number: 11, refusal: 0, touches: 0 };

#[test]
fn malformed_lines_are_taken_by_no_reader() {
    for (what, line) in MALFORMED {
        let mut buffer = [LENT; 255];
        assert_eq!(read_name(line, &mut buffer), MALFORMED_NAME, "{what}");
        assert_eq!(read_query(line, &mut buffer), MALFORMED_QUERY, "{what}");
        assert_eq!(read_row(line), MALFORMED_ROW, "{what}");
        assert_eq!(read_end(line), MALFORMED_END, "{what}");
        assert_eq!(read_refused(line), MALFORMED_REFUSED, "{what}");
        assert_eq!(read_log(line, &mut buffer), MALFORMED_LOG, "{what}");
        assert_eq!(read_outcome(line), OutcomeFrame { number: 11, case: 0, value: 0 }, "{what}");
        assert_eq!(read_pair(line), PairFrame { number: 11, id: 0, week: 0, sum: 0, count: 0 }, "{what}");
        assert_eq!(read_import_end(line), ImportEndFrame { number: 11, outcomes: 0, pairs: 0 }, "{what}");
        let refused = ImportRefusedFrame { number: 11, part: 0, refusal: 0, line: 0 };
        assert_eq!(read_import_refused(line), refused, "{what}");
        assert_eq!(buffer, [LENT; 255], "{what}");
    }
}

/// The rows of the listing, and the same without their last byte, which is the least count.
#[test]
fn a_row_needs_its_least_count() {
    for (line, id, shared, size, least) in
        [("52000A060604\n", 10, 6, 6, 4), ("52000B040704\n", 11, 4, 7, 4), ("52000C040704\n", 12, 4, 7, 4)]
    {
        assert_eq!(line.len(), 13);
        assert_eq!(read_row(line.as_bytes()), RowFrame { number: 0, id, shared, size, least });
        let without = [&line[..10], "\n"].concat();
        assert_eq!(read_row(without.as_bytes()), MALFORMED_ROW);
        assert_eq!(taken_by(without.as_bytes()), [11; 10]);
    }
}

/// Each reader's number for a line.
fn taken_by(line: &[u8]) -> [u8; 10] {
    let mut buffer = [LENT; 255];
    [
        read_name(line, &mut buffer).number,
        read_query(line, &mut buffer).number,
        read_row(line).number,
        read_end(line).number,
        read_refused(line).number,
        read_log(line, &mut buffer).number,
        read_outcome(line).number,
        read_pair(line).number,
        read_import_end(line).number,
        read_import_refused(line).number,
    ]
}

#[test]
fn a_reader_takes_its_own_kind_alone() {
    let lines = [
        "4E000A044C414E45\n",
        "51010008000D0000000F044C414E45\n",
        "52000A060604\n",
        "4500030000000F0008000D\n",
        "58070000000E\n",
        "4C0007002D044C414E45\n",
        "4F01000A\n",
        "50000A0001000000870003\n",
        "5A00060002\n",
        "59030B0002\n",
    ];
    for (at, line) in lines.iter().enumerate() {
        let mut expected = [11; 10];
        expected[at] = 0;
        assert_eq!(taken_by(line.as_bytes()), expected);
    }
}

/// What a line is read as and written again, if any reader takes it.
fn read_and_written(line: &[u8]) -> Option<Vec<u8>> {
    let mut buffer = [LENT; 255];
    let name = read_name(line, &mut buffer);
    if name.number == 0 {
        return Some(written(|line| write_name(name.id, &buffer[..usize::from(name.length)], line)));
    }
    let query = read_query(line, &mut buffer);
    if query.number == 0 {
        let name = &buffer[..usize::from(query.length)];
        return Some(written(|line| write_query(query.measure, query.p, query.q, query.allowance, name, line)));
    }
    let (row, end, refused) = (read_row(line), read_end(line), read_refused(line));
    match (row.number, end.number, refused.number) {
        (0, ..) => Some(written(|line| write_row(row.id, row.shared, row.size, row.least, line))),
        (_, 0, _) => Some(written(|line| write_end(end.rows, end.touches, end.p, end.q, line))),
        (.., 0) => Some(written(|line| write_refused(refused.refusal, refused.touches, line))),
        _ => import_read_and_written(line),
    }
}

/// The same for the frames of an import.
fn import_read_and_written(line: &[u8]) -> Option<Vec<u8>> {
    let mut buffer = [LENT; 255];
    let log = read_log(line, &mut buffer);
    if log.number == 0 {
        return Some(written(|line| write_log(log.day, log.reading, &buffer[..usize::from(log.length)], line)));
    }
    let (outcome, pair) = (read_outcome(line), read_pair(line));
    let (end, refused) = (read_import_end(line), read_import_refused(line));
    match (outcome.number, pair.number, end.number, refused.number) {
        (0, ..) => Some(written(|line| write_outcome(outcome.case, outcome.value, line))),
        (_, 0, ..) => Some(written(|line| write_pair(pair.id, pair.week, pair.sum, pair.count, line))),
        (_, _, 0, _) => Some(written(|line| write_import_end(end.outcomes, end.pairs, line))),
        (.., 0) => Some(written(|line| write_import_refused(refused.part, refused.refusal, refused.line, line))),
        _ => None,
    }
}

/// Every byte of a line changed to every other, taken out, and put in: what is still read is written as it stood.
#[test]
fn one_byte_changed_anywhere() {
    let lines: [&[u8]; 10] = [
        b"4E000A024C41\n",
        b"51010008000D0000000F0141\n",
        b"52000A060604\n",
        b"4500030000000F0008000D\n",
        b"58070000000E\n",
        b"4C0007002D0141\n",
        b"4F01000A\n",
        b"50000A0001000000870003\n",
        b"5A00060002\n",
        b"59030B0002\n",
    ];
    for line in lines {
        assert_eq!(read_and_written(line).as_deref(), Some(line));
        for at in 0..=line.len() {
            for byte in 0..=255 {
                let more = [&line[..at], &[byte], &line[at..]].concat();
                assert_eq!(read_and_written(&more), None, "{}", more.escape_ascii());
                if at < line.len() {
                    let mut other = line.to_vec();
                    other[at] = byte;
                    let digits = &other[..other.len() - 1];
                    let whole =
                        other.ends_with(b"\n") && digits.iter().all(|digit| b"0123456789ABCDEF".contains(digit));
                    let again = read_and_written(&other);
                    assert!(again.is_none() || again.as_ref() == Some(&other), "{}", other.escape_ascii());
                    assert!(whole || again.is_none(), "{}", other.escape_ascii());
                }
            }
            if at < line.len() {
                let less = [&line[..at], &line[at + 1..]].concat();
                assert_eq!(read_and_written(&less), None, "{}", less.escape_ascii());
            }
        }
    }
}

/// A reader's buffer: 8 where the name does not fit, after 11; and then nothing of it is changed.
#[test]
fn a_name_needs_room() {
    let query = |line: &str, room: usize| {
        let mut buffer = vec![LENT; room];
        let frame = read_query(line.as_bytes(), &mut buffer);
        (frame, buffer)
    };
    let name = |line: &str, room: usize| {
        let mut buffer = vec![LENT; room];
        let frame = read_name(line.as_bytes(), &mut buffer);
        (frame, buffer)
    };
    let lane = "4E000A044C414E45\n";
    assert_eq!(name(lane, 4), (NameFrame { number: 0, id: 10, length: 4 }, b"LANE".to_vec()));
    assert_eq!(name(lane, 5), (NameFrame { number: 0, id: 10, length: 4 }, b"LANE\xEE".to_vec()));
    assert_eq!(name(lane, 3), (NameFrame { number: 8, id: 0, length: 0 }, vec![LENT; 3]));
    assert_eq!(name(lane, 0), (NameFrame { number: 8, id: 0, length: 0 }, vec![]));
    assert_eq!(name("4E000A00\n", 0), (NameFrame { number: 0, id: 10, length: 0 }, vec![]));
    assert_eq!(name("4E000A044C414E4\n", 0), (MALFORMED_NAME, vec![]));
    let log = |line: &str, room: usize| {
        let mut buffer = vec![LENT; room];
        let frame = read_log(line.as_bytes(), &mut buffer);
        (frame, buffer)
    };
    let lane = "4C0007002D044C414E45\n";
    let whole = LogFrame { number: 0, day: 7, reading: 45, length: 4 };
    let no_room = LogFrame { number: 8, ..LogFrame::default() };
    assert_eq!(log(lane, 4), (whole, b"LANE".to_vec()));
    assert_eq!(log(lane, 6), (whole, b"LANE\xEE\xEE".to_vec()));
    assert_eq!(log(lane, 3), (no_room, vec![LENT; 3]));
    assert_eq!(log("4C0007002D00\n", 0), (LogFrame { length: 0, ..whole }, vec![]));
    assert_eq!(log("4C0007002D044C414E4\n", 3), (MALFORMED_LOG, vec![LENT; 3]));
    let lane = "51010008000D0000000F044C414E45\n";
    let whole = QueryFrame { number: 0, measure: 1, p: 8, q: 13, allowance: 15, length: 4 };
    let no_room = QueryFrame { number: 8, ..QueryFrame::default() };
    assert_eq!(query(lane, 4), (whole, b"LANE".to_vec()));
    assert_eq!(query(lane, 6), (whole, b"LANE\xEE\xEE".to_vec()));
    assert_eq!(query(lane, 3), (no_room, vec![LENT; 3]));
    assert_eq!(query("51010008000D0000000F044C414E4\n", 3), (MALFORMED_QUERY, vec![LENT; 3]));
}

/// A writer's buffer: 2 for a name past 255 bytes, then 8 where the line does not fit; and then nothing is changed.
#[test]
fn a_line_needs_room() {
    type Write<'a> = Box<dyn Fn(&mut [u8]) -> Written + 'a>;
    let long = [b'A'; 256];
    // A writer, and how many bytes its line has.
    let writers: Vec<(Write<'_>, usize)> = vec![
        (Box::new(|line| write_name(10, b"LANE", line)), 17),
        (Box::new(|line| write_name(10, b"", line)), 9),
        (Box::new(|line| write_name(10, &long[..255], line)), 519),
        (Box::new(|line| write_query(1, 8, 13, 15, b"LANE", line)), 31),
        (Box::new(|line| write_query(1, 8, 13, 15, &long[..255], line)), 533),
        (Box::new(|line| write_row(10, 6, 6, 4, line)), 13),
        (Box::new(|line| write_end(3, 15, 8, 13, line)), 23),
        (Box::new(|line| write_refused(7, 14, line)), 13),
        (Box::new(|line| write_log(7, 45, b"LANE", line)), 21),
        (Box::new(|line| write_log(7, 45, b"", line)), 13),
        (Box::new(|line| write_log(7, 45, &long[..255], line)), 523),
        (Box::new(|line| write_outcome(1, 10, line)), 9),
        (Box::new(|line| write_pair(10, 1, 135, 3, line)), 23),
        (Box::new(|line| write_import_end(6, 2, line)), 11),
        (Box::new(|line| write_import_refused(3, 11, 2, line)), 11),
    ];
    for (write, length) in writers {
        for room in [length, length + 1, 2 * length] {
            let mut buffer = vec![LENT; room];
            assert_eq!(write(&mut buffer), Written { number: 0, length });
            assert_eq!(buffer[length - 1], b'\n');
            assert!(buffer[length..].iter().all(|byte| *byte == LENT));
        }
        for room in [0, 1, length / 2, length - 1] {
            let mut buffer = vec![LENT; room];
            assert_eq!(write(&mut buffer), Written { number: 8, length: 0 });
            assert_eq!(buffer, vec![LENT; room]);
        }
    }
    for room in [0, 521, 600] {
        let mut buffer = vec![LENT; room];
        assert_eq!(write_name(10, &long, &mut buffer), Written { number: 2, length: 0 }, "{}", hex(&buffer));
        assert_eq!(write_query(1, 8, 13, 15, &long, &mut buffer), Written { number: 2, length: 0 });
        assert_eq!(write_log(7, 45, &long, &mut buffer), Written { number: 2, length: 0 });
        assert_eq!(buffer, vec![LENT; room]);
    }
}
