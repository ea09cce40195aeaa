//! The program: whole inputs and their whole outputs.

mod common;

use common::{name_line, query_line};
use second::build::build;
use second::generate::registers;
use second::lookup::{lookup, parts};
use second::random::Random;

/// LANE under id 10.
const R: &str = "4E000A044C414E45\n";
/// LANE by Dice 1/1. Least count 6: one signature of one posting, then five tests: 6 touches.
const Q: &str = "510100010001000000FF044C414E45\n";
/// The answer to Q after R.
const A: &str = "52000A060606\n4500010000000600010001\n";
/// What a line among the queries that is no 51 frame gives.
const B: &str = "580B00000000\n";

/// What is shown, the input in pieces, the output in pieces.
const WHOLE: [(&str, &[&str], &[&str]); 32] = [
    // Where the register ends and the queries begin.
    ("nothing", &[], &[]),
    ("a register alone", &[R], &[]),
    ("a query alone", &[Q], &["4500000000000000010001\n"]),
    ("a register and a query", &[R, Q], &[A]),
    ("two queries", &[R, Q, Q], &[A, A]),
    ("a name after the queries have begun", &[R, Q, R, Q], &[A, B, A]),
    ("51 and nothing more begins the queries", &[R, "51\n", Q], &[B, A]),
    ("51 at the end of the input is a query line", &[R, "51"], &[B]),
    ("51 at the end of the input after a query", &[R, Q, "51"], &[A, B]),
    ("5 at the end of the input is a register line", &[R, "5"], &[B]),
    ("5 and a line feed is a register line", &[R, "5\n", Q], &[B]),
    ("a space before 51 keeps the line in the register", &[R, " ", Q, Q], &[B]),
    ("51 damaged further on is a query line", &[R, "51010008000d0000000F044C414E45\n", Q], &[B, A]),
    ("a refused register leaves no query to answer", &["4E000A00\n", Q, Q], &["580100000000\n"]),
    // Line feeds.
    ("the register's last line feed missing", &["4E000A044C414E45"], &[B]),
    ("a query's last line feed missing", &[R, "510100010001000000FF044C414E45"], &[B]),
    ("the second query's last line feed missing", &[R, Q, "510100010001000000FF044C414E45"], &[A, B]),
    ("an empty line in the register", &[R, "\n", Q], &[B]),
    ("nothing but an empty line", &["\n"], &[B]),
    ("an empty line among the queries", &[R, Q, "\n", Q], &[A, B, A]),
    ("an empty line at the end", &[R, Q, "\n"], &[A, B]),
    ("two empty lines at the end", &[R, Q, "\n\n"], &[A, B, B]),
    ("a carriage return in the register", &["4E000A044C414E45\r\n", Q], &[B]),
    ("a carriage return in a query", &[R, "510100010001000000FF044C414E45\r\n", Q], &[B, A]),
    // Refused queries: one line each, and reading goes on.
    ("an empty query", &[R, "510100010001000000FF00\n", Q], &["580100000000\n", A]),
    ("a 0 byte in a query", &[R, "510100010001000000FF024100\n", Q], &["580300000000\n", A]),
    ("a tab in a query", &[R, "510100010001000000FF024109\n", Q], &["580C00000000\n", A]),
    ("measure 0", &[R, "510000010001000000FF0141\n", Q], &["580400000000\n", A]),
    ("threshold 0/1", &[R, "510100000001000000FF0141\n", Q], &["580500000000\n", A]),
    ("threshold 1/1001", &[R, "5101000103E9000000FF0141\n", Q], &["580500000000\n", A]),
    ("an allowance of 5 where 6 are needed", &[R, "51010001000100000005044C414E45\n", Q], &["580700000005\n", A]),
    // 70/100 is reported as 7/10. Sizes 6 and 6: least count 5, signatures 2 of one posting each, 4 tests.
    ("lowest terms", &[R, "510100460064000000FF044C414E45\n"], &["52000A060605\n450001000000060007000A\n"]),
];

#[test]
fn whole_inputs() {
    for (what, input, output) in WHOLE {
        assert_eq!(
            lookup(input.concat().as_bytes()).escape_ascii().to_string(),
            output.concat().replace('\n', "\\n"),
            "{what}"
        );
    }
}

#[test]
fn long_queries() {
    for (length, output) in [(64, "4500000000000000010001\n"), (65, "4500000000000000010001\n"), (200, "4500000000000000010001\n"), (201, "580200000000\n"), (255, "580200000000\n")] {
        let query = query_line(1, 1, 1, 255, &vec![b'A'; length]);
        assert_eq!(lookup(&[R.as_bytes(), &query].concat()), output.as_bytes(), "{length} bytes");
    }
}

#[test]
fn refused_registers() {
    let names = |count: u16| (0..count).flat_map(|id| name_line(id, b"A")).collect::<Vec<u8>>();
    // 256 rows, least count 3: one signature of 256 postings, then two tests of 256 candidates.
    let all: String = (0..256).map(|id| format!("52{id:04X}030303\n")).collect::<String>() + "4501000000030000010001\n";
    let vectors = [
        ("a name of 201 bytes", name_line(1, &[b'A'; 201]), "580200000000\n".to_string()),
        ("a name of 255 bytes", name_line(1, &[b'A'; 255]), "580200000000\n".to_string()),
        ("a 0 byte", name_line(1, &[0]), "580300000000\n".to_string()),
        ("a tab", name_line(1, b"A\t"), "580C00000000\n".to_string()),
        ("an id again", [name_line(1, b"A"), name_line(1, b"B")].concat(), "580900000000\n".to_string()),
        ("256 names", names(256), all),
        ("257 names", names(257), "580A00000000\n".to_string()),
    ];
    for (what, register, output) in vectors {
        let input = [register, query_line(1, 1, 1, 1000, b"A")].concat();
        assert_eq!(String::from_utf8(lookup(&input)).unwrap(), output, "{what}");
    }
}

#[test]
fn an_index_of_16384_words_is_the_most() {
    for (total, number) in [(16_383, 0), (16_384, 0), (16_385, 8)] {
        let register = registers::lines(&registers::filling(&mut Random::of(1, 1, total), total as usize)).concat();
        let mut words = vec![0; 20_000];
        assert_eq!(build(&register, &mut words).number, 0);
        assert_eq!(u64::from(3 + words[0] + 4 * words[1] + words[2]), total);
        let output = lookup(&[&register[..], b"51\n"].concat());
        assert_eq!(output, if number == 0 { B.as_bytes() } else { b"580800000000\n" }, "{total} words");
    }
}

/// Input that fills up to a length: R, Q, a line of digits that is no frame, Q.
fn of_length(length: usize) -> Vec<u8> {
    let digits = length - R.len() - 2 * Q.len() - 1;
    [R, Q, &"5".repeat(digits), "\n", Q].concat().into_bytes()
}

#[test]
fn at_most_65536_bytes() {
    let answered = [A, B, A].concat();
    for (length, output) in [
        (65_535, &answered[..]),
        (65_536, &answered),
        (65_537, "580800000000\n"),
        (65_538, "580800000000\n"),
        (200_000, "580800000000\n"),
    ] {
        let input = of_length(length);
        assert_eq!(input.len(), length);
        assert_eq!(String::from_utf8(lookup(&input)).unwrap(), output, "{length} bytes");
        // Judged before the register: a bad first line changes nothing once there is too much.
        let bad = [b"\n", &input[1..]].concat();
        assert_eq!(lookup(&bad), if length > 65_536 { output.as_bytes() } else { B.as_bytes() }, "{length} bytes");
    }
}

#[test]
fn the_queries_begin_at_the_first_line_that_begins_with_51() {
    // The input, and how many bytes of it are the register.
    let vectors: [(&[u8], usize); 9] = [
        (b"", 0),
        (b"5", 1),
        (b"51", 0),
        (b"\n51", 1),
        (b"5\n1", 3),
        (b"4E51\n", 5),
        (b"4E\n5\n510\n4E\n51", 5),
        (b"152\n51\n", 4),
        (b"4E\n\n\n", 5),
    ];
    for (input, register) in vectors {
        assert_eq!(parts(input).0.len(), register, "{}", input.escape_ascii());
    }
}
