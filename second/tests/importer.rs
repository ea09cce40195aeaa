//! The program `importer`: whole inputs and their whole outputs.

mod common;

use common::{log_line, name_line, query_line};
use second::build::{build, Registered};
use second::features::control;
use second::frames::{write_log, write_name, write_query};
use second::generate::registers;
use second::importer::{importer, three_parts};
use second::limits::{IMPORTER_INPUT, IMPORTER_WORDS};
use second::lookup::written;
use second::random::Random;

/// LANE under id 10 and AB under 20.
const R: &str = "4E000A044C414E45\n4E0014024142\n";
/// Dice 1/1 with an allowance of 6, which LANE needs: one signature of one posting, then five tests.
const S: &str = "510100010001 0000000600\n";
/// LANE on day 7 with a reading of 45.
const L: &str = "4C0007002D044C414E45\n";
/// The answer to R, S and L: it belongs to 10; the pair of 10 and week 1 has the sum 45 and the count 1.
const A: &str = "4F01000A\n50000A00010000002D0001\n5A00010001\n";
/// No lines and no pairs.
const E: &str = "5A00000000\n";
/// The refusal of the settings line.
const B: &str = "59020B0001\n";

/// What is shown, the input in pieces, the output in pieces. In an input a space stands for nothing, and _ for a space.
const WHOLE: [(&str, &[&str], &[&str]); 52] = [
    // The three parts.
    ("all three", &[R, S, L], &[A]),
    ("no log", &[R, S], &[E]),
    ("no register", &[S, L], &["4F020000\n5A00010000\n"]),
    ("settings alone", &[S], &[E]),
    ("nothing", &[], &[B]),
    ("a register alone", &[R], &[B]),
    ("a log after a register, without settings", &[R, L], &["59010B0003\n"]),
    ("a log alone", &[L], &["59010B0001\n"]),
    ("two lines", &[R, S, L, L], &["4F01000A\n4F01000A\n50000A00010000005A0002\n5A00020001\n"]),
    // The settings line.
    ("51 and nothing more", &[R, "51\n", L], &[B]),
    ("51 at the end of the input", &[R, "51"], &[B]),
    ("5 at the end of the input is a register line", &[R, "5"], &["59010B0003\n"]),
    ("5 and a line feed is a register line", &[R, "5\n", S, L], &["59010B0003\n"]),
    ("settings without a line feed", &[R, "5101000100010000000600"], &[B]),
    ("settings with a carriage return", &[R, "5101000100010000000600\r\n", L], &[B]),
    ("settings with a name", &[R, "51010001000100000006 0141\n", L], &[B]),
    ("settings with a name of a 0 byte", &[R, "51010001000100000006 0100\n", L], &[B]),
    ("settings with a length and no name", &[R, "51010001000100000006 01\n", L], &[B]),
    ("settings without a length", &[R, "51010001000100000006\n", L], &[B]),
    ("settings in lower case", &[R, "51010001000a0000000600\n", L], &[B]),
    ("settings twice: the second is a line of the log", &[R, S, S, L], &["59030B0001\n"]),
    ("settings after the log too", &[R, S, L, S], &["59030B0002\n"]),
    ("measure 0", &[R, "5100000100010000000600\n", L, L], &["4F040004\n4F040004\n5A00020000\n"]),
    ("measure 0 and no log", &[R, "5100000100010000000600\n"], &[E]),
    ("threshold 2/1", &[R, "5101000200010000000600\n", L], &["4F040005\n5A00010000\n"]),
    ("threshold 1/1001", &[R, "51010001 03E90000000600\n", L], &["4F040005\n5A00010000\n"]),
    ("an allowance of 5", &[R, "5101000100010000000500\n", L], &["4F040007\n5A00010000\n"]),
    ("measure 4 at 1/1000 of an empty register", &["510400 0103E8 0000000000\n", L], &["4F020000\n5A00010000\n"]),
    // The register, which is judged first.
    ("an empty name", &["4E000A00\n", S, L], &["5901010001\n"]),
    ("an id again", &[R, "4E00140141\n", S, L], &["5901090003\n"]),
    ("a tab", &[R, "4E00150109\n", S, L], &["59010C0003\n"]),
    ("a 0 byte", &["4E00150100\n", S, L], &["5901030001\n"]),
    ("an empty line in the register", &["\n", R, S, L], &["59010B0001\n"]),
    ("an empty line before the settings", &[R, "\n", S, L], &["59010B0003\n"]),
    ("a space before the settings", &[R, "_", S, L], &["59010B0003\n"]),
    ("a bad register before bad settings and a bad log", &["4E000A00\n", "51\n", "4C\n"], &["5901010001\n"]),
    ("bad settings before a bad log", &[R, "51\n", "4C\n"], &[B]),
    ("a bad register and no settings", &["4E000A00\n"], &["5901010001\n"]),
    // The log.
    ("an empty line in the log", &[R, S, L, "\n", L], &["59030B0002\n"]),
    ("an empty line at the end", &[R, S, L, "\n"], &["59030B0002\n"]),
    ("a log that is an empty line", &[R, S, "\n"], &["59030B0001\n"]),
    ("a line feed missing", &[R, S, L, "4C0007002D044C414E45"], &["59030B0002\n"]),
    ("a carriage return", &[R, S, "4C0007002D044C414E45\r\n"], &["59030B0001\n"]),
    ("a name of the register in the log", &[R, S, L, R], &["59030B0002\n"]),
    ("no typed name", &[R, S, "4C0007002D00\n", L], &["4F040001\n4F01000A\n50000A00010000002D0001\n5A00020001\n"]),
    ("a 0 byte typed", &[R, S, "4C0007002D0100\n"], &["4F040003\n5A00010000\n"]),
    ("a tab typed", &[R, S, "4C0007002D0109\n"], &["4F04000C\n5A00010000\n"]),
    // Readings.
    ("a missing reading", &[R, S, "4C0007FFFF044C414E45\n"], &["4F01000A\n50000A0001000000000000\n5A00010001\n"]),
    ("a reading of 0", &[R, S, "4C00070000044C414E45\n"], &["4F01000A\n50000A0001000000000001\n5A00010001\n"]),
    ("the largest reading", &[R, S, "4CFFFFFFFE044C414E45\n"], &["4F01000A\n50000A24920000FFFE0001\n5A00010001\n"]),
    // Several ids and weeks: 20 in week 0 comes first and is written last.
    (
        "two ids and two weeks",
        &[R, S, "4C00000001024142\n", "4C0007002D044C414E45\n", "4C00060002044C414E45\n"],
        &[
            "4F010014\n4F01000A\n4F01000A\n",
            "50000A0000000000020001\n50000A00010000002D0001\n5000140000000000010001\n",
            "5A00030003\n",
        ],
    ),
    ("several names", &["4E000A0141\n4E000B0141\n", S, "4C00000001 0141\n"], &["4F030000\n5A00010000\n"]),
];

#[test]
fn whole_inputs() {
    for (what, input, output) in WHOLE {
        let input = input.concat().replace(' ', "").replace('_', " ");
        assert_eq!(String::from_utf8(importer(input.as_bytes())).unwrap(), output.concat(), "{what}");
    }
}

#[test]
fn the_parts_are_cut_at_the_first_line_that_begins_with_51() {
    // The input, how many bytes of it are the register, and how many the settings line.
    let vectors: [(&[u8], usize, usize); 9] = [
        (b"", 0, 0),
        (b"5", 1, 0),
        (b"51", 0, 2),
        (b"51\n51\n", 0, 3),
        (b"\n51", 1, 2),
        (b"5\n1", 3, 0),
        (b"4E51\n", 5, 0),
        (b"4E\n5\n510\n4C\n51", 5, 4),
        (b"4E\n\n51\n\n", 4, 3),
    ];
    for (input, register, settings) in vectors {
        let (first, line, log) = three_parts(input);
        assert_eq!((first.len(), line.len()), (register, settings), "{}", input.escape_ascii());
        assert_eq!([first, line, log].concat(), input);
    }
}

fn settings() -> Vec<u8> {
    query_line(1, 1, 1, 6, b"")
}

#[test]
fn lines_1024_and_1025() {
    let line = log_line(7, 10, b"LANE");
    // 1,024 lines of 10 each in week 1.
    let all = "4F01000A\n".repeat(1024) + "50000A0001000028000400\n5A04000001\n";
    let log = |count: usize, more: &[u8]| [R.as_bytes(), &settings(), &line.repeat(count), more].concat();
    for (what, input, output) in [
        ("1,024 lines", log(1024, b""), &all[..]),
        ("1,025 lines", log(1025, b""), "59030A0401\n"),
        ("1,026 lines", log(1026, b""), "59030A0401\n"),
        ("line 1,025 malformed", log(1024, b"\n"), "59030A0401\n"),
        ("line 1,024 malformed", log(1023, b"\n"), "59030B0400\n"),
        ("line 1,026 malformed", log(1025, b"\n"), "59030A0401\n"),
        ("line 1,025 without a line feed", log(1024, b"4"), "59030A0401\n"),
    ] {
        assert_eq!(String::from_utf8(importer(&input)).unwrap(), output, "{what}");
    }
}

/// As many pairs as lines: one line for each of 1,024 weeks.
#[test]
fn as_many_pairs_as_lines() {
    let log: Vec<u8> = (0..1024).rev().flat_map(|week| log_line(7 * week + 6, week, b"AB")).collect();
    let outcomes = "4F010014\n".repeat(1024);
    let pairs: String = (0..1024).map(|week| format!("500014{week:04X}{week:08X}0001\n")).collect();
    let output = importer(&[R.as_bytes(), &settings(), &log].concat());
    assert_eq!(String::from_utf8(output).unwrap(), outcomes + &pairs + "5A04000400\n");
}

/// The limit is what 256 of the longest names, the settings line and 1,024 of the longest lines take.
#[test]
fn the_longest_lines_make_the_limit() {
    let name = [b'A'; 255];
    let longest = |write: &dyn Fn(&mut [u8]) -> second::frames::Written| written(|buffer| write(buffer)).len();
    let (named, line) = (longest(&|buffer| write_name(1, &name, buffer)), longest(&|b| write_log(1, 1, &name, b)));
    let settings = longest(&|buffer| write_query(1, 1, 1, 1, b"", buffer));
    assert_eq!((named, settings, line), (519, 23, 523));
    assert_eq!(IMPORTER_INPUT, 256 * named + settings + 1024 * line);
}

#[test]
fn at_most_668439_bytes() {
    let long = log_line(0, 0, &[b'A'; 255]);
    let start = [R.as_bytes(), &settings()].concat();
    let names: Vec<u8> = (0..256).flat_map(|id| name_line(id, &[b'A'; 255])).collect();
    let filled = |start: &[u8], length: usize| {
        let mut input = start.to_vec();
        while input.len() + long.len() <= length {
            input.extend(&long);
        }
        input.extend(std::iter::repeat_n(b'4', length - input.len()));
        input
    };
    for (length, too_much) in [(668_438, false), (668_439, false), (668_440, true), (668_441, true), (900_000, true)] {
        let of = |right: &str| if too_much { "5900080000\n".to_string() } else { right.to_string() };
        // The longest lines, of which more than 1,024 fit where the names are short.
        let output = importer(&filled(&start, length));
        assert_eq!(String::from_utf8(output).unwrap(), of("59030A0401\n"), "{length} bytes");
        // The longest names too, which are refused.
        let output = importer(&filled(&[&names[..], &settings()].concat(), length));
        assert_eq!(String::from_utf8(output).unwrap(), of("5901020001\n"), "{length} bytes");
        // Nothing but line feeds.
        let output = importer(&vec![b'\n'; length]);
        assert_eq!(String::from_utf8(output).unwrap(), of("59010B0001\n"), "{length} bytes");
    }
}

/// 1,024 lines of 255 bytes are read and each is refused: more than 65,536 bytes of input are answered.
#[test]
fn the_longest_names_are_answered() {
    let log = log_line(0, 0, &[b'A'; 255]).repeat(1024);
    let output = importer(&[R.as_bytes(), &settings(), &log].concat());
    assert_eq!(String::from_utf8(output).unwrap(), "4F040002\n".repeat(1024) + "5A04000000\n");
}

/// The index has room for every register: 256 names of 199 and 200 bytes that share next to nothing, and one of 16,385 words,
/// which a lookup refuses.
#[test]
fn every_register_has_its_room() {
    let mut random = Random::of(1, 1, 1);
    let letters: Vec<u8> = (0..=255).filter(|byte| !control(*byte)).collect();
    let wide: Vec<Registered> = (0..256)
        .map(|id| {
            // 223 bytes can begin a name: the others begin the names of 199 bytes.
            let (first, length) = (letters[id % 223], if id < 223 { 200 } else { 199 });
            let rest = (1..length).map(|_| random.pick(&letters));
            Registered { id: id as u32, name: [first].into_iter().chain(rest).collect() }
        })
        .collect();
    let filling = registers::filling(&mut random, 16_385);
    for (register, least) in [(wide, 257_000), (filling, 16_385)] {
        let bytes = registers::lines(&register).concat();
        let mut words = vec![0; IMPORTER_WORDS];
        assert_eq!(build(&bytes, &mut words).number, 0);
        let total = 3 + words[0] + 4 * words[1] + words[2];
        assert!(total >= least, "{total} words");
        let last = register.last().unwrap();
        let settings = query_line(1, 1, 1, 51_712, b"");
        let output = importer(&[bytes, settings, log_line(0, 1, &last.name)].concat());
        assert!(output.starts_with(b"4F"), "{}", output.escape_ascii());
        assert_eq!(importer(&registers::lines(&register).concat()), B.as_bytes());
    }
}

#[test]
fn a_257th_name_is_one_too_many() {
    let names = |count: u16| (0..count).flat_map(|id| name_line(id, b"A")).collect::<Vec<u8>>();
    for (count, output) in [(256, E), (257, "59010A0101\n"), (300, "59010A0101\n")] {
        assert_eq!(importer(&[names(count), settings()].concat()), output.as_bytes(), "{count} names");
    }
    // All of them are listed: the line is ambiguous, at 256 touches and two tests of 256.
    let settings = query_line(1, 1, 1, 768, b"");
    let output = importer(&[names(256), settings, log_line(0, 1, b"A")].concat());
    assert_eq!(output, b"4F030000\n5A00010000\n");
}

/// A whole output ends with its one end line, or is its one refusal line.
#[test]
fn every_output_has_one_end() {
    for at in 0..400 {
        let input = second::generate::input(second::protocol::Kind::Importer, 6, at);
        let output = String::from_utf8(importer(&input)).unwrap();
        let lines: Vec<&str> = output.split_inclusive('\n').collect();
        let of = |kind: &str| lines.iter().filter(|line| line.starts_with(kind)).count();
        match lines[..] {
            [one] if one.starts_with("59") => (),
            [.., last] => {
                assert_eq!(last, format!("5A{:04X}{:04X}\n", of("4F"), of("50")));
                assert_eq!(of("4F") + of("50") + 1, lines.len());
                assert!(lines[..of("4F")].iter().all(|line| line.starts_with("4F")));
            }
            [] => panic!("no output"),
        }
    }
}
