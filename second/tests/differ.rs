//! The runner and the command, run as a user runs them.

use std::fs;
use std::io::Write;
use std::path::{Path, PathBuf};
use std::process::{Command, Output, Stdio};

use second::differ::{differ, kept, Run};
use second::faults::FAULTS;
use second::generate;
use second::lookup::lookup;
use second::protocol::Kind;

const SECOND: &str = env!("CARGO_BIN_EXE_second");

fn regressions() -> PathBuf {
    Path::new(env!("CARGO_MANIFEST_DIR")).join("regressions")
}

fn second(words: &[&str], input: &[u8]) -> Output {
    let mut child = Command::new(SECOND)
        .args(words)
        .stdin(Stdio::piped())
        .stdout(Stdio::piped())
        .stderr(Stdio::piped())
        .spawn()
        .unwrap();
    let mut stdin = child.stdin.take().unwrap();
    let input = input.to_vec();
    let writer = std::thread::spawn(move || drop(stdin.write_all(&input)));
    let output = child.wait_with_output().unwrap();
    writer.join().unwrap();
    output
}

/// A run of the runner: its status and the lines it wrote.
fn run(words: &[&str]) -> (Option<i32>, Vec<String>) {
    let directory = regressions();
    let mut all = vec!["differ", "--regressions", directory.to_str().unwrap()];
    all.extend(words);
    let output = second(&all, b"");
    let said = String::from_utf8(output.stdout).unwrap() + &String::from_utf8(output.stderr).unwrap();
    (output.status.code(), said.lines().map(str::to_string).collect())
}

#[test]
fn the_kept_regressions_hold() {
    // A kind, and one of its regressions.
    for (kind, known) in [
        (Kind::Lookup, "listing"),
        (Kind::Import, "one_of_each_outcome"),
        (Kind::Importer, "one_of_each_outcome"),
        (Kind::Search, "index_with_a_tab"),
        (Kind::Frames, "row_without_least"),
        (Kind::Good, "index_with_a_tab"),
        (Kind::Add, "example_of_the_rule"),
        (Kind::Withdraw, "example_of_the_rule"),
        (Kind::Calls, "example_of_the_rule"),
        (Kind::Many, "example_of_the_rule"),
    ] {
        let kept = kept(&regressions(), kind).unwrap();
        assert!(kept.iter().any(|one| one.name == known));
        for one in kept {
            let output = kind.answer(&one.input).unwrap();
            assert_eq!(output.escape_ascii().to_string(), one.output.escape_ascii().to_string(), "{}", one.name);
        }
    }
}

#[test]
fn it_agrees_with_itself_by_every_protocol() {
    for kind in Kind::ALL {
        let word = kind.word();
        let count = kept(&regressions(), kind).unwrap().len() + 200;
        let (status, said) =
            run(&["--program", SECOND, "--arg", word, "--kind", word, "--seed", "4", "--count", "200"]);
        assert_eq!(status, Some(0), "{said:?}");
        assert_eq!(said.first().unwrap(), &format!("seed 4, 200 inputs of kind {word}"));
        assert_eq!(said.last().unwrap(), &format!("{count} passed, 0 failed"));
    }
}

/// A difference is found, said with its seed, and repeats by the very commands that are printed.
#[test]
fn a_difference_repeats_as_printed() {
    for fault in ["least_count_one_lost", "allowance_one_too_loose", "carriage_return_taken"] {
        let empty = scratch(fault);
        let (status, said) = run(&[
            "--program",
            SECOND,
            "--arg",
            "lookup",
            "--arg",
            "--fault",
            "--arg",
            fault,
            "--seed",
            "5",
            "--count",
            "3000",
            "--regressions",
            empty.to_str().unwrap(),
        ]);
        assert_eq!(status, Some(1), "{fault}");
        let repeat: Vec<&str> = said
            .iter()
            .find_map(|line| line.strip_prefix("    second generate "))
            .and_then(|line| line.split(" > ").next())
            .unwrap()
            .split(' ')
            .collect();
        let input = second(&[&["generate"], &repeat[..]].concat(), b"").stdout;
        let right = second(&["lookup"], &input).stdout;
        let wrong = second(&["lookup", "--fault", fault], &input).stdout;
        assert_eq!(right, lookup(&input));
        assert_ne!(right, wrong, "{fault}");
        let at: u64 = repeat[4].parse().unwrap();
        assert_eq!(said.last().unwrap(), &format!("{at} passed, 1 failed"), "{fault}");
        // Nothing differs before it.
        assert!((0..at).all(|at| {
            let input = generate::input(Kind::Lookup, 5, at);
            FAULTS.iter().find(|(name, _)| *name == fault).unwrap().1(&input) == lookup(&input)
        }));
        fs::remove_dir_all(empty).unwrap();
    }
}

/// Faults that a kept regression shows, each with its kind.
const BY_REGRESSIONS: [(&str, &str); 50] = [
    ("lookup", "least_count_of_own_size"),
    ("lookup", "least_count_one_more"),
    ("lookup", "least_counts_not_merged"),
    ("lookup", "shared_and_least_swapped"),
    ("lookup", "least_before_size"),
    ("import", "missing_reading_counted_as_0"),
    ("import", "missing_reading_added_to_the_sum"),
    ("import", "refused_taken_as_unresolved"),
    ("import", "ambiguous_given_to_first_id"),
    ("import", "week_rounded_up"),
    ("import", "pair_without_readings_left_out"),
    ("import", "line_1025_read_before_it_is_refused"),
    ("import", "room_judged_before_lines"),
    ("import", "pairs_by_week_then_id"),
    ("import", "outcomes_written_though_refused"),
    ("import", "room_one_too_strict"),
    ("importer", "settings_with_a_name_taken"),
    ("importer", "no_settings_and_no_log_is_answered"),
    ("importer", "bad_settings_refused_at_once"),
    ("importer", "no_end_line"),
    ("importer", "lines_counted_over_all"),
    ("importer", "settings_judged_before_register"),
    ("add", "live_id_passes"),
    ("add", "256_names_judged_before_live_id"),
    ("add", "255_names_are_too_many"),
    ("add", "257th_name_added"),
    ("add", "room_judged_on_the_old_total"),
    ("add", "room_one_word_too_strict"),
    ("add", "room_for_a_row_of_each_feature"),
    ("add", "name_judged_before_index"),
    ("add", "live_id_judged_before_name"),
    ("add", "control_character_passes"),
    ("add", "refused_add_has_written"),
    ("add", "refused_add_blanks_beyond"),
    ("add", "add_leaves_words_beyond"),
    ("add", "add_keeps_the_head"),
    ("add", "add_puts_its_posting_last"),
    ("add", "add_drops_another_posting"),
    ("add", "add_joins_a_row_of_another_size"),
    ("add", "add_drops_features_of_no_name"),
    ("withdraw", "missing_id_passes"),
    ("withdraw", "missing_id_judged_before_index"),
    ("withdraw", "emptied_row_stays_with_count_0"),
    ("withdraw", "row_of_a_shared_list_goes"),
    ("withdraw", "withdraw_keeps_the_head"),
    ("withdraw", "withdraw_blanks_beyond_the_old_total_alone"),
    ("withdraw", "refused_withdrawal_blanks_beyond"),
    ("calls", "withdrawn_id_stays_taken"),
    ("calls", "room_given_up_is_lost"),
    ("calls", "rows_given_up_are_lost"),
];

/// Without any generated input.
#[test]
fn kept_regressions_show_faults() {
    for (kind, fault) in BY_REGRESSIONS {
        let words = ["--program", SECOND, "--kind", kind, "--arg", kind, "--arg", "--fault", "--arg", fault];
        let (status, said) = run(&[&words[..], &["--seed", "1", "--count", "0"]].concat());
        assert_eq!(status, Some(1), "{kind} {fault}");
        assert!(said[1].starts_with("difference at the kept regression "), "{kind} {fault}: {said:?}");
    }
}

fn scratch(name: &str) -> PathBuf {
    let directory = Path::new(env!("CARGO_TARGET_TMPDIR")).join(name);
    fs::create_dir_all(&directory).unwrap();
    directory
}

/// The kept regressions come first: a fault that the listing shows is named by it, before any generated input.
#[test]
fn a_kept_regression_is_named() {
    let (status, said) = run(&[
        "--program",
        SECOND,
        "--arg",
        "lookup",
        "--arg",
        "--fault",
        "--arg",
        "touches_one_more",
        "--seed",
        "5",
        "--count",
        "10",
    ]);
    assert_eq!(status, Some(1));
    assert!(said[1].starts_with("difference at the kept regression "), "{said:?}");
    assert!(said.last().unwrap().ends_with(" passed, 1 failed"));
}

/// A kept output that this program does not give is a failure too, and so is one that is lacking.
#[test]
fn a_kept_output_binds_both_programs() {
    let directory = scratch("kept");
    fs::write(directory.join("odd.lookup.in"), b"\n").unwrap();
    let words = ["--program", SECOND, "--arg", "lookup", "--seed", "1", "--count", "1", "--regressions"];
    let words = [&words[..], &[directory.to_str().unwrap()]].concat();
    assert_eq!(run(&words).0, Some(2));
    fs::write(directory.join("odd.lookup.out"), b"580800000000\n").unwrap();
    let (status, said) = run(&words);
    assert_eq!(status, Some(1));
    assert_eq!(
        said[1..4],
        ["difference at the kept regression odd", "kept, line 1: 580800000000\\n", "second, line 1: 580B00000000\\n",]
    );
    fs::remove_dir_all(directory).unwrap();
}

/// A program that fails, hangs, writes too much or too little differs.
#[test]
fn other_programs_differ() {
    let shell = |script: &str, seconds: &str| {
        run(&["--program", "sh", "--arg", "-c", "--arg", script, "--seconds", seconds, "--seed", "1", "--count", "50"])
    };
    // What the program does, and what is said of it.
    let vectors = [
        ("exit 3", "exit status: 3"),
        ("cat > /dev/null", "(no such line)"),
        ("cat", "line 1: "),
        ("exec sleep 5", "no end within 1 seconds"),
        ("kill -9 $$", "signal: 9"),
    ];
    for (script, what) in vectors {
        let (status, said) = shell(script, "1");
        assert_eq!(status, Some(1), "{script}");
        assert!(said.iter().any(|line| line.contains(what)), "{script}: {said:?}");
        assert!(said.last().unwrap().ends_with(" passed, 1 failed"), "{script}");
    }
    let (status, said) = run(&["--program", "/nowhere/lookup", "--seed", "1", "--count", "50"]);
    assert_eq!(status, Some(1));
    assert!(said.iter().any(|line| line.contains("does not start")), "{said:?}");
}

/// Lines given at once: the one that differs is found among them.
#[test]
fn the_line_that_differs_is_found() {
    let directory = scratch("lines");
    let run =
        Run { kind: Kind::Frames, seed: 8, count: 500, regressions: directory.clone(), called: "other".to_string() };
    let special = generate::input(Kind::Frames, 8, 333);
    let mut said = Vec::new();
    let same = differ(
        &run,
        &mut |input: &[u8]| {
            let mut output = Vec::new();
            for line in input.split_inclusive(|byte| *byte == b'\n') {
                output.extend(if line == special { b"?\n".to_vec() } else { Kind::Frames.answer(line)? });
            }
            Ok(output)
        },
        &mut said,
    );
    assert!(!same.unwrap());
    let said = String::from_utf8(said).unwrap();
    assert!(said.contains("difference at input 333 of seed 8, kind frames\n"), "{said}");
    assert!(said.ends_with("\n333 passed, 1 failed\n"), "{said}");
    fs::remove_dir_all(directory).unwrap();
}

#[test]
fn the_command_says_what_it_cannot_do() {
    // The words, the input, and how the command's complaint begins.
    let vectors: [(&[&str], &[u8], &str); 16] = [
        (&[], b"", "usage:"),
        (&["loook"], b"", "usage:"),
        (&["good"], b"x\n", "line 1: word is x"),
        (&["generate", "1", "2", "lookup"], b"", "several inputs of kind lookup need --to DIRECTORY"),
        (&["generate", "1", "2", "nothing"], b"", "no kind nothing"),
        (&["generate", "x", "2", "good"], b"", "SEED is x"),
        (&["differ", "--program", "x", "--seed", "1"], b"", "usage:"),
        (&["lookup", "--fault", "none"], b"", "no fault none"),
        (&["import", "--fault", "none"], b"", "no fault none"),
        (&["importer", "--fault", "week_rounded_up"], b"", "no fault week_rounded_up"),
        (&["good", "--fault", "none"], b"", "usage:"),
        (&["add", "--fault", "missing_id_passes"], b"", "no fault missing_id_passes"),
        (&["withdraw", "--fault", "live_id_passes"], b"", "no fault live_id_passes"),
        (&["calls", "--fault", "none"], b"", "no fault none"),
        (&["calls"], b"3 +5:4\n", "line 1: call is +5:4"),
        (&["generate", "1", "2", "importer"], b"", "several inputs of kind importer need --to DIRECTORY"),
    ];
    for (words, input, why) in vectors {
        let output = second(words, input);
        assert_eq!(output.status.code(), Some(2), "{words:?}");
        assert!(String::from_utf8(output.stderr).unwrap().starts_with(why), "{words:?}");
        assert!(output.stdout.is_empty(), "{words:?}");
    }
}

#[test]
fn generate_writes_what_it_is_asked_for() {
    let lines = second(&["generate", "9", "5", "good"], b"");
    let whole: Vec<u8> = (0..5).flat_map(|at| generate::input(Kind::Good, 9, at)).collect();
    assert_eq!(lines.stdout, whole);
    assert!(String::from_utf8(lines.stderr).unwrap().starts_with("seed 9, 5 inputs of kind good"));
    let directory = scratch("files");
    second(&["generate", "9", "3", "lookup", "--from", "7", "--to", directory.to_str().unwrap()], b"");
    for at in 7..10 {
        let written = fs::read(directory.join(format!("9-{at}.lookup.in"))).unwrap();
        assert_eq!(written, generate::input(Kind::Lookup, 9, at));
    }
    fs::remove_dir_all(directory).unwrap();
}
