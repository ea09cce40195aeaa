//! The command `second`. README.md sets out what each word does and the protocols.

use std::env;
use std::fs;
use std::io::{self, Read, Write};
use std::path::PathBuf;
use std::process::ExitCode;

use second::differ::{differ, program, Run};
use second::faults;
use second::generate;
use second::import_faults;
use second::many_faults::many_fault;
use second::protocol::{add_answer, calls_answer, import_answer, many_answer, withdraw_answer, Kind};
use second::upkeep_faults::{add_fault, run_fault, withdraw_fault};

const USAGE: &str = "usage:
    second lookup|importer|features|likeness|good|list|build|search|frames|import|add|withdraw|calls|many
                  standard input to standard output
    second generate SEED COUNT KIND [--from AT] [--to DIRECTORY]
    second differ --program PATH [--arg WORD]..  --seed SEED --count COUNT
                  [--kind KIND] [--regressions DIRECTORY] [--seconds SECONDS]";

fn main() -> ExitCode {
    let words: Vec<String> = env::args().skip(1).collect();
    let words: Vec<&str> = words.iter().map(String::as_str).collect();
    let done = match words[..] {
        ["generate", ref rest @ ..] => generate_inputs(rest),
        ["differ", ref rest @ ..] => run_differ(rest),
        [kind, "--fault", name] => answer_by(|input| wrong_answer(kind, name, input)),
        [kind] => match Kind::of(kind) {
            Some(kind) => answer_by(|input| kind.answer(input)),
            None => Err(USAGE.to_string()),
        },
        _ => Err(USAGE.to_string()),
    };
    match done {
        Ok(true) => ExitCode::SUCCESS,
        Ok(false) => ExitCode::FAILURE,
        Err(why) => {
            eprintln!("{why}");
            ExitCode::from(2)
        }
    }
}

fn failed(why: io::Error) -> String {
    why.to_string()
}

/// Standard input, whole, to standard output.
fn answer_by(answer: impl FnOnce(&[u8]) -> Result<Vec<u8>, String>) -> Result<bool, String> {
    let mut input = Vec::new();
    io::stdin().read_to_end(&mut input).map_err(failed)?;
    let output = answer(&input)?;
    io::stdout().write_all(&output).map_err(failed)?;
    Ok(true)
}

/// The output of what has a fault.
fn wrong_answer(kind: &str, name: &str, input: &[u8]) -> Result<Vec<u8>, String> {
    let wrong = match Kind::of(kind) {
        Some(Kind::Lookup) => faults::fault(name).map(|lookup| Ok(lookup(input))),
        Some(Kind::Import) => import_faults::import_fault(name)
            .map(|wrong| import_answer(input, |log, s, words, o, p| wrong.import(log, s, words, o, p))),
        Some(Kind::Importer) => import_faults::importer_fault(name).map(|importer| Ok(importer(input))),
        Some(Kind::Add) => add_fault(name).map(|add| add_answer(input, add)),
        Some(Kind::Withdraw) => withdraw_fault(name).map(|withdraw| withdraw_answer(input, withdraw)),
        Some(Kind::Calls) => run_fault(name).map(|wrong| calls_answer(input, |words, calls| wrong.run(words, calls))),
        Some(Kind::Many) => many_fault(name).map(|wrong| many_answer(input, wrong)),
        _ => return Err(USAGE.to_string()),
    };
    wrong.unwrap_or_else(|| Err(format!("no fault {name}")))
}

fn number(word: &str, what: &str) -> Result<u64, String> {
    word.parse().map_err(|_| format!("{what} is {word}\n{USAGE}"))
}

fn kind_of(word: &str) -> Result<Kind, String> {
    Kind::of(word).ok_or(format!("no kind {word}\n{USAGE}"))
}

/// `generate`: line kinds one after the other; a single input of a program as it is, several only into files.
fn generate_inputs(words: &[&str]) -> Result<bool, String> {
    let [seed, count, kind, options @ ..] = words else { return Err(USAGE.to_string()) };
    let (seed, count, kind) = (number(seed, "SEED")?, number(count, "COUNT")?, kind_of(kind)?);
    let (mut from, mut to) = (0, None);
    for option in options.chunks(2) {
        match option {
            ["--from", at] => from = number(at, "AT")?,
            ["--to", directory] => to = Some(PathBuf::from(directory)),
            _ => return Err(USAGE.to_string()),
        }
    }
    if !kind.by_line() && count != 1 && to.is_none() {
        return Err(format!("several inputs of kind {} need --to DIRECTORY", kind.word()));
    }
    eprintln!("seed {seed}, {count} inputs of kind {}, from {from}", kind.word());
    for at in from..from + count {
        let input = generate::input(kind, seed, at);
        match &to {
            None => io::stdout().write_all(&input).map_err(failed)?,
            Some(directory) => {
                fs::create_dir_all(directory).map_err(failed)?;
                fs::write(directory.join(format!("{seed}-{at}.{}.in", kind.word())), &input).map_err(failed)?;
            }
        }
    }
    Ok(true)
}

fn run_differ(words: &[&str]) -> Result<bool, String> {
    let (mut path, mut called, mut seed, mut count) = (None, Vec::new(), None, None);
    let (mut kind, mut regressions, mut seconds) = (Kind::Lookup, PathBuf::from("second/regressions"), 60);
    for option in words.chunks(2) {
        match option {
            ["--program", value] => path = Some(value.to_string()),
            ["--arg", value] => called.push(value.to_string()),
            ["--seed", value] => seed = Some(number(value, "SEED")?),
            ["--count", value] => count = Some(number(value, "COUNT")?),
            ["--kind", value] => kind = kind_of(value)?,
            ["--regressions", value] => regressions = PathBuf::from(value),
            ["--seconds", value] => seconds = number(value, "SECONDS")?,
            _ => return Err(USAGE.to_string()),
        }
    }
    let (Some(path), Some(seed), Some(count)) = (path, seed, count) else { return Err(USAGE.to_string()) };
    if !regressions.is_dir() {
        return Err(format!("no directory {}: say --regressions DIRECTORY", regressions.display()));
    }
    let run = Run { kind, seed, count, regressions, called: [vec![path.clone()], called.clone()].concat().join(" ") };
    differ(&run, &mut program(path.into(), called, seconds), &mut io::stdout()).map_err(failed)
}
