//! The runner of comparisons: another program's output against this one's, the kept regressions first, then generated
//! inputs, up to the first difference.

use std::ffi::OsString;
use std::fs;
use std::io::{self, Read, Write};
use std::path::{Path, PathBuf};
use std::process::{Command, Stdio};
use std::sync::mpsc;
use std::thread;
use std::time::Duration;

use crate::build::lines;
use crate::generate;
use crate::protocol::Kind;

/// What is compared: an input to an output, or what went wrong.
pub type Subject<'a> = &'a mut dyn FnMut(&[u8]) -> Result<Vec<u8>, String>;

/// A comparison to run.
#[derive(Clone, Debug)]
pub struct Run {
    pub kind: Kind,
    pub seed: u64,
    pub count: u64,
    /// Where the regressions are kept.
    pub regressions: PathBuf,
    /// How the compared program is called, for the words on how to repeat.
    pub called: String,
}

/// How many lines are given to a program at once, where an input is one line.
const BATCH: u64 = 64;

/// After how many inputs a long run says how far it is.
const SAID: u64 = 10_000;

/// A kept regression: its name, its input and the right output.
pub struct Kept {
    pub name: String,
    pub input: Vec<u8>,
    pub output: Vec<u8>,
}

/// The regressions kept for a kind, by name: `NAME.KIND.in`, and beside it the right output `NAME.KIND.out`.
pub fn kept(directory: &Path, kind: Kind) -> io::Result<Vec<Kept>> {
    let ending = format!(".{}.in", kind.word());
    let mut found = Vec::new();
    for entry in fs::read_dir(directory)? {
        let path = entry?.path();
        let Some(file) = path.file_name().and_then(|file| file.to_str()) else { continue };
        if let Some(name) = file.strip_suffix(&ending) {
            let output = fs::read(path.with_extension("out"))?;
            found.push(Kept { name: name.to_string(), input: fs::read(&path)?, output });
        }
    }
    found.sort_by(|one, other| one.name.cmp(&other.name));
    Ok(found)
}

/// Runs a comparison, says how it went, and tells whether there was no difference. The last line is
/// `N passed, F failed`, F being 0 or 1.
pub fn differ(run: &Run, subject: Subject<'_>, say: &mut dyn Write) -> io::Result<bool> {
    let kind = run.kind.word();
    writeln!(say, "seed {}, {} inputs of kind {kind}", run.seed, run.count)?;
    let mut passed = 0;
    for one in kept(&run.regressions, run.kind)? {
        let own = run.kind.answer(&one.input);
        let other = subject(&one.input);
        for (who, output) in [("second", own), (&run.called[..], other)] {
            if let Some(what) = difference("kept", &one.output, who, output) {
                writeln!(say, "difference at the kept regression {}\n{what}", one.name)?;
                let path = run.regressions.join(format!("{}.{kind}.in", one.name));
                writeln!(say, "to repeat:\n    {} < {}", run.called, path.display())?;
                writeln!(say, "{passed} passed, 1 failed")?;
                return Ok(false);
            }
        }
        passed += 1;
    }
    writeln!(say, "{passed} kept regressions agree")?;
    let batch = if run.kind.by_line() { BATCH } else { 1 };
    let mut at = 0;
    while at < run.count {
        let until = run.count.min(at + batch);
        let inputs: Vec<Vec<u8>> = (at..until).map(|at| generate::input(run.kind, run.seed, at)).collect();
        if let Some((place, what)) = first_difference(run, &inputs, subject) {
            passed += place;
            say_difference(run, at + place, &what, say)?;
            writeln!(say, "{passed} passed, 1 failed")?;
            return Ok(false);
        }
        passed += until - at;
        if at / SAID < until / SAID && until < run.count {
            writeln!(say, "{until} inputs agree")?;
        }
        at = until;
    }
    writeln!(say, "{passed} passed, 0 failed")?;
    Ok(true)
}

/// The first of some inputs on which the outputs differ, and how.
fn first_difference(run: &Run, inputs: &[Vec<u8>], subject: Subject<'_>) -> Option<(u64, String)> {
    let own: Vec<Vec<u8>> = inputs.iter().map(|input| own_answer(run.kind, input)).collect();
    let together = subject(&inputs.concat());
    if together.as_ref().is_ok_and(|other| *other == own.concat()) {
        return None;
    }
    // Once more one by one, so that the difference has one input that repeats it.
    for (place, input) in inputs.iter().enumerate() {
        let other = if inputs.len() == 1 { together.clone() } else { subject(input) };
        if let Some(what) = difference("second", &own[place], &run.called, other) {
            return Some((place as u64, what));
        }
    }
    let what = difference("second", &own.concat(), &run.called, together).unwrap_or_default();
    Some((0, format!("only when {} inputs are given at once, this one first\n{what}", inputs.len())))
}

fn own_answer(kind: Kind, input: &[u8]) -> Vec<u8> {
    kind.answer(input).unwrap_or_else(|why| panic!("the generator and the protocol disagree: {why}"))
}

/// The first line in which an output differs from the right one, if any does.
fn difference(right_by: &str, right: &[u8], by: &str, output: Result<Vec<u8>, String>) -> Option<String> {
    let output = match output {
        Err(why) => return Some(format!("{by}: {why}")),
        Ok(output) if output == right => return None,
        Ok(output) => output,
    };
    let (wanted, got) = (lines(right), lines(&output));
    let line = (0..).find(|at| wanted.get(*at) != got.get(*at))?;
    let want = format!("{right_by}, line {}: {}", line + 1, shown(wanted.get(line)));
    Some(format!("{want}\n{by}, line {}: {}", line + 1, shown(got.get(line))))
}

/// A line with its line feed as `\n`, cut where it is long.
fn shown(line: Option<&&[u8]>) -> String {
    match line {
        None => "(no such line)".to_string(),
        Some(line) if line.len() > 400 => format!("{}.. ({} bytes)", line[..400].escape_ascii(), line.len()),
        Some(line) => line.escape_ascii().to_string(),
    }
}

fn say_difference(run: &Run, at: u64, what: &str, say: &mut dyn Write) -> io::Result<()> {
    let (kind, seed, called) = (run.kind.word(), run.seed, &run.called);
    writeln!(say, "difference at input {at} of seed {seed}, kind {kind}\n{what}")?;
    writeln!(say, "to repeat:")?;
    writeln!(say, "    second generate {seed} 1 {kind} --from {at} > difference.{kind}.in")?;
    writeln!(say, "    second {kind} < difference.{kind}.in")?;
    writeln!(say, "    {called} < difference.{kind}.in")?;
    writeln!(say, "to keep it: the input as {}/NAME.{kind}.in,", run.regressions.display())?;
    writeln!(say, "    and the output that the rule asks for as NAME.{kind}.out beside it")
}

/// Another program as a subject: it gets an input on standard input, and its standard output is taken. An end with
/// another status than 0, or none within the seconds given, is an error.
pub fn program(path: OsString, words: Vec<String>, seconds: u64) -> impl FnMut(&[u8]) -> Result<Vec<u8>, String> {
    move |input| run_program(&path, &words, seconds, input)
}

fn run_program(path: &OsString, words: &[String], seconds: u64, input: &[u8]) -> Result<Vec<u8>, String> {
    let mut child = Command::new(path)
        .args(words)
        .stdin(Stdio::piped())
        .stdout(Stdio::piped())
        .spawn()
        .map_err(|why| format!("does not start: {why}"))?;
    let (Some(mut stdin), Some(mut stdout)) = (child.stdin.take(), child.stdout.take()) else {
        return Err("has no standard input or output".to_string());
    };
    let input = input.to_vec();
    // A program may end before it has read everything; what counts is what it wrote.
    let writer = thread::spawn(move || drop(stdin.write_all(&input)));
    let (send, receive) = mpsc::channel();
    let reader = thread::spawn(move || {
        let mut output = Vec::new();
        let read = stdout.read_to_end(&mut output).map(|_| output);
        drop(send.send(read));
    });
    let output = match receive.recv_timeout(Duration::from_secs(seconds)) {
        Ok(output) => output.map_err(|why| format!("its output cannot be read: {why}"))?,
        Err(_) => {
            drop(child.kill());
            drop(child.wait());
            return Err(format!("no end within {seconds} seconds"));
        }
    };
    let status = child.wait().map_err(|why| format!("does not end: {why}"))?;
    drop(writer.join());
    drop(reader.join());
    if status.success() {
        Ok(output)
    } else {
        Err(format!("ended with {status}"))
    }
}
