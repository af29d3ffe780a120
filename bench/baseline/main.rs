//! The work of `gedtool` in plain Rust: only std, no `unsafe`, written for speed, without proofs.
//!
//! `baseline lines|flatten|check|show|canon [FILE]` and `baseline same A [B]` read files, or standard input, whole
//! and answer what `gedtool` answers: `lines` writes the lines of a file in their one spelling, `check` tells
//! whether it is accepted and what is unusual in it, `show` lists its structures with their kinds, `canon` writes
//! its canonical form, `same` compares the canonical forms of two files. `flatten`, which `gedtool` has not, reads
//! the table that the others stand on and counts what is in it. With `--strict` what `check` would notice is a
//! fault; with `--second` the canonical form is that of the second edition, which drops leading zeros.
//!
//! A fault is told on standard error, and nothing is written then. The status is 0, 1 for a fault of a file or for
//! files that differ, 2 for wrong words, 3 where reading or writing failed.

mod canon;
mod check;
mod dates;
mod faults;
mod flat;
mod line;
mod lines;
mod links;
mod names;
mod scan;
mod tables;
mod tags;
mod values;

use faults::{Fault, FaultAt};
use std::env;
use std::ffi::OsString;
use std::fs::File;
use std::io::{self, Read, Write};
use std::process::ExitCode;
use tables::Tables;

const USAGE: &str = "usage: baseline lines|flatten|check|show|canon [--strict] [--second] [FILE]
       baseline same [--strict] [--second] A [B]
`--strict` is for check, show, canon and same, `--second` for canon and same.";

/// The most bytes that a file may have.
const LIMIT: u64 = 1 << 30;

/// What the command line asks for.
struct Request {
    command: String,
    strict: bool,
    second: bool,
    files: Vec<String>,
}

/// How a run ended: well, with files that differ, or with a fault, which may be one of two files'.
enum Outcome {
    Done,
    Different,
    Failed(&'static str, Failure),
}

/// A fault of a file, or of reading and writing.
enum Failure {
    InFile(FaultAt),
    Device(Fault),
}

fn main() -> ExitCode {
    let words: Vec<OsString> = env::args_os().skip(1).collect();
    if words.iter().any(|word| word == "--help" || word == "-h") {
        println!("{USAGE}");
        return ExitCode::SUCCESS;
    }
    let Some(request) = read_words(words) else {
        tell(USAGE);
        return ExitCode::from(2);
    };
    let outcome = if request.command == "same" { run_same(&request) } else { run(&request) };
    match outcome.unwrap_or_else(|(which, failure)| Outcome::Failed(which, failure)) {
        Outcome::Done => ExitCode::SUCCESS,
        Outcome::Different => ExitCode::from(1),
        Outcome::Failed(which, Failure::InFile(fault)) => {
            tell(&format!("{which}{fault}"));
            ExitCode::from(1)
        }
        Outcome::Failed(which, Failure::Device(fault)) => {
            tell(&format!("{which}fault {}: {fault:?}", fault as u8));
            ExitCode::from(3)
        }
    }
}

/// Writes a line on standard error. If that fails nothing more can be done.
fn tell(line: &str) {
    let _ = writeln!(io::stderr(), "{line}");
}

/// What the words ask for; none if they are wrong or aren't text.
fn read_words(words: Vec<OsString>) -> Option<Request> {
    let words = words.into_iter().map(|word| word.into_string().ok()).collect::<Option<Vec<String>>>()?;
    let (command, words) = words.split_first()?;
    let mut request = Request { command: command.clone(), strict: false, second: false, files: Vec::new() };
    let mut words = words.iter();
    while let Some(word) = words.next() {
        match word.as_str() {
            "--strict" if !request.strict => request.strict = true,
            "--second" if !request.second => request.second = true,
            "--" => request.files.extend(words.by_ref().cloned()),
            _ if word.starts_with('-') && word != "-" => return None,
            _ => request.files.push(word.clone()),
        }
    }
    let Request { strict, second, .. } = request;
    let files = request.files.len();
    let is_right = match command.as_str() {
        "lines" | "flatten" => !strict && !second && files <= 1,
        "check" | "show" => !second && files <= 1,
        "canon" => files <= 1,
        "same" => files == 1 || files == 2,
        _ => false,
    };
    is_right.then_some(request)
}

type Ended = Result<Outcome, (&'static str, Failure)>;

fn run(request: &Request) -> Ended {
    let bytes = open(request.files.first()).and_then(read_whole).map_err(|failure| ("", failure))?;
    let answer = answer(request, &bytes).map_err(|fault| ("", Failure::InFile(fault)))?;
    write(&answer).map_err(|failure| ("", failure))?;
    Ok(Outcome::Done)
}

/// The bytes that a command on one file writes.
fn answer(request: &Request, bytes: &[u8]) -> Result<Vec<u8>, FaultAt> {
    if request.command == "lines" {
        return lines::respell(bytes);
    }
    let tables = Tables::new();
    match request.command.as_str() {
        "flatten" => flat::flatten(bytes, &tables.tags).map(|flat| {
            let (structures, further) = (flat.size(), flat.further_count());
            format!("{structures} structures, {further} further lines\n").into_bytes()
        }),
        "check" => check::accept(&tables, bytes, request.strict).map(check::report),
        "show" => check::accept(&tables, bytes, request.strict).map(|accepted| check::show(&tables, &accepted)),
        _ => canon::canonicalise(&tables, bytes, request.strict, request.second),
    }
}

/// Opens both files before it reads either, and reads both before it judges either.
fn run_same(request: &Request) -> Ended {
    let (first, second) = ("first file: ", "second file: ");
    let one = open(request.files.first()).map_err(|failure| (first, failure))?;
    let other = open(request.files.get(1)).map_err(|failure| (second, failure))?;
    let one = read_whole(one).map_err(|failure| (first, failure))?;
    let other = read_whole(other).map_err(|failure| (second, failure))?;
    let tables = Tables::new();
    // A file that is judged is dropped.
    let canonical = |bytes: Vec<u8>| canon::canonicalise(&tables, &bytes, request.strict, request.second);
    let one = canonical(one).map_err(|fault| (first, Failure::InFile(fault)))?;
    let other = canonical(other).map_err(|fault| (second, Failure::InFile(fault)))?;
    let (word, outcome) = if one == other { ("same\n", Outcome::Done) } else { ("different\n", Outcome::Different) };
    write(word.as_bytes()).map_err(|failure| ("", failure))?;
    Ok(outcome)
}

/// A file, or standard input, and how many bytes are likely to come.
fn open(path: Option<&String>) -> Result<(Box<dyn Read>, u64), Failure> {
    let Some(path) = path else {
        return Ok((Box::new(io::stdin()), 0));
    };
    let file = File::open(path).map_err(|_| Failure::Device(Fault::ReadFailed))?;
    let bytes = file.metadata().map_or(0, |metadata| metadata.len());
    Ok((Box::new(file), bytes))
}

fn read_whole((source, likely): (Box<dyn Read>, u64)) -> Result<Vec<u8>, Failure> {
    let mut bytes = Vec::with_capacity(likely.min(LIMIT) as usize + 1);
    source.take(LIMIT + 1).read_to_end(&mut bytes).map_err(|_| Failure::Device(Fault::ReadFailed))?;
    if bytes.len() as u64 > LIMIT {
        return Err(Failure::Device(Fault::TooLong));
    }
    Ok(bytes)
}

fn write(answer: &[u8]) -> Result<(), Failure> {
    let mut output = io::stdout().lock();
    output.write_all(answer).and_then(|()| output.flush()).map_err(|_| Failure::Device(Fault::WriteFailed))
}
