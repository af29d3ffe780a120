//! `measure ROUNDS FILE.. -- NAME PROGRAM WORD.. -- NAME PROGRAM WORD..` runs each program on each file, with the
//! file's name after its words, and for each `{}` in a word that name, and its output thrown away, and prints a table
//! of what each took. Before a program may stand the variables that are set for it, each as `VARIABLE=VALUE`.
//!
//! All runs are interleaved: a round runs every command on every file once, so that other work on the machine
//! falls on all of them alike. CPU time (user and system) is the best of the rounds, peak memory the greatest.
//! Ratios are to the command named `wc -l`, and to those whose names begin with `baseline` and `before` and end with the
//! same word as the program's own, where there are such.

use std::env;
use std::fs;
use std::io::{Error, Result};
use std::process::{Command, Stdio};

/// `struct rusage` of 64-bit Linux.
#[repr(C)]
#[derive(Default)]
struct Usage {
    user: [i64; 2],
    system: [i64; 2],
    max_resident_kib: i64,
    others: [i64; 13],
}

extern "C" {
    fn wait4(process: i32, status: *mut i32, options: i32, usage: *mut Usage) -> i32;
}

/// What one run took, or the best of several.
#[derive(Clone, Copy)]
struct Cost {
    cpu_seconds: f64,
    peak_bytes: u64,
}

struct Tool<'a> {
    name: &'a str,
    variables: &'a [String],
    program: &'a str,
    words: &'a [String],
}

struct Input {
    path: String,
    bytes: u64,
}

fn main() -> Result<()> {
    let words: Vec<String> = env::args().skip(1).collect();
    let (rounds, files, tools) =
        read_words(&words).ok_or_else(|| Error::other("usage: measure ROUNDS FILE.. -- NAME PROGRAM WORD.. -- .."))?;
    let inputs = files.iter().map(|path| Ok(Input { path: path.clone(), bytes: fs::metadata(path)?.len() }));
    let inputs: Vec<Input> = inputs.collect::<Result<_>>()?;
    let mut costs = vec![vec![Cost { cpu_seconds: f64::MAX, peak_bytes: 0 }; tools.len()]; inputs.len()];
    for _ in 0..rounds {
        for (input, costs) in inputs.iter().zip(&mut costs) {
            for (tool, cost) in tools.iter().zip(costs) {
                let run = run(tool, input)?;
                cost.cpu_seconds = cost.cpu_seconds.min(run.cpu_seconds);
                cost.peak_bytes = cost.peak_bytes.max(run.peak_bytes);
            }
        }
    }
    print_table(&inputs, &tools, &costs);
    Ok(())
}

fn read_words(words: &[String]) -> Option<(usize, &[String], Vec<Tool<'_>>)> {
    let mut groups = words.split(|word| word == "--");
    let (rounds, files) = groups.next()?.split_first()?;
    let tools = groups.map(|group| {
        let (name, words) = group.split_first()?;
        let (variables, words) = words.split_at(words.iter().take_while(|word| word.contains('=')).count());
        let (program, words) = words.split_first()?;
        Some(Tool { name, variables, program, words })
    });
    Some((rounds.parse().ok()?, files, tools.collect::<Option<_>>()?))
}

/// Runs the tool once on the file. A status other than 0 and 1 (a fault of the file) is an error.
fn run(tool: &Tool<'_>, input: &Input) -> Result<Cost> {
    let child = Command::new(tool.program)
        .envs(tool.variables.iter().filter_map(|each| each.split_once('=')))
        .args(tool.words.iter().map(|word| word.replace("{}", &input.path)))
        .arg(&input.path)
        .stdin(Stdio::null())
        .stdout(Stdio::null())
        .stderr(Stdio::null())
        .spawn()?;
    let process = i32::try_from(child.id()).map_err(Error::other)?;
    let (mut status, mut usage) = (0, Usage::default());
    // SAFETY: both pointers are to live values of the layouts that wait4 fills; the child is ours and not yet waited for.
    if unsafe { wait4(process, &mut status, 0, &mut usage) } != process {
        return Err(Error::last_os_error());
    }
    if status != 0 && status != 1 << 8 {
        return Err(Error::other(format!("{} ended with wait status {status} on {}", tool.name, input.path)));
    }
    let seconds = |time: [i64; 2]| time[0] as f64 + time[1] as f64 / 1e6;
    Ok(Cost {
        cpu_seconds: seconds(usage.user) + seconds(usage.system),
        peak_bytes: usage.max_resident_kib as u64 * 1024,
    })
}

fn print_table(inputs: &[Input], tools: &[Tool<'_>], costs: &[Vec<Cost>]) {
    let has_before = tools.iter().any(|tool| tool.name.starts_with("before "));
    let (title, rule) = if has_before { (" / before |", "---:|") } else { ("", "") };
    println!("| file | MB | tool | CPU s | ns/byte | / wc -l | / baseline |{title} peak MB | peak / file |");
    println!("|---|---:|---|---:|---:|---:|---:|{rule}---:|---:|");
    for (input, costs) in inputs.iter().zip(costs) {
        let name = input.path.rsplit('/').next().unwrap_or(&input.path);
        for (tool, cost) in tools.iter().zip(costs) {
            let ratio = |other: Option<usize>| {
                other.map_or(String::new(), |place| format!("{:.2}", cost.cpu_seconds / costs[place].cpu_seconds))
            };
            let bytes = input.bytes as f64;
            let before = match has_before {
                true => format!(" {} |", ratio(twin_of("before ", tool, tools))),
                false => String::new(),
            };
            println!(
                "| {name} | {:.1} | {} | {:.4} | {:.2} | {} | {} |{before} {:.1} | {:.2} |",
                bytes / 1e6,
                tool.name,
                cost.cpu_seconds,
                cost.cpu_seconds * 1e9 / bytes,
                ratio(tools.iter().position(|other| other.name == "wc -l")),
                ratio(twin_of("baseline ", tool, tools)),
                cost.peak_bytes as f64 / 1e6,
                cost.peak_bytes as f64 / bytes,
            );
        }
    }
}

/// The place of the tool whose name begins so and ends with the same word, as `baseline check` for `gedtool check`.
fn twin_of(start: &str, tool: &Tool<'_>, tools: &[Tool<'_>]) -> Option<usize> {
    let work = |name: &str| name.rsplit(' ').next() == tool.name.rsplit(' ').next();
    tools.iter().position(|other| other.name.starts_with(start) && work(other.name))
}
