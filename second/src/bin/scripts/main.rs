//! Scripts of calls for the proved library, with the lines that they must print.
//!
//! - `scripts write SEED COUNT SCRIPT ANSWERS` writes one script and its lines to two files.
//! - `scripts compare SEED COUNT PROGRAM [ARGUMENT...]` has a program carry such scripts out
//!   and compares what it prints. The last line is `N passed, M failed`.
//! - `scripts only KIND SEED COUNT PROGRAM [ARGUMENT...]` does the same with random cases of
//!   one kind alone.
//! - `scripts tally SEED COUNT` tells what `only sheets SEED COUNT` reads: how many sheets are
//!   damaged, how many of these have a number out of range, and what readings come to.
//!
//! The first two begin with the fixed cases and go on with random ones from the seed. All make
//! at least COUNT calls.

mod compare;

use second::script::{Script, MOST_BYTES};
use second::scripts::tally::{tally, Tally};
use second::scripts::Cases;
use std::process::ExitCode;
use std::{env, fs, io};

const USAGE: &str = "usage: scripts write SEED COUNT SCRIPT ANSWERS\n       \
    scripts compare SEED COUNT PROGRAM [ARGUMENT...]\n       \
    scripts only KIND SEED COUNT PROGRAM [ARGUMENT...]\n       \
    scripts tally SEED COUNT";

fn main() -> ExitCode {
    let arguments: Vec<String> = env::args().skip(1).collect();
    let done = match arguments.iter().map(String::as_str).collect::<Vec<_>>().as_slice() {
        ["write", seed, count, script, answers] => {
            cases(seed, count).map(|cases| write(cases, script, answers))
        }
        ["compare", seed, count, program, rest @ ..] => {
            cases(seed, count).map(|cases| compare::compare(cases, program, rest))
        }
        ["only", kind, seed, count, program, rest @ ..] => {
            cases_of(kind, seed, count).map(|cases| compare::compare(cases, program, rest))
        }
        ["tally", seed, count] => seed_and_count(seed, count).map(|(seed, count)| {
            print_tally(&tally(seed, count));
            Ok(true)
        }),
        _ => None,
    };
    match done {
        Some(Ok(all_right)) => ExitCode::from(u8::from(!all_right)),
        Some(Err(error)) => {
            eprintln!("scripts: {error}");
            ExitCode::FAILURE
        }
        None => {
            eprintln!("{USAGE}");
            ExitCode::from(2)
        }
    }
}

fn seed_and_count(seed: &str, count: &str) -> Option<(u64, usize)> {
    Some((seed.parse().ok()?, count.parse().ok()?))
}

fn cases(seed: &str, count: &str) -> Option<Cases> {
    seed_and_count(seed, count).map(|(seed, count)| Cases::new(seed, count))
}

fn cases_of(kind: &str, seed: &str, count: &str) -> Option<Cases> {
    seed_and_count(seed, count).and_then(|(seed, count)| Cases::only(kind, seed, count))
}

fn print_tally(tally: &Tally) {
    let Tally { readings, damaged, outside, came_to } = tally;
    println!("{readings} readings, {damaged} of a damaged sheet");
    println!("{outside} damaged sheets with a number out of range");
    came_to.iter().for_each(|(came_to, count)| println!("read: {came_to} in {count} calls"));
}

/// Writes one script of all the cases, and the lines that it must print.
fn write(mut cases: Cases, script_file: &str, answers_file: &str) -> io::Result<bool> {
    let mut script = Script::default();
    while cases.add_next(&mut script) {}
    if script.bytes() > MOST_BYTES {
        return Err(io::Error::other(format!(
            "more than {MOST_BYTES} bytes; take a smaller COUNT"
        )));
    }
    let lines: String = script.printed().map(|printed| format!("{}\n", printed.line)).collect();
    fs::write(script_file, script.text())?;
    fs::write(answers_file, &lines)?;
    println!("{} calls, {} and {} bytes", script.calls(), script.bytes(), lines.len());
    Ok(true)
}
