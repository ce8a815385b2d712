//! Scripts carried out by another program, and what it prints held against what it must print.

use second::script::{CameTo, Case, Printed, Script};
use second::scripts::Cases;
use std::collections::BTreeMap;
use std::io::{self, Read, Write};
use std::process::{Command, Stdio};
use std::thread;

/// A script is carried out once it has as many bytes.
const ENOUGH_BYTES: usize = 400_000;
const DIFFERENCES_PRINTED: usize = 3;
/// The most lines of a case that are printed with a difference.
const LINES_PRINTED: usize = 60;

/// Whether a program prints what it must, told on standard output.
pub fn compare(mut cases: Cases, program: &str, arguments: &[&str]) -> io::Result<bool> {
    let mut watch = Watch::default();
    loop {
        let mut script = Script::default();
        while script.bytes() < ENOUGH_BYTES && cases.add_next(&mut script) {}
        if script.cases().is_empty() {
            break;
        }
        let mut command = Command::new(program);
        let (printed, ended_well) = run(command.args(arguments), script.text())
            .map_err(|error| io::Error::other(format!("{program}: {error}")))?;
        watch.hold_against(&script, &printed);
        if !ended_well {
            watch.fail("the program ended with a failure");
        }
    }
    watch.print_tally();
    println!("{} cases", watch.cases);
    println!("{} passed, {} failed", watch.passed, watch.failed);
    Ok(watch.failed == 0)
}

/// What a program prints with this input, and whether it ended well. It may end without having
/// read all of it: then lines are missing, which the comparison sees.
fn run(command: &mut Command, input: Vec<u8>) -> io::Result<(Vec<u8>, bool)> {
    let mut child = command.stdin(Stdio::piped()).stdout(Stdio::piped()).spawn()?;
    let mut stdin = child.stdin.take().expect("standard input is a pipe");
    let mut stdout = child.stdout.take().expect("standard output is a pipe");
    let writer = thread::spawn(move || stdin.write_all(&input));
    let mut printed = Vec::new();
    stdout.read_to_end(&mut printed)?;
    let ended_well = child.wait()?.success();
    match writer.join().expect("writing does not panic") {
        Err(error) if error.kind() != io::ErrorKind::BrokenPipe => Err(error),
        _ => Ok((printed, ended_well)),
    }
}

/// What has been seen so far.
#[derive(Default)]
struct Watch {
    cases: usize,
    passed: usize,
    failed: usize,
    /// How often each call came to each result.
    tally: BTreeMap<(&'static str, CameTo), usize>,
}

impl Watch {
    fn hold_against(&mut self, script: &Script, printed: &[u8]) {
        let mut lines = printed.split_inclusive(|byte| *byte == b'\n');
        self.cases += script.cases().len();
        for case in script.cases() {
            for expected in &case.printed {
                self.hold_line(case, expected, lines.next());
            }
        }
        for line in lines {
            self.fail(&format!("a line too many: {}", line.escape_ascii()));
        }
    }

    /// A line that no call printed counts only if it is wrong.
    fn hold_line(&mut self, case: &Case, expected: &Printed, line: Option<&[u8]>) {
        if let Some(call) = &expected.call {
            *self.tally.entry(call.clone()).or_default() += 1;
        }
        let should = format!("{}\n", expected.line);
        if line == Some(should.as_bytes()) {
            self.passed += usize::from(expected.call.is_some());
            return;
        }
        let is = line.map_or("nothing more".to_owned(), |line| line.escape_ascii().to_string());
        let (name, should) = (&case.name, should.escape_default());
        let lines = last_lines(&case.text[..expected.end]);
        self.fail(&format!("{name}:\n  printed   {is}\n  should be {should}{lines}"));
    }

    /// Only the first failures are described.
    fn fail(&mut self, description: &str) {
        self.failed += 1;
        if self.failed <= DIFFERENCES_PRINTED {
            println!("{description}");
        }
    }

    fn print_tally(&self) {
        for ((call, came_to), count) in &self.tally {
            println!("{call}: {came_to} in {count} calls");
        }
    }
}

/// The lines of a case up to a difference, such that bytes that do not print can be read; of
/// many lines the last ones.
fn last_lines(text: &[u8]) -> String {
    let lines: Vec<&[u8]> = text.split_inclusive(|byte| *byte == b'\n').collect();
    let left_out = lines.len().saturating_sub(LINES_PRINTED);
    let more = if left_out > 0 { format!("\n    ({left_out} lines)") } else { String::new() };
    let last = lines[left_out..].iter().map(|line| format!("\n    {}", line.escape_ascii()));
    last.fold(more, |all, line| all + &line)
}
