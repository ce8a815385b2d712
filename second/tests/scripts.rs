//! `scripts` as a program: what it writes, and what it says of programs that print the right
//! lines, too few, too many or other ones. Plain commands that print a file stand in for these.

use std::path::{Path, PathBuf};
use std::process::{Command, Output};
use std::{env, fs};

fn scripts(arguments: &[&str]) -> Output {
    Command::new(env!("CARGO_BIN_EXE_scripts")).args(arguments).output().unwrap()
}

/// The files of the fixed cases alone, written for one test.
struct Written {
    script: PathBuf,
    answers: PathBuf,
}

impl Written {
    fn for_test(name: &str) -> Written {
        let folder = Path::new(env!("CARGO_TARGET_TMPDIR"));
        let script = folder.join(format!("{name}.script"));
        let answers = folder.join(format!("{name}.answers"));
        let written =
            scripts(&["write", "1", "0", script.to_str().unwrap(), answers.to_str().unwrap()]);
        assert!(written.status.success(), "{written:?}");
        Written { script, answers }
    }

    fn lines(&self) -> usize {
        fs::read_to_string(&self.answers).unwrap().lines().count()
    }

    /// Compares with a command that is given the file of answers last.
    fn compare(&self, command: &[&str]) -> (bool, String) {
        let answers = self.answers.to_str().unwrap();
        let compared = scripts(&[&["compare", "1", "0"], command, &[answers]].concat());
        (compared.status.success(), String::from_utf8(compared.stdout).unwrap())
    }
}

/// The two numbers of the last line.
fn passed_and_failed(text: &str) -> (usize, usize) {
    let fields: Vec<&str> = text.lines().last().unwrap().split(' ').collect();
    let [passed, "passed,", failed, "failed"] = fields[..] else {
        panic!("{fields:?}");
    };
    (passed.parse().unwrap(), failed.parse().unwrap())
}

#[test]
fn a_script_is_carried_out_by_what_prints_its_lines() {
    let written = Written::for_test("right");
    let script = fs::read(&written.script).unwrap();
    assert!(script.starts_with(b"#\tK1\nsize\t1\t6\t3\t0\t61\n"));
    let (right, text) = written.compare(&["cat"]);
    let (passed, failed) = passed_and_failed(&text);
    assert!(right && failed == 0 && passed > 4_000, "{text}");
    assert!(text.contains("\nfilter: answer 11 in "), "{text}");
}

#[test]
fn a_line_changed_is_one_failure_told_with_its_case() {
    let (right, text) = Written::for_test("changed").compare(&["sed", "3s/7/6/"]);
    assert!(!right);
    assert_eq!(passed_and_failed(&text).1, 1);
    let told = "K3:\n  printed   filter\\t0\\t2\\tkept\\t6\\t7\\t7\\n\n  \
        should be filter\\t0\\t2\\tkept\\t7\\t7\\t7\\n\n";
    assert!(text.starts_with(told), "{text}");
}

#[test]
fn lines_that_are_missing_or_too_many_are_failures() {
    let written = Written::for_test("count");
    let (right, text) = written.compare(&["head", "-n", "10"]);
    assert!(!right);
    assert_eq!(passed_and_failed(&text), (10, written.lines() - 10));
    let answers = written.answers.to_str().unwrap();
    let (right, text) = written.compare(&["cat", answers]);
    assert!(!right);
    assert_eq!(passed_and_failed(&text).1, written.lines());
}

#[test]
fn a_program_that_fails_after_all_lines_is_a_failure() {
    let (right, text) = Written::for_test("fails").compare(&["sh", "-c", "cat $0; exit 3"]);
    assert!(!right);
    assert_eq!(passed_and_failed(&text).1, 1);
}

/// The tally is of the readings that are compared.
#[test]
fn a_tally_comes_to_the_same_answers_as_a_comparison() {
    let answers = |arguments: &[&str]| {
        let text = String::from_utf8(scripts(arguments).stdout).unwrap();
        let lines = text.lines().filter(|line| line.starts_with("read: answer "));
        lines.map(str::to_owned).collect::<Vec<_>>()
    };
    let counted = answers(&["tally", "5", "600"]);
    assert_eq!(counted.len(), 4, "{counted:?}");
    assert_eq!(counted, answers(&["only", "sheets", "5", "600", "true"]));
}

#[test]
fn wrong_arguments_are_told() {
    let no_kind = &["only", "none", "1", "1", "cat"];
    let no_count = &["tally", "1"];
    for arguments in [&["write", "1"][..], &["compare", "x", "1", "cat"], no_kind, no_count, &[]] {
        assert_eq!(scripts(arguments).status.code(), Some(2), "{arguments:?}");
    }
}
