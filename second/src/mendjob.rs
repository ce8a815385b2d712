//! The mending program of request 1: input bytes to output bytes. "Standard input is what rota
//! reads, with the lines `drawn` (n values parted by tabs) and `most` k after the others, each
//! once"; `drawn` comes first.

use crate::job::{print, take_job, Job};
use crate::mend::{changes, Drawn, MOST_CHANGES};
use crate::rules::{Case, Rules};
use crate::sheet::{fields, number_up_to, Line};

pub fn run(input: &[u8]) -> Vec<u8> {
    print(input, |rules, lines| {
        let Wish { job, drawn, most } = take_wish(rules, lines)?;
        let case = Case { rules, masks: &job.masks, limits: &job.limits };
        let mended = Drawn { case, roster: &drawn }.mended(most);
        Ok(mended.map(|roster| print_mended(&drawn, &roster)))
    })
}

/// "it prints `changes` and the number, then `change` place old new for each changed place, then
/// `roster` and the n values".
fn print_mended(drawn: &[u8], roster: &[u8]) -> String {
    let mut text = format!("changes\t{}\n", changes(drawn, roster));
    for (place, (old, new)) in drawn.iter().zip(roster).enumerate() {
        if old != new {
            text += &format!("change\t{place}\t{old}\t{new}\n");
        }
    }
    let values = roster.iter().map(|value| format!("\t{value}"));
    text + "roster" + &values.collect::<String>() + "\n"
}

/// The job, the drawn roster and the most changes.
struct Wish {
    job: Job,
    drawn: Vec<u8>,
    most: usize,
}

/// The wish of all lines, or the first wrong one, from 1. Where a line is missing, it is the one
/// after the last.
fn take_wish(rules: &Rules, lines: &[Line]) -> Result<Wish, usize> {
    let is_drawn = |line: &Line| line.text.starts_with(b"drawn\t");
    let others = lines.iter().position(is_drawn).unwrap_or(lines.len());
    let job = take_job(rules, &lines[..others])?;
    let ended = |index: usize| lines.get(index).filter(|line| line.ended);
    let drawn = ended(others).and_then(|line| drawn_line(rules, job.masks.len(), line.text));
    let drawn = drawn.ok_or(others + 1)?;
    let most = ended(others + 1).and_then(|line| most_line(line.text)).ok_or(others + 2)?;
    if lines.len() > others + 2 {
        return Err(others + 3);
    }
    Ok(Wish { job, drawn, most })
}

fn drawn_line(rules: &Rules, days: usize, text: &[u8]) -> Option<Vec<u8>> {
    let all = fields(text);
    let [b"drawn", values @ ..] = all.as_slice() else {
        return None;
    };
    let value = |field: &&[u8]| number_up_to(field, rules.values as u64 - 1).map(|v| v as u8);
    let values: Option<Vec<u8>> = values.iter().map(value).collect();
    values.filter(|values| values.len() == days)
}

fn most_line(text: &[u8]) -> Option<usize> {
    let &[b"most", most] = fields(text).as_slice() else {
        return None;
    };
    number_up_to(most, u64::from(MOST_CHANGES)).map(|most| most as usize)
}

#[cfg(test)]
mod tests {
    use super::*;
    use crate::job::MOST_INPUT;
    use crate::samples::{
        RIGHT_MENDS, WRONG_DAYS_LINES, WRONG_DRAWN_LINES, WRONG_JOB_LINES, WRONG_MOST_LINES,
    };
    use crate::worked::W;

    fn print(input: &str) -> String {
        String::from_utf8(run(input.as_bytes())).unwrap()
    }

    fn on_w(job: &str) -> String {
        print(&format!("{W}\n{job}"))
    }

    #[test]
    fn xxd_is_mended_by_one_change() {
        let text = "changes\t1\nchange\t1\t2\t0\nroster\t2\t0\t0\n";
        assert_eq!(on_w("days\t3\ndrawn\t2\t2\t0\nmost\t7\n"), text);
        assert_eq!(on_w("days\t3\ndrawn\t2\t2\t0\nmost\t1\n"), text);
        assert_eq!(on_w("days\t3\ndrawn\t2\t2\t0\nmost\t0\n"), "none\n");
    }

    #[test]
    fn decisions_are_taken_before() {
        let job = "days\t3\nkeep\t1\t6\nlimit\t2\t2\ndrawn\t2\t2\t0\nmost\t7\n";
        assert_eq!(on_w(job), "changes\t1\nchange\t2\t0\t1\nroster\t2\t2\t1\n");
        let none = "days\t3\ndrawn\t1\t2\t2\nmost\t0\n";
        assert_eq!(on_w(none), "changes\t0\nroster\t1\t2\t2\n");
        assert_eq!(on_w("days\t3\nkeep\t0\t0\ndrawn\t2\t2\t0\nmost\t7\n"), "none\n");
    }

    #[test]
    fn the_samples_are_right() {
        for job in RIGHT_MENDS {
            let text = on_w(job);
            assert!(text.starts_with("changes\t") || text == "none\n", "{job:?} {text:?}");
        }
    }

    #[test]
    fn a_missing_line_is_the_one_after_the_last() {
        assert_eq!(on_w(""), "job\t1\n");
        assert_eq!(on_w("days\t3\n"), "job\t2\n");
        assert_eq!(on_w("days\t3\nkeep\t0\t7\n"), "job\t3\n");
        assert_eq!(on_w("days\t3\nkeep\t0\t7\ndrawn\t2\t2\t0\n"), "job\t4\n");
        assert_eq!(on_w("drawn\t2\t2\t0\nmost\t1\n"), "job\t1\n");
        assert_eq!(print(W), "job\t1\n");
        assert_eq!(print(""), "sheet\t1\n");
    }

    #[test]
    fn a_number_out_of_range_in_the_sheet_prints_range_and_the_line() {
        let job = "days\t3\ndrawn\t2\t2\t0\nmost\t7\n";
        assert_eq!(print(&format!("{W}arc\t5\t2\t5\t1001\n\n{job}")), "range\t19\n");
        assert_eq!(print(&format!("{W}arc\t5\t2\t5\tx\n\n{job}")), "sheet\t19\n");
        assert_eq!(print("size\t0"), "range\t1\n");
        assert_eq!(on_w("days\t3\ndrawn\t2\t2\t3\nmost\t7\n"), "job\t2\n");
    }

    #[test]
    fn each_line_comes_once_and_in_its_place() {
        assert_eq!(on_w("days\t3\nmost\t1\ndrawn\t2\t2\t0\n"), "job\t2\n");
        assert_eq!(on_w("days\t3\ndrawn\t2\t2\t0\ndrawn\t2\t2\t0\nmost\t1\n"), "job\t3\n");
        assert_eq!(on_w("days\t3\ndrawn\t2\t2\t0\nkeep\t0\t7\nmost\t1\n"), "job\t3\n");
        let whole = "days\t3\ndrawn\t2\t2\t0\nmost\t1\n";
        for tail in ["\n", "?", "most\t1\n", "keep\t0\t7\n", "keep\t0\t7\n?\n"] {
            assert_eq!(on_w(&format!("{whole}{tail}")), "job\t4\n", "{tail:?}");
        }
    }

    #[test]
    fn wrong_lines_by_form_range_and_line_feed() {
        for line in WRONG_DAYS_LINES {
            assert_eq!(on_w(line), "job\t1\n", "{line:?}");
        }
        let whole = "drawn\t2\t2\t0\nmost\t1\n";
        for line in WRONG_JOB_LINES.iter().filter(|line| line.ends_with('\n')) {
            let job = format!("days\t3\nkeep\t0\t7\n{line}{whole}");
            assert_eq!(on_w(&job), "job\t3\n", "{line:?}");
        }
        for line in WRONG_DRAWN_LINES {
            let job = format!("days\t3\nkeep\t0\t7\n{line}");
            assert_eq!(on_w(&job), "job\t3\n", "{line:?}");
        }
        for line in WRONG_MOST_LINES {
            let job = format!("days\t3\ndrawn\t2\t2\t0\n{line}");
            assert_eq!(on_w(&job), "job\t3\n", "{line:?}");
        }
    }

    #[test]
    fn the_513th_decision_and_the_two_lines_behind_512() {
        let full = "days\t3\n".to_owned() + &"keep\t0\t7\n".repeat(512);
        let wish = "drawn\t2\t2\t0\nmost\t1\n";
        assert!(on_w(&format!("{full}{wish}")).starts_with("changes\t1\n"));
        assert_eq!(on_w(&format!("{full}keep\t0\t7\n{wish}")), "job\t514\n");
        assert_eq!(on_w(&full), "job\t514\n");
    }

    #[test]
    fn input_over_32768_bytes_is_long() {
        assert_eq!(print(&"?".repeat(MOST_INPUT)), "sheet\t1\n");
        assert_eq!(print(&"?".repeat(MOST_INPUT + 1)), "long\n");
    }
}
