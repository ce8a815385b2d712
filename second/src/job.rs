//! The program of the paper: input bytes to output bytes.

use crate::rules::{Case, Found, Rules, MOST_LIMIT};
use crate::sheet::{self, fields, lines, number_up_to, parse, Fault, Line};
use crate::tables;

/// "Input over 32,768 bytes prints `long`."
pub const MOST_INPUT: usize = 32_768;
/// "n (1 to 128 here)".
const MOST_DAYS: u64 = 128;
/// "then up to 512 lines".
const MOST_DECISIONS: usize = 512;

/// Why a program did not come to its work.
enum Wrong {
    Long,
    Sheet(sheet::Wrong),
    Job(usize),
}

/// The masks and limits with all lines taken.
pub struct Job {
    pub masks: Vec<u16>,
    pub limits: Vec<u32>,
}

pub fn run(input: &[u8]) -> Vec<u8> {
    print(input, |rules, lines| {
        let Job { masks, limits } = take_job(rules, lines)?;
        let found = tables::filter(&Case { rules, masks: &masks, limits: &limits });
        Ok(found.map(|found| print_found(&found)))
    })
}

fn print_found(found: &Found) -> String {
    let kept = found.kept.iter().enumerate();
    let kept: String = kept.map(|(place, mask)| format!("kept\t{place}\t{mask}\n")).collect();
    format!("{kept}least\t{}\n", found.least)
}

/// What a program prints for an input. Its work is handed the rules and the lines of the job, and
/// gives a text, or none where no roster is allowed, or the number of the first wrong line.
pub fn print(
    input: &[u8],
    work: impl FnOnce(&Rules, &[Line]) -> Result<Option<String>, usize>,
) -> Vec<u8> {
    let text = match worked(input, work) {
        Ok(Some(text)) => text,
        Ok(None) => "none\n".to_owned(),
        Err(Wrong::Long) => "long\n".to_owned(),
        Err(Wrong::Sheet(wrong)) => print_wrong(wrong),
        Err(Wrong::Job(line)) => format!("job\t{line}\n"),
    };
    text.into_bytes()
}

/// "a wrong sheet prints `sheet` and the line"; where a number is out of range "the program prints
/// `range` and the line".
fn print_wrong(wrong: sheet::Wrong) -> String {
    let word = if wrong.fault == Fault::Range { "range" } else { "sheet" };
    format!("{word}\t{}\n", wrong.line)
}

fn worked(
    input: &[u8],
    work: impl FnOnce(&Rules, &[Line]) -> Result<Option<String>, usize>,
) -> Result<Option<String>, Wrong> {
    if input.len() > MOST_INPUT {
        return Err(Wrong::Long);
    }
    let (sheet, job) = part(input);
    let rules = parse(sheet).map_err(Wrong::Sheet)?;
    // "with none and a right sheet, it prints `job` and 1".
    let job = job.ok_or(Wrong::Job(1))?;
    work(&rules, &lines(job)).map_err(Wrong::Job)
}

/// "The sheet is what stands before the first empty line, or all the input if there is none."
fn part(input: &[u8]) -> (&[u8], Option<&[u8]>) {
    let is_empty_line = |at: &usize| input[*at] == b'\n' && (*at == 0 || input[at - 1] == b'\n');
    match (0..input.len()).find(is_empty_line) {
        Some(at) => (&input[..at], Some(&input[at + 1..])),
        None => (input, None),
    }
}

/// The job of all lines, or the first wrong one, from 1.
pub fn take_job(rules: &Rules, lines: &[Line]) -> Result<Job, usize> {
    // "a missing line counts as wrong".
    let first = lines.first().filter(|line| line.ended).ok_or(1_usize)?;
    let days = days_line(first.text).ok_or(1_usize)?;
    // "All masks start full, all limits at 366,000."
    let mut job = Job { masks: vec![rules.full_mask(); days], limits: vec![MOST_LIMIT; days] };
    for (index, line) in lines.iter().enumerate().skip(1) {
        let lawful = line.ended && index <= MOST_DECISIONS;
        let taken = if lawful { job.take(rules, line.text) } else { None };
        taken.ok_or(index + 1)?;
    }
    Ok(job)
}

fn days_line(text: &[u8]) -> Option<usize> {
    let &[b"days", days] = fields(text).as_slice() else {
        return None;
    };
    number_up_to(days, MOST_DAYS).filter(|days| *days >= 1).map(|days| days as usize)
}

impl Job {
    /// "lines `keep` place mask or `limit` place cost".
    fn take(&mut self, rules: &Rules, text: &[u8]) -> Option<()> {
        match *fields(text).as_slice() {
            [b"keep", place, mask] => {
                let place = self.place(place)?;
                let mask = number_up_to(mask, u64::from(rules.full_mask()))?;
                self.masks[place] &= mask as u16;
            }
            [b"limit", place, cost] => {
                let place = self.place(place)?;
                let cost = number_up_to(cost, u64::from(u32::MAX))? as u32;
                self.limits[place] = self.limits[place].min(cost);
            }
            _ => return None,
        }
        Some(())
    }

    fn place(&self, field: &[u8]) -> Option<usize> {
        number_up_to(field, self.masks.len() as u64 - 1).map(|place| place as usize)
    }
}

#[cfg(test)]
mod tests {
    use super::*;
    use crate::samples::{WRONG_DAYS_LINES, WRONG_JOB_LINES, WRONG_LATER_LINES, WRONG_SIZE_LINES};
    use crate::worked::W;

    fn print(input: &str) -> String {
        String::from_utf8(run(input.as_bytes())).unwrap()
    }

    /// What is printed for W, the empty line and these job lines.
    fn on_w(job: &str) -> String {
        print(&format!("{W}\n{job}"))
    }

    #[test]
    fn the_papers_example_byte_for_byte() {
        assert_eq!(on_w("days\t3\nkeep\t1\t1\n"), "kept\t0\t5\nkept\t1\t1\nkept\t2\t5\nleast\t2\n");
    }

    #[test]
    fn limits_meet_and_the_smaller_stands() {
        let job = "days\t3\nlimit\t1\t1\nlimit\t1\t4294967295\n";
        assert_eq!(on_w(job), "kept\t0\t4\nkept\t1\t5\nkept\t2\t3\nleast\t2\n");
    }

    #[test]
    fn p1_the_first_empty_line_and_the_empty_sheet() {
        assert_eq!(print(""), "sheet\t1\n");
        assert_eq!(print("\n"), "sheet\t1\n");
        assert_eq!(print(&format!("\n{W}\ndays\t3\n")), "sheet\t1\n");
    }

    #[test]
    fn p2_w_alone_has_no_empty_line() {
        assert_eq!(print(W), "job\t1\n");
        assert_eq!(print(W.trim_end()), "sheet\t18\n");
    }

    #[test]
    fn p3_missing_and_empty_job_lines() {
        assert_eq!(on_w(""), "job\t1\n");
        assert_eq!(on_w("\n"), "job\t1\n");
        assert_eq!(on_w("\ndays\t3\n"), "job\t1\n");
        assert_eq!(on_w("days\t3\n\n"), "job\t2\n");
    }

    #[test]
    fn p4_days_without_the_empty_line_is_a_sheet_line() {
        assert_eq!(print(&format!("{W}days\t3\n")), "sheet\t19\n");
        assert_eq!(print(&format!("{W}days\t3\n\ndays\t3\n")), "sheet\t19\n");
    }

    #[test]
    fn a_number_out_of_range_in_the_sheet_prints_range_and_the_line() {
        assert_eq!(print("size\t6\t3\t6\n\ndays\t3\n"), "range\t1\n");
        assert_eq!(print("size\t6\t3\t6"), "range\t1\n");
        assert_eq!(print(&format!("{W}arc\t5\t2\t6\t0\n\ndays\t3\n")), "range\t19\n");
        assert_eq!(print(&format!("{W}arc\t5\t2\t6\t0")), "range\t19\n");
        assert_eq!(print(&format!("{W}arc\t5\t1\t5\t0\n\ndays\t3\n")), "sheet\t19\n");
        // The sheet comes before the job, and of a job line it is only told that it is wrong.
        assert_eq!(print("size\t65\t3\t0\n\ndays\t0\n"), "range\t1\n");
        assert_eq!(on_w("days\t129\n"), "job\t1\n");
    }

    #[test]
    fn wrong_sheets_print_by_their_answer() {
        let word = |answer: u32| if answer == 13 { "range" } else { "sheet" };
        for (text, answer) in WRONG_SIZE_LINES {
            assert_eq!(print(text), format!("{}\t1\n", word(*answer)), "{text:?}");
        }
        // An empty line ends the sheet and is no line of it.
        for (line, answer) in WRONG_LATER_LINES.iter().filter(|(line, _)| *line != "\n") {
            let text = format!("size\t6\t3\t0\n{line}");
            assert_eq!(print(&text), format!("{}\t2\n", word(*answer)), "{text:?}");
        }
    }

    #[test]
    fn p5_the_513th_decision() {
        let full = "days\t3\n".to_owned() + &"keep\t0\t7\n".repeat(512);
        assert!(on_w(&full).starts_with("kept\t0\t7\n"));
        assert_eq!(on_w(&format!("{full}keep\t0\t7\n")), "job\t514\n");
        assert_eq!(on_w(&format!("{full}?")), "job\t514\n");
        let early = "days\t3\nkeep\n".to_owned() + &"keep\t0\t7\n".repeat(600);
        assert_eq!(on_w(&early), "job\t2\n");
    }

    #[test]
    fn p6_a_carriage_return_is_no_line_end() {
        let text = format!("{W}\ndays\t3\n").replace('\n', "\r\n");
        assert_eq!(print(&text), "sheet\t1\n");
        assert_eq!(print(&format!("{W}\r\ndays\t3\n")), "sheet\t19\n");
    }

    #[test]
    fn p7_none_is_printed_only_if_no_line_is_wrong() {
        assert_eq!(on_w("days\t3\nkeep\t0\t0\n"), "none\n");
        assert_eq!(on_w("days\t3\nkeep\t0\t0\nkeep\t3\t0\n"), "job\t3\n");
    }

    #[test]
    fn p8_job_numbers_have_the_form_of_sheet_numbers() {
        for line in ["keep\t00\t1\n", "keep\t1\t+1\n", "limit\t1\t01\n", "limit\t1\t 1\n"] {
            assert_eq!(on_w(&format!("days\t3\n{line}")), "job\t2\n", "{line:?}");
        }
        assert_eq!(on_w("days\t03\n"), "job\t1\n");
    }

    #[test]
    fn p9_input_over_32768_bytes_is_long() {
        assert_eq!(print(&"?".repeat(32_768)), "sheet\t1\n");
        assert_eq!(print(&"?".repeat(32_769)), "long\n");
        let job = format!("{W}\ndays\t3\n");
        let exact = job.clone() + &"\n".repeat(32_768 - job.len());
        assert_eq!(print(&exact), "job\t2\n");
        assert_eq!(print(&(exact + "\n")), "long\n");
    }

    #[test]
    fn p10_the_largest_right_job_is_answered() {
        let rules = Rules {
            states: 64,
            values: 16,
            start: 63,
            targets: vec![63; 1_024],
            costs: vec![1_000; 1_024],
            accepting: u64::MAX,
        };
        let lines = "limit\t127\t4294967295\n".repeat(512);
        let input = format!("{}\ndays\t128\n{lines}", crate::sheet::sheet_of(&rules));
        assert_eq!(input.len(), 28_974);
        assert!(print(&input).ends_with("kept\t127\t65535\nleast\t128000\n"));
    }

    #[test]
    fn wrong_job_lines_by_form_range_and_line_feed() {
        for line in WRONG_DAYS_LINES {
            assert_eq!(on_w(line), "job\t1\n", "{line:?}");
        }
        for line in WRONG_JOB_LINES {
            assert_eq!(on_w(&format!("days\t3\nkeep\t0\t7\n{line}")), "job\t3\n", "{line:?}");
        }
    }
}
