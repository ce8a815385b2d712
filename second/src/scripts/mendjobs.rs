//! The mending program's jobs, right ones and wrong ones.

use super::jobs::{damage_job, job_lent, job_lines, OUTPUT, WRONG_SHEETS};
use crate::cases::{self, Scale};
use crate::job::MOST_INPUT;
use crate::random::Random;
use crate::rules::{Rules, TABLE};
use crate::samples::{
    RIGHT_MENDS, WRONG_DAYS_LINES, WRONG_DRAWN_LINES, WRONG_JOB_LINES, WRONG_MOST_LINES,
};
use crate::script::{Call, Script};
use crate::sheet::sheet_of;
use crate::worked::W;

/// The two lines behind the others, right for `days` 3 on W.
const WISH: &str = "drawn\t2\t2\t0\nmost\t1\n";

fn ask(script: &mut Script, input: &str) {
    script.call(&mut job_lent(input.as_bytes(), OUTPUT), Call::MendJob);
}

/// Outputs of several lengths, every kind of wrong line, and lines missing, twice or misplaced.
pub fn samples(script: &mut Script) {
    script.begin("a mending job, with shorter and shorter outputs");
    let example = format!("{W}\n{}", RIGHT_MENDS[0]);
    for output in [OUTPUT, 37, 36, 35, 10, 1, 0] {
        script.call(&mut job_lent(example.as_bytes(), output), Call::MendJob);
    }
    script.begin("right mending jobs, and none or a wrong sheet before them");
    for job in RIGHT_MENDS {
        ask(script, &format!("{W}\n{job}"));
        ask(script, &format!("{W}{job}"));
        ask(script, &format!("\n{W}\n{job}"));
    }
    script.begin("a mending job broken off after each byte");
    let whole = format!("days\t3\nkeep\t1\t6\n{WISH}");
    for length in 0..=whole.len() {
        ask(script, &format!("{W}\n{}", &whole[..length]));
    }
    script.begin("no mending job");
    for input in ["", "\n", W, W.trim_end(), &format!("{W}\n"), &format!("{W}\n\n{whole}")] {
        ask(script, input);
    }
    wrong_lines(script);
}

fn wrong_lines(script: &mut Script) {
    script.begin("wrong lines of a mending job");
    for line in WRONG_DAYS_LINES {
        ask(script, &format!("{W}\n{line}{WISH}"));
    }
    for line in WRONG_JOB_LINES.iter().chain(WRONG_DRAWN_LINES) {
        ask(script, &format!("{W}\ndays\t3\nkeep\t0\t7\n{line}{WISH}"));
    }
    for line in WRONG_MOST_LINES {
        ask(script, &format!("{W}\ndays\t3\ndrawn\t2\t2\t0\n{line}"));
    }
    for tail in ["\n", "?", "most\t1\n", "drawn\t2\t2\t0\n", "keep\t0\t7\n", "?\n?\n"] {
        ask(script, &format!("{W}\ndays\t3\n{WISH}{tail}"));
    }
}

pub fn wrong_sheets(script: &mut Script) {
    script.begin("mending jobs behind sheets with a number out of range, or otherwise wrong");
    for sheet in WRONG_SHEETS {
        ask(script, &format!("{sheet}\n{}", RIGHT_MENDS[0]));
        ask(script, &format!("{sheet}\n{}", WRONG_DAYS_LINES[0]));
    }
}

/// The edges of the job's own sizes, and the longest text that is printed.
pub fn long(script: &mut Script) {
    script.begin("512 and 513 decisions in a mending job");
    for count in [512, 513] {
        let lines = "keep\t0\t7\n".repeat(count);
        ask(script, &format!("{W}\ndays\t3\n{lines}{WISH}"));
        ask(script, &format!("{W}\ndays\t3\n{lines}"));
    }
    script.begin("32,768 and 32,769 bytes of a mending job");
    ask(script, &"?".repeat(MOST_INPUT));
    ask(script, &"?".repeat(MOST_INPUT + 1));
    script.begin("the longest mended roster, and one change too many");
    let (targets, costs) = (vec![63; TABLE], vec![1_000; TABLE]);
    let rules = Rules { states: 64, values: 16, start: 63, targets, costs, accepting: u64::MAX };
    for struck in [7, 8] {
        let kept = (0..struck).map(|place| format!("keep\t{}\t{}\n", 127 - place, 1 << 14));
        let drawn = "\t15".repeat(128);
        let lines = format!("days\t128\n{}drawn{drawn}\nmost\t7\n", kept.collect::<String>());
        ask(script, &format!("{}\n{lines}", sheet_of(&rules)));
    }
}

/// Some mending jobs on one sheet, nearly half of them damaged.
pub fn case(random: &mut Random, script: &mut Script) {
    let scale = Scale::any(random);
    let rules = cases::rules(random, scale);
    for _ in 0..random.from_to(1, 4) {
        let lines = job_lines(random, &rules, scale);
        let input = format!("{}\n{lines}{}", sheet_of(&rules), wish_lines(random, &rules, &lines));
        let output = random.pick(&[OUTPUT, OUTPUT, OUTPUT, 40, 3, 0]);
        let (mut lent, mut call) = (job_lent(input.as_bytes(), output), Call::MendJob);
        for _ in 0..random.pick(&[0, 0, 0, 1, 1, 2]) {
            damage_job(random, &mut lent, &mut call);
        }
        script.call(&mut lent, call);
    }
}

/// The two lines for a job of these lines, seldom with a value or a number that is out of range, or
/// with one of them left out.
fn wish_lines(random: &mut Random, rules: &Rules, lines: &str) -> String {
    let days = lines.split(['\t', '\n']).nth(1).and_then(|days| days.parse().ok()).unwrap_or(1);
    let values = rules.values + usize::from(random.percent(3));
    let drawn = (0..days).map(|_| format!("\t{}", random.below(values)));
    let drawn = format!("drawn{}\n", drawn.collect::<String>());
    let most = format!("most\t{}\n", random.pick(&[0, 1, 2, 3, 4, 5, 6, 7, 7, 7, 7, 8]));
    match random.below(20) {
        0 => drawn,
        1 => most,
        2 => most + &drawn,
        _ => drawn + &most,
    }
}
