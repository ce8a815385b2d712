//! The program's jobs, right ones and wrong ones.

use super::damage::{damage, numbers};
use super::sheets::sheet_lent;
use crate::cases::{self, Scale};
use crate::job::MOST_INPUT;
use crate::random::Random;
use crate::rules::{Rules, TABLE};
use crate::samples::{RIGHT_JOBS, WRONG_DAYS_LINES, WRONG_JOB_LINES};
use crate::script::{Call, Lent, Script};
use crate::sheet::sheet_of;
use crate::worked::{w, W};

/// The output as `rota` lends it.
pub const OUTPUT: usize = 2_048;

pub fn job_lent(input: &[u8], output: usize) -> Lent {
    Lent { output: vec![b'?'; output], ..sheet_lent(input) }
}

fn ask(script: &mut Script, input: &str) {
    script.call(&mut job_lent(input.as_bytes(), OUTPUT), Call::Job);
}

/// The paper's example with outputs of several lengths, and every kind of wrong job.
pub fn samples(script: &mut Script) {
    script.begin("the paper's job, with shorter and shorter outputs");
    let example = format!("{W}\n{}", RIGHT_JOBS[0]);
    for output in [OUTPUT, 34, 33, 10, 1, 0] {
        script.call(&mut job_lent(example.as_bytes(), output), Call::Job);
    }
    script.begin("right jobs, and none or a wrong sheet before them");
    for job in RIGHT_JOBS {
        ask(script, &format!("{W}\n{job}"));
        ask(script, &format!("{W}{job}"));
        ask(script, &format!("\n{W}\n{job}"));
        ask(script, &format!("{W}\r\n{job}"));
    }
    script.begin("no job");
    for input in
        ["", "\n", W, W.trim_end(), &format!("{W}\n"), &format!("{W}\n\n{}", RIGHT_JOBS[0])]
    {
        ask(script, input);
    }
    script.begin("wrong jobs");
    for line in WRONG_DAYS_LINES {
        ask(script, &format!("{W}\n{line}"));
    }
    for line in WRONG_JOB_LINES {
        ask(script, &format!("{W}\ndays\t3\nkeep\t0\t7\n{line}"));
    }
}

/// Sheets that are wrong by their form, a range, their order or a line feed, and jobs behind them.
pub const WRONG_SHEETS: [&str; 8] = [
    "size\t6\t3\t6\n",
    "size\t0",
    "size\t6\t3\t0\nfinal\t6\n",
    "size\t6\t3\t0\nfinal\t999x\n",
    "size\t6\t3\t0\nfinal\t2\nfinal\t1\n",
    "size\t6\t3\t0\narc\t0\t0\t0\t1001",
    "size\t6\t3\t0\narc\t0\t0\t0\t1000",
    "size\t6\t3\t0\nfinal\t99999999999999999999999\n",
];

pub fn wrong_sheets(script: &mut Script) {
    script.begin("jobs behind sheets with a number out of range, or otherwise wrong");
    for sheet in WRONG_SHEETS {
        ask(script, sheet);
        ask(script, &format!("{sheet}\n{}", RIGHT_JOBS[0]));
        ask(script, &format!("{sheet}\n{}", WRONG_DAYS_LINES[0]));
    }
}

/// The edges of the job's own sizes.
pub fn long(script: &mut Script) {
    script.begin("512 and 513 decisions in a job");
    let full = format!("{W}\ndays\t3\n{}", "keep\t0\t7\n".repeat(512));
    for tail in ["", "keep\t0\t7\n", "?"] {
        ask(script, &format!("{full}{tail}"));
    }
    script.begin("32,768 and 32,769 bytes");
    for byte in ["?", "\n"] {
        ask(script, &byte.repeat(MOST_INPUT));
        ask(script, &byte.repeat(MOST_INPUT + 1));
    }
    script.begin("the largest right job");
    let (targets, costs) = (vec![63; TABLE], vec![1_000; TABLE]);
    let rules = Rules { states: 64, values: 16, start: 63, targets, costs, accepting: u64::MAX };
    let lines = "limit\t127\t4294967295\n".repeat(512);
    ask(script, &format!("{}\ndays\t128\n{lines}", sheet_of(&rules)));
    script.begin("a job without rosters");
    ask(script, &format!("{}\ndays\t1\n", sheet_of(&Rules { accepting: 0, ..w() })));
}

/// Some jobs on one sheet, nearly half of them damaged.
pub fn case(random: &mut Random, script: &mut Script) {
    let scale = Scale::any(random);
    let rules = cases::rules(random, scale);
    for _ in 0..random.from_to(1, 4) {
        let input = format!("{}\n{}", sheet_of(&rules), job_lines(random, &rules, scale));
        let output = random.pick(&[OUTPUT, OUTPUT, OUTPUT, 40, 3, 0]);
        let (mut lent, mut call) = (job_lent(input.as_bytes(), output), Call::Job);
        for _ in 0..random.pick(&[0, 0, 0, 1, 1, 2]) {
            damage_job(random, &mut lent, &mut call);
        }
        script.call(&mut lent, call);
    }
}

/// One change, at times to a number of the sheet.
pub fn damage_job(random: &mut Random, lent: &mut Lent, call: &mut Call) {
    if random.percent(25) {
        numbers::spoil(random, &mut lent.input);
    } else {
        damage(random, lent, call);
    }
}

/// The days line and some decisions, seldom one that is out of range.
pub fn job_lines(random: &mut Random, rules: &Rules, scale: Scale) -> String {
    let days = if scale == Scale::Full { random.from_to(1, 129) } else { random.from_to(1, 6) };
    let mut lines = format!("days\t{days}\n");
    for _ in 0..random.below(6) {
        let past = usize::from(random.percent(3));
        let place = random.below(days + past);
        let mask = random.number() as u16 & rules.full_mask() | 1;
        let limit = random.pick(&[0, 3, 20, 1_000, 366_000, 4_294_967_295_u64]);
        lines += &match random.below(8) {
            0..=4 => format!("keep\t{place}\t{mask}\n"),
            5 => format!("keep\t{place}\t{}\n", u32::from(rules.full_mask()) + 1),
            _ => format!("limit\t{place}\t{limit}\n"),
        };
    }
    lines
}
