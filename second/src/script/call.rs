//! The calls of a script: their lines, what they use, and what they come to.

use super::content::{checksum, content};
use super::lent::{Lent, Slice};
use crate::answer::Answer;
use crate::rules::Case;
use crate::session::Request;
use crate::{calls, job, mend, mendjob, pattern, patternjob, report, session, sheet};
use std::fmt;

/// A call with its own numbers. All else that it is handed stands on the bench.
#[derive(Clone, Copy, Debug, PartialEq, Eq)]
pub enum Call {
    Filter,
    First { place: usize, value: u8 },
    Report,
    Mend { most: u32 },
    Check { claimed: u32 },
    Read,
    Pattern,
    Write,
    Open,
    Ask(Request),
    Job,
    MendJob,
    PatternJob,
}

/// What a call came to: its answer number, or the word that a job prints first.
#[derive(Clone, Debug, PartialEq, Eq, PartialOrd, Ord)]
pub enum CameTo {
    Answer(u32),
    Word(String),
}

impl fmt::Display for CameTo {
    fn fmt(&self, out: &mut fmt::Formatter) -> fmt::Result {
        match self {
            CameTo::Answer(number) => write!(out, "answer {number}"),
            CameTo::Word(word) => write!(out, "{word}"),
        }
    }
}

impl Call {
    pub fn name(self) -> &'static str {
        match self {
            Call::Filter => "filter",
            Call::First { .. } => "first",
            Call::Report => "report",
            Call::Mend { .. } => "mend",
            Call::Check { .. } => "check",
            Call::Read => "read",
            Call::Pattern => "pattern",
            Call::Write => "write",
            Call::Open => "open",
            Call::Ask(Request::Keep { .. }) => "keep",
            Call::Ask(Request::Limit { .. }) => "limit",
            Call::Ask(Request::Mark) => "mark",
            Call::Ask(Request::Back) => "back",
            Call::Job => "job",
            Call::MendJob => "mendjob",
            Call::PatternJob => "patternjob",
        }
    }

    /// The line that makes the call, without its line feed.
    pub fn line(self) -> String {
        let name = self.name();
        match self {
            Call::First { place, value } => format!("{name}\t{place}\t{value}"),
            Call::Mend { most } => format!("{name}\t{most}"),
            Call::Check { claimed } => format!("{name}\t{claimed}"),
            Call::Ask(Request::Keep { place, mask }) => format!("{name}\t{place}\t{mask}"),
            Call::Ask(Request::Limit { place, limit }) => format!("{name}\t{place}\t{limit}"),
            _ => name.to_owned(),
        }
    }

    /// The slices that the call is lent, in the order in which they are printed.
    pub fn uses(self) -> &'static [Slice] {
        use Slice::*;
        match self {
            Call::Filter => &[Targets, Costs, Masks, Limits, Kept, Work],
            Call::First { .. } => &[Targets, Costs, Masks, Limits, Roster, Work],
            Call::Report => &[Targets, Costs, Roster],
            Call::Mend { .. } => &[Targets, Costs, Masks, Limits, Roster, Drawn, Plan],
            Call::Check { .. } => &[Targets, Costs, Masks, Limits, Roster, Drawn],
            Call::Read | Call::Pattern => &[Targets, Costs, Input],
            Call::Write => &[Targets, Costs, Output],
            Call::Open => &[Targets, Costs, Masks, Limits, Work, Session],
            Call::Ask(_) => &[Targets, Costs, Work, Session],
            Call::Job | Call::MendJob | Call::PatternJob => &[Input, Output],
        }
    }

    /// Whether the call is handed the five numbers.
    pub fn uses_sizes(self) -> bool {
        !matches!(self, Call::Read | Call::Job | Call::MendJob | Call::PatternJob)
    }

    /// Makes the call: what it came to, and the line that it prints. "Whether a slice is
    /// unchanged is told by the checksums before and after the call."
    pub fn carry_out(self, lent: &mut Lent) -> (CameTo, String) {
        let before = self.sums(lent);
        let (came_to, numbers) = self.work(lent);
        let after = self.sums(lent);
        let mut line = self.name().to_owned();
        line.extend(numbers.iter().map(|number| format!("\t{number}")));
        for (index, slice) in self.uses().iter().enumerate() {
            if before[index] != after[index] {
                line += &format!("\t{}{}", slice.name(), content(&lent.entries(*slice)));
            }
        }
        (came_to, line)
    }

    fn sums(self, lent: &Lent) -> Vec<u64> {
        self.uses().iter().map(|slice| checksum(&lent.entries(*slice))).collect()
    }

    /// What the call came to, and the numbers that it prints.
    fn work(self, lent: &mut Lent) -> (CameTo, Vec<u64>) {
        match self {
            Call::Job => return print(&job::run(&lent.input), &mut lent.output),
            Call::MendJob => return print(&mendjob::run(&lent.input), &mut lent.output),
            Call::PatternJob => return print(&patternjob::run(&lent.input), &mut lent.output),
            _ => {}
        }
        let (answer, carried) = self.ask_plain_program(lent);
        let answer = answer.number();
        (CameTo::Answer(answer), [&[u64::from(answer)], carried.as_slice()].concat())
    }

    /// The answer and the numbers that it carries.
    fn ask_plain_program(self, lent: &mut Lent) -> (Answer, Vec<u64>) {
        let Lent { places, rules, masks, limits, kept, roster, work, session, .. } = lent;
        let Lent { input, output, drawn, plan, .. } = lent;
        let places = *places;
        match self {
            Call::Filter => {
                let (answer, least) = calls::filter(places, rules, masks, limits, kept, work);
                (answer, vec![u64::from(least)])
            }
            Call::First { place, value } => {
                let ask = calls::first_roster;
                (ask(places, rules, masks, limits, place, value, roster, work), vec![])
            }
            Call::Report => {
                let (answer, report) = report::prefix_report(places, rules, roster);
                (answer, vec![report as u64])
            }
            Call::Mend { most } => {
                let case = Case { rules, masks, limits };
                let (answer, changes) = mend::mend(places, &case, drawn, most, roster, plan);
                (answer, vec![u64::from(changes)])
            }
            Call::Check { claimed } => {
                let case = Case { rules, masks, limits };
                let (answer, says) = mend::check(places, &case, drawn, roster, claimed);
                (answer, vec![u64::from(says)])
            }
            Call::Read => {
                let (targets, costs) = (&mut rules.targets, &mut rules.costs);
                let (answer, carried) = sheet::read_sheet(input, targets, costs);
                (answer, carried.numbers().to_vec())
            }
            Call::Pattern => {
                let (targets, costs) = (&mut rules.targets, &mut rules.costs);
                let ask = pattern::read_pattern;
                let (answer, carried) = ask(input, rules.values, targets, costs);
                (answer, carried.to_vec())
            }
            Call::Write => {
                let (answer, length) = sheet::write_sheet(rules, output);
                (answer, vec![length as u64])
            }
            Call::Open => (session::open(places, rules, masks, limits, session, work), vec![]),
            Call::Ask(request) => (session::ask(places, rules, session, work, request), vec![]),
            Call::Job | Call::MendJob | Call::PatternJob => {
                unreachable!("a job has no answer number")
            }
        }
    }
}

/// "What finds no room is dropped, and the length is given all the same."
fn print(text: &[u8], output: &mut [u8]) -> (CameTo, Vec<u64>) {
    let room = text.len().min(output.len());
    output[..room].copy_from_slice(&text[..room]);
    let word = text.iter().take_while(|byte| byte.is_ascii_lowercase());
    let word = word.map(|byte| char::from(*byte)).collect();
    (CameTo::Word(word), vec![text.len() as u64])
}
