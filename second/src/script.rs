//! Scripts of calls, as docs/CALLS.md defines them, written together with the lines that
//! carrying them out must print.
//!
//! A generator says what a call is to be lent (`Lent`) and makes the call. The script finds out
//! which lines bring the bench there from what stands on it, has the plain program work the
//! call, and notes the line that must come of it.

mod bench;
mod call;
mod content;
mod lent;
mod lines;

pub use call::{Call, CameTo};
pub use lent::{Lent, Slice};

use crate::agree::{
    checks_agree, filters_agree, first_rosters_agree, mends_agree, patterns_agree, readings_agree,
    reports_agree,
};
use crate::rules::MOST_VALUES;
use crate::{mend, report, sheet};
use bench::Bench;

/// "A script has at most 2,097,152 bytes."
pub const MOST_BYTES: usize = 2_097_152;

/// A line that must be printed.
#[derive(Clone, Debug, PartialEq, Eq)]
pub struct Printed {
    pub line: String,
    /// The call and what it came to, for the tally; none for a line that no call printed.
    pub call: Option<(&'static str, CameTo)>,
    /// How many bytes of its case lead up to it.
    pub end: usize,
}

/// A part of a script under one name, and the lines that it must print.
#[derive(Clone, Debug, Default, PartialEq, Eq)]
pub struct Case {
    pub name: String,
    pub text: Vec<u8>,
    pub printed: Vec<Printed>,
}

/// A script while it is written: its cases, and what stands on the bench after them.
#[derive(Default)]
pub struct Script {
    cases: Vec<Case>,
    bench: Bench,
}

impl Script {
    pub fn cases(&self) -> &[Case] {
        &self.cases
    }

    /// The whole script.
    pub fn text(&self) -> Vec<u8> {
        self.cases.iter().flat_map(|case| case.text.iter().copied()).collect()
    }

    pub fn bytes(&self) -> usize {
        self.cases.iter().map(|case| case.text.len()).sum()
    }

    /// All that must be printed.
    pub fn printed(&self) -> impl Iterator<Item = &Printed> {
        self.cases.iter().flat_map(|case| &case.printed)
    }

    pub fn calls(&self) -> usize {
        self.printed().filter(|printed| printed.call.is_some()).count()
    }

    /// Begins a case, which a line that does nothing names.
    pub fn begin(&mut self, name: &str) {
        let text = format!("#\t{name}\n").into_bytes();
        self.cases.push(Case { name: name.to_owned(), text, printed: Vec::new() });
    }

    /// Makes a call, lent just this; what it leaves stands in `lent` afterwards.
    pub fn call(&mut self, lent: &mut Lent, call: Call) {
        self.call_as(&call.line(), lent, call);
    }

    /// The same by another line that means the call, such as one with wider numbers.
    pub fn call_as(&mut self, line: &str, lent: &mut Lent, call: Call) {
        lent.cut_to_room();
        let mut text = self.bench.bring(lent, call);
        text.extend_from_slice(line.as_bytes());
        text.push(b'\n');
        assert!(ways_agree(lent, call), "the plain program's own ways differ: {call:?}, {lent:?}");
        let (came_to, line) = call.carry_out(lent);
        self.bench.take_over(lent, call);
        self.add(text, line, Some((call.name(), came_to)));
    }

    /// Shows a part of a slice as it was lent last.
    pub fn show(&mut self, slice: Slice, place: usize, count: usize) {
        let entries = self.bench.lent(slice).iter().skip(place).take(count);
        let fields = entries.map(|entry| format!("\t{entry}")).collect::<String>();
        let text = format!("show\t{}\t{place}\t{count}\n", slice.name());
        self.add(text.into_bytes(), format!("show{fields}"), None);
    }

    /// Sets so many entries of a slice to one number, as far as it has room.
    pub fn fill(&mut self, slice: Slice, place: usize, count: usize, number: u32) {
        self.bench.fill(slice, place, count, number);
        let line = format!("fill\t{}\t{place}\t{count}\t{number}\n", slice.name());
        self.case().text.extend(line.into_bytes());
    }

    /// A line that is none of the format's.
    pub fn unknown(&mut self, line: &str) {
        self.add(format!("{line}\n").into_bytes(), "unknown".to_owned(), None);
    }

    fn add(&mut self, text: Vec<u8>, line: String, call: Option<(&'static str, CameTo)>) {
        let case = self.case();
        case.text.extend(text);
        case.printed.push(Printed { line, call, end: case.text.len() });
    }

    fn case(&mut self) -> &mut Case {
        self.cases.last_mut().expect("a case was begun")
    }
}

/// Whether the plain program's several ways agree on a call that they have something to say
/// about: brute force, tables and pairs on a filter, the reader on what the writer writes, every
/// fault of a sheet on the reader's first, words matched on the states of a pattern.
fn ways_agree(lent: &Lent, call: Call) -> bool {
    let case = lent.case();
    match call {
        Call::Filter | Call::Open => !lent.is_right() || filters_agree(&case),
        Call::First { place, value } => {
            let meant = place < lent.places && usize::from(value) < lent.rules.values;
            !(lent.is_right() && meant) || first_rosters_agree(&case, place, value)
        }
        Call::Write => !lent.rules.is_right() || sheet::reads_back(&lent.rules),
        Call::Report => {
            let Lent { places, rules, roster, .. } = lent;
            !report::is_right(*places, rules, roster) || reports_agree(rules, roster)
        }
        Call::Mend { most } => {
            let meant = most <= mend::MOST_CHANGES && lent.values_right(&lent.drawn);
            !(lent.is_right() && meant) || mends_agree(&lent.drawn(), most as usize)
        }
        Call::Check { claimed } => {
            let meant = lent.values_right(&lent.drawn) && lent.values_right(&lent.roster);
            !(lent.is_right() && meant) || checks_agree(&lent.drawn(), &lent.roster, claimed)
        }
        Call::Pattern => {
            let values = lent.rules.values;
            !(1..=MOST_VALUES).contains(&values) || patterns_agree(&lent.input, values)
        }
        Call::Read => readings_agree(&lent.input),
        Call::Ask(_) | Call::Job | Call::MendJob | Call::PatternJob => true,
    }
}

#[cfg(test)]
mod tests;
