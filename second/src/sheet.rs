//! Reading and writing rule sheets.

use crate::answer::{require_lengths, Answer};
use crate::rules::{Rules, MOST_COST, MOST_STATES, MOST_VALUES, NO_ARC, TABLE};
use std::ops::Range;

/// The numbers an answered reading carries besides its answer.
#[derive(Clone, Debug, Default, PartialEq, Eq)]
pub struct Carried {
    pub line: usize,
    pub states: usize,
    pub values: usize,
    pub start: u8,
    pub accepting: u64,
}

impl Carried {
    /// In the order in which an answered reading carries them.
    pub fn numbers(&self) -> [u64; 5] {
        let [line, states, values] = [self.line, self.states, self.values].map(|n| n as u64);
        [line, states, values, u64::from(self.start), self.accepting]
    }
}

/// A line without its line feed, and whether it had one.
pub struct Line<'a> {
    pub text: &'a [u8],
    pub ended: bool,
}

/// The lines of a text: "each line ended by one line feed". Bytes after the last line feed
/// are a line that lacks its own; after a line feed at the end there is no further line.
pub fn lines(text: &[u8]) -> Vec<Line<'_>> {
    let whole = text.split_inclusive(|byte| *byte == b'\n');
    whole.map(|line| line_of(line)).collect()
}

fn line_of(bytes: &[u8]) -> Line<'_> {
    match bytes {
        [text @ .., b'\n'] => Line { text, ended: true },
        text => Line { text, ended: false },
    }
}

/// "fields parted by one tab".
pub fn fields(text: &[u8]) -> Vec<&[u8]> {
    text.split(|byte| *byte == b'\t').collect()
}

/// "Numbers are decimal without sign or leading zero." A number too long for 64 bits stands
/// at the top of them, which is outside every range of the paper.
pub fn number(field: &[u8]) -> Option<u64> {
    let all_digits = !field.is_empty() && field.iter().all(u8::is_ascii_digit);
    let leading_zero = field.len() > 1 && field[0] == b'0';
    if !all_digits || leading_zero {
        return None;
    }
    let add = |sum: u64, digit: &u8| sum.saturating_mul(10).saturating_add(u64::from(digit - b'0'));
    Some(field.iter().fold(0, add))
}

/// A number field that must be from 0 to `most`.
pub fn number_up_to(field: &[u8], most: u64) -> Option<u64> {
    number(field).filter(|number| *number <= most)
}

/// What a line is wrong by: "its form, a range, its order, or a missing line feed".
#[derive(Clone, Copy, Debug, PartialEq, Eq)]
pub enum Fault {
    Form,
    Range,
    Order,
    LineFeed,
}

/// The first wrong line of a sheet, from 1, and what is wrong there: "the first fault decides".
#[derive(Clone, Copy, Debug, PartialEq, Eq)]
pub struct Wrong {
    pub line: usize,
    pub fault: Fault,
}

impl Wrong {
    /// "Answer 5 stays for form, order and missing line feed; new answer 13 carries the line for a
    /// number out of range."
    pub fn answer(self) -> Answer {
        match self.fault {
            Fault::Range => Answer::Outside,
            Fault::Form | Fault::Order | Fault::LineFeed => Answer::Sheet,
        }
    }
}

fn unless(right: bool, fault: Fault) -> Result<(), Fault> {
    if right {
        Ok(())
    } else {
        Err(fault)
    }
}

/// The numbers of a line, each in its range: "Fields are tested from left to right and the first
/// fault decides". A field that is missing is tested in its place, one too many after the last.
fn numbers<const COUNT: usize>(
    fields: &[&[u8]],
    ranges: [Range<usize>; COUNT],
) -> Result<[usize; COUNT], Fault> {
    let mut numbers = [0; COUNT];
    for (index, range) in ranges.iter().enumerate() {
        numbers[index] = number_in(fields.get(index), range)?;
    }
    unless(fields.len() == COUNT, Fault::Form)?;
    Ok(numbers)
}

/// "not a number of our form, or of the form but above its ceiling, whatever its digit count. A
/// count of 0 states or 0 values in the size line is out of range too."
fn number_in(field: Option<&&[u8]>, range: &Range<usize>) -> Result<usize, Fault> {
    let number = field.and_then(|field| number(field)).ok_or(Fault::Form)?;
    let index = usize::try_from(number).ok().filter(|index| range.contains(index));
    index.ok_or(Fault::Range)
}

/// The records read so far.
struct Reading {
    states: usize,
    values: usize,
    start: u8,
    finals: Vec<usize>,
    /// State, value, target and cost.
    arcs: Vec<(usize, usize, u8, u16)>,
}

/// "First `size`, Q, V, start."
fn size_line(line: &Line) -> Result<Reading, Fault> {
    let all = fields(line.text);
    let (name, rest) = (all[0], &all[1..]);
    unless(name == b"size", Fault::Form)?;
    // Where Q is wrong itself, the start is not looked at.
    let below = number_in(rest.first(), &(1..MOST_STATES + 1)).unwrap_or(0);
    let ranges = [1..MOST_STATES + 1, 1..MOST_VALUES + 1, 0..below];
    let [states, values, start] = numbers(rest, ranges)?;
    unless(line.ended, Fault::LineFeed)?;
    Ok(Reading { states, values, start: start as u8, finals: Vec::new(), arcs: Vec::new() })
}

impl Reading {
    /// A line after the first: "The first field is [..] `final` or `arc` [..]; any other is a fault
    /// of form", and "order comes after all fields, the missing line feed last".
    fn take(&mut self, line: &Line) -> Result<(), Fault> {
        let all = fields(line.text);
        match all[0] {
            b"final" => self.take_final(&all[1..])?,
            b"arc" => self.take_arc(&all[1..])?,
            _ => return Err(Fault::Form),
        }
        unless(line.ended, Fault::LineFeed)
    }

    /// "Then `final` and a state, rising."
    fn take_final(&mut self, fields: &[&[u8]]) -> Result<(), Fault> {
        let states = 0..self.states;
        let [state] = numbers(fields, [states])?;
        let in_order = self.arcs.is_empty() && self.finals.last().is_none_or(|last| *last < state);
        unless(in_order, Fault::Order)?;
        self.finals.push(state);
        Ok(())
    }

    /// "Then `arc`, state, value, target, cost, rising by state then value; no pair twice."
    fn take_arc(&mut self, fields: &[&[u8]]) -> Result<(), Fault> {
        let (states, values, costs) = (0..self.states, 0..self.values, 0..MOST_COST as usize + 1);
        let ranges = [states.clone(), values, states, costs];
        let [state, value, target, cost] = numbers(fields, ranges)?;
        let in_order = self.arcs.last().is_none_or(|last| (last.0, last.1) < (state, value));
        unless(in_order, Fault::Order)?;
        self.arcs.push((state, value, target as u8, cost as u16));
        Ok(())
    }

    fn into_rules(self) -> Rules {
        let mut targets = vec![NO_ARC; self.states * self.values];
        let mut costs = vec![0; self.states * self.values];
        for (state, value, target, cost) in self.arcs {
            targets[state * self.values + value] = target;
            costs[state * self.values + value] = cost;
        }
        let accepting = self.finals.iter().fold(0, |mask, state| mask | 1 << state);
        let (states, values, start) = (self.states, self.values, self.start);
        Rules { states, values, start, targets, costs, accepting }
    }
}

/// The rule set of a sheet, its tables holding just the first Q × V places; or the first
/// wrong line.
pub fn parse(text: &[u8]) -> Result<Rules, Wrong> {
    let lines = lines(text);
    // "An empty sheet is wrong at line 1": no number is out of range there.
    let first = lines.first().ok_or(Wrong { line: 1, fault: Fault::Form })?;
    let mut reading = size_line(first).map_err(|fault| Wrong { line: 1, fault })?;
    for (index, line) in lines.iter().enumerate().skip(1) {
        reading.take(line).map_err(|fault| Wrong { line: index + 1, fault })?;
    }
    Ok(reading.into_rules())
}

/// The reader: "the first Q × V places are written, the rest unchanged".
pub fn read_sheet(text: &[u8], targets: &mut [u8], costs: &mut [u16]) -> (Answer, Carried) {
    if let Err(answer) = require_lengths(&[(targets.len(), TABLE), (costs.len(), TABLE)]) {
        return (answer, Carried::default());
    }
    match parse(text) {
        Err(wrong) => (wrong.answer(), Carried { line: wrong.line, ..Carried::default() }),
        Ok(rules) => {
            targets[..rules.targets.len()].copy_from_slice(&rules.targets);
            costs[..rules.costs.len()].copy_from_slice(&rules.costs);
            let Rules { states, values, start, accepting, .. } = rules;
            (Answer::Done, Carried { line: 0, states, values, start, accepting })
        }
    }
}

/// The sheet of a right rule set.
pub fn sheet_of(rules: &Rules) -> String {
    let mut text = format!("size\t{}\t{}\t{}\n", rules.states, rules.values, rules.start);
    for state in (0..rules.states).filter(|state| rules.accepts(*state)) {
        text += &format!("final\t{state}\n");
    }
    for state in 0..rules.states {
        for value in 0..rules.values {
            if let Some((target, cost)) = rules.arc(state, value) {
                text += &format!("arc\t{state}\t{value}\t{target}\t{cost}\n");
            }
        }
    }
    text
}

/// The writer: the answer and the length of the sheet, "the bytes past it are unchanged".
pub fn write_sheet(rules: &Rules, buffer: &mut [u8]) -> (Answer, usize) {
    let checks = rules
        .check_sizes()
        .and_then(|()| rules.check_lengths())
        .and_then(|()| rules.check_tables());
    if let Err(answer) = checks {
        return (answer, 0);
    }
    let text = sheet_of(rules).into_bytes();
    if text.len() > buffer.len() {
        return (Answer::Room, 0);
    }
    buffer[..text.len()].copy_from_slice(&text);
    (Answer::Done, text.len())
}

/// Whether the sheet of a right rule set is read as the same rules.
pub fn reads_back(rules: &Rules) -> bool {
    let mut expected = rules.clone();
    expected.targets.truncate(rules.states * rules.values);
    expected.costs.truncate(rules.states * rules.values);
    parse(sheet_of(rules).as_bytes()) == Ok(expected)
}

#[cfg(test)]
mod tests;
