//! Every fault of a sheet, each told by itself from the text: a check on the reader, which ends at
//! the first.

use crate::sheet::Fault;

/// A fault of a line, from 1, and its place in the order in which a line is tested.
type Told = (usize, usize, Fault);

/// From which number on, and below which one.
type Bounds<'a> = (&'a str, &'a str);

const STATES: Bounds = ("1", "65");
const VALUES: Bounds = ("1", "17");
const COSTS: Bounds = ("0", "1001");

/// The places behind those of the fields, of which the longest line has six: one too many.
const ORDER: usize = 6;
const LINE_FEED: usize = 7;

/// The line and the kind of the first fault.
pub fn first_fault(text: &[u8]) -> Option<(usize, Fault)> {
    let first = all_faults(text).into_iter().min_by_key(|(line, place, _)| (*line, *place));
    first.map(|(line, _, fault)| (line, fault))
}

/// Whether any number is out of range in its place, wherever the sheet is wrong first.
pub fn has_number_outside(text: &[u8]) -> bool {
    all_faults(text).iter().any(|(_, _, fault)| *fault == Fault::Range)
}

fn all_faults(text: &[u8]) -> Vec<Told> {
    let text = String::from_utf8_lossy(text);
    let whole = text.strip_suffix('\n');
    let lines = whole.unwrap_or(&text).split('\n').map(|line| line.split('\t').collect());
    let lines: Vec<Vec<&str>> = lines.collect();
    // Q and V, or the most that they can be where they are wrong themselves.
    let count = |index: usize, bounds, most| {
        let field = lines[0].get(index).copied();
        field.filter(|field| fault_of(Some(field), bounds).is_none()).unwrap_or(most)
    };
    let (state, value) = (("0", count(1, STATES, "64")), ("0", count(2, VALUES, "16")));
    let mut faults = Vec::new();
    for (index, fields) in lines.iter().enumerate() {
        let bounds: &[Bounds] = match (index, fields[0]) {
            (0, "size") => &[STATES, VALUES, state],
            (1.., "final") => &[state],
            (1.., "arc") => &[state, value, state, COSTS],
            _ => &[],
        };
        let found = field_faults(fields, bounds).into_iter();
        faults.extend(found.map(|(place, fault)| (index + 1, place, fault)));
        if index > 0 && !rises(&lines[index - 1], fields) {
            faults.push((index + 1, ORDER, Fault::Order));
        }
    }
    if whole.is_none() {
        faults.push((lines.len(), LINE_FEED, Fault::LineFeed));
    }
    faults
}

/// The faults of a line's fields; without bounds the first is none of the paper's.
fn field_faults(fields: &[&str], bounds: &[Bounds]) -> Vec<(usize, Fault)> {
    if bounds.is_empty() {
        return vec![(0, Fault::Form)];
    }
    let numbers = bounds.iter().enumerate().map(|(index, bounds)| (index + 1, bounds));
    let wrong = numbers.filter_map(|(place, bounds)| {
        fault_of(fields.get(place).copied(), *bounds).map(|fault| (place, fault))
    });
    let too_many = (fields.len() > bounds.len() + 1).then_some((bounds.len() + 1, Fault::Form));
    wrong.chain(too_many).collect()
}

fn fault_of(field: Option<&str>, (from, below): Bounds) -> Option<Fault> {
    match field {
        Some(field) if is_number(field) => {
            let outside = is_less(field, from) || !is_less(field, below);
            outside.then_some(Fault::Range)
        }
        _ => Some(Fault::Form),
    }
}

/// Digits without a leading zero.
fn is_number(field: &str) -> bool {
    let digits = field.bytes().all(|byte| byte.is_ascii_digit());
    field == "0" || (digits && !field.is_empty() && !field.starts_with('0'))
}

/// Numbers as text: fewer digits, or as many and before the other in the dictionary.
fn is_less(number: &str, other: &str) -> bool {
    (number.len(), number) < (other.len(), other)
}

/// Whether a line comes after the one before it, where both are right by themselves.
fn rises(before: &[&str], after: &[&str]) -> bool {
    match (before, after) {
        (["final", old], ["final", new]) => is_less(old, new),
        (["arc", ..], ["final", ..]) => false,
        (["arc", old, old_value, ..], ["arc", new, new_value, ..]) => {
            is_less(old, new) || (old == new && is_less(old_value, new_value))
        }
        _ => true,
    }
}

#[cfg(test)]
mod tests {
    use super::*;
    use crate::samples::{OUT_OF_ORDER, RIGHT_SHEETS, TESTED, WRONG_LATER_LINES, WRONG_SIZE_LINES};
    use crate::worked::W;

    /// The line of the first fault, and its answer.
    fn refused(text: &str) -> Option<(usize, u32)> {
        let (line, fault) = first_fault(text.as_bytes())?;
        Some((line, if fault == Fault::Range { 13 } else { 5 }))
    }

    #[test]
    fn the_samples_have_the_faults_that_were_worked_by_hand() {
        for text in RIGHT_SHEETS.iter().chain(&[W]) {
            assert_eq!(all_faults(text.as_bytes()), [], "{text:?}");
        }
        for (text, answer) in WRONG_SIZE_LINES {
            assert_eq!(refused(text), Some((1, *answer)), "{text:?}");
        }
        for (line, answer) in WRONG_LATER_LINES {
            let text = format!("size\t6\t3\t0\n{line}");
            assert_eq!(refused(&text), Some((2, *answer)), "{text:?}");
        }
        for (text, line, answer) in OUT_OF_ORDER {
            assert_eq!(refused(text), Some((*line, *answer)), "{text:?}");
        }
        for (text, line, answer) in TESTED.iter().flat_map(|tested| tested.faulty()) {
            assert_eq!(refused(&text), Some((line, answer)), "{text:?}");
        }
    }

    #[test]
    fn every_fault_is_told() {
        let text = "size\t6\t0\t6\t1\narc\t6\tx\t0\t1001\nwrong\narc\t7\nfinal\t7\t7";
        let expected = [
            (1, 2, Fault::Range),
            (1, 3, Fault::Range),
            (1, 4, Fault::Form),
            (2, 1, Fault::Range),
            (2, 2, Fault::Form),
            (2, 4, Fault::Range),
            (3, 0, Fault::Form),
            (4, 1, Fault::Range),
            (4, 2, Fault::Form),
            (4, 3, Fault::Form),
            (4, 4, Fault::Form),
            (5, 1, Fault::Range),
            (5, 2, Fault::Form),
            (5, ORDER, Fault::Order),
            (5, LINE_FEED, Fault::LineFeed),
        ];
        assert_eq!(all_faults(text.as_bytes()), expected);
    }

    #[test]
    fn numbers_out_of_range_are_found_wherever_they_stand() {
        let with = |line: &str| has_number_outside(format!("{W}{line}").as_bytes());
        for line in ["final\t6\n", "final\t6", "arc\t6", "arc\tx\t3\t0\n", "?\nfinal\t10\n"] {
            assert!(with(line), "{line:?}");
        }
        for line in ["", "final\t06\n", "final\t6x\n", "final\t5\t6\n", "Final\t6\n", "size\t65\n"]
        {
            assert!(!with(line), "{line:?}");
        }
    }
}
