//! Session memory that is not well-formed, in each way that docs/SESSION-MEMORY.md names, and
//! changes that leave another well-formed session.

use super::edges::stand;
use super::walks::{keep, limit, open_on_w, BACK, MARK};
use crate::rules::{Rules, NO_ARC};
use crate::script::{Call, Lent, Script};
use crate::session::Entry;
use crate::worked::w;

/// Where the parts of the memory begin for three places.
const RESULT: usize = 0;
const LEAST: usize = 1;
const KEPT: usize = 2;
const SIZES: usize = 5;
pub const DECISIONS: usize = 9;
pub const MARKS: usize = 10;
const SPARE: usize = 11;
pub const ROWS: usize = 67;
const OPENING_MASKS: usize = 1_795;
const OPENING_LIMITS: usize = 1_798;
const LENGTH: usize = 1_801;

/// A session with an entry of each kind: keep, mark, limit.
fn session_on_w() -> Lent {
    let mut lent = open_on_w();
    let entries = vec![
        Entry::Keep { place: 1, mask: 1 },
        Entry::Mark,
        Entry::Limit { place: 0, limit: 400_000 },
    ];
    stand(&mut lent, entries);
    lent
}

/// Places of the memory and the numbers put there.
type Change = &'static [(usize, u32)];

/// What makes the memory one that no session leaves.
const FAULTS: &[Change] = &[
    // The sizes held.
    &[(SIZES, 2)],
    &[(SIZES, 4)],
    &[(SIZES + 1, 7)],
    &[(SIZES + 2, 4)],
    &[(SIZES + 3, 1)],
    // Both counts: too few, too many, exchanged, out of range.
    &[(DECISIONS, 1)],
    &[(DECISIONS, 3)],
    &[(MARKS, 0)],
    &[(MARKS, 2)],
    &[(DECISIONS, 1), (MARKS, 2)],
    &[(DECISIONS, 513)],
    &[(MARKS, 65)],
    &[(DECISIONS, u32::MAX)],
    &[(MARKS, u32::MAX)],
    &[(DECISIONS, u32::MAX), (MARKS, 4)],
    // Spare numbers, the first and the last.
    &[(SPARE, 1)],
    &[(ROWS - 1, 1)],
    // The keep: its kind, place and mask out of range.
    &[(ROWS, 0)],
    &[(ROWS, 4)],
    &[(ROWS, 1 << 8 | 1)],
    &[(ROWS + 1, 3)],
    &[(ROWS + 1, u32::MAX)],
    &[(ROWS + 1, 1 << 16 | 1)],
    &[(ROWS + 2, 8 | 1)],
    &[(ROWS + 2, 1 << 16 | 1)],
    // The mark with a place or an amount.
    &[(ROWS + 4, 1)],
    &[(ROWS + 5, 1)],
    // The limit: its place out of range, and an amount that would show something else.
    &[(ROWS + 7, 3)],
    &[(ROWS + 8, 0)],
    // Behind the entries: an entry without a count, and the last number of all rows.
    &[(ROWS + 9, 3)],
    &[(ROWS + 11, 1)],
    &[(OPENING_MASKS - 1, 1)],
    // The opening masks: out of range, and one that would show something else.
    &[(OPENING_MASKS, 8 | 7)],
    &[(OPENING_MASKS, 1 << 16 | 7)],
    &[(OPENING_MASKS, 4)],
    // An opening limit that would show something else.
    &[(OPENING_LIMITS + 2, 1)],
    // What is shown: the result, the least cost and the kept masks.
    &[(RESULT, 11)],
    &[(RESULT, 1)],
    &[(LEAST, 1)],
    &[(LEAST, 3)],
    &[(KEPT, 7)],
    &[(KEPT, 4)],
    &[(KEPT + 2, 1 << 16 | 5)],
    &[(RESULT, 11), (LEAST, 0), (KEPT, 0), (KEPT + 1, 0), (KEPT + 2, 0)],
];

/// What makes the memory that of another session, which shows the same.
const OTHER_SESSIONS: &[Change] = &[
    // The limit of another amount, or at another place.
    &[(ROWS + 8, 366_000)],
    &[(ROWS + 8, u32::MAX)],
    &[(ROWS + 7, 2)],
    // One entry more, with its count: a decision, and a mark.
    &[(DECISIONS, 3), (ROWS + 9, 1), (ROWS + 11, 7)],
    &[(MARKS, 2), (ROWS + 9, 3)],
    // One entry less, with its count.
    &[(DECISIONS, 1), (ROWS + 6, 0), (ROWS + 8, 0)],
    // Another opening.
    &[(OPENING_MASKS, 5)],
    &[(OPENING_LIMITS, u32::MAX)],
    &[(OPENING_LIMITS + 2, 2)],
];

/// Calls upon memory that others have written.
pub fn written_by_others(script: &mut Script) {
    for call in [keep(2, 7), limit(2, 9), MARK, BACK] {
        script.begin(&format!("{} upon memory that is not well-formed", call.name()));
        FAULTS.iter().for_each(|change| call_upon_changed(script, change, call));
        for number in [0, 1, u32::MAX] {
            let mut lent = session_on_w();
            lent.session.fill(number);
            script.call(&mut lent, call);
        }
        script.begin(&format!("{} upon the memory of another session", call.name()));
        OTHER_SESSIONS.iter().for_each(|change| call_upon_changed(script, change, call));
    }
}

fn call_upon_changed(script: &mut Script, change: Change, call: Call) {
    let mut lent = session_on_w();
    change.iter().for_each(|(place, number)| lent.session[*place] = *number);
    script.call(&mut lent, call);
}

/// Each number of the memory one larger.
pub fn number_by_number(script: &mut Script) {
    script.begin("each number of a session's memory one larger");
    for place in 0..LENGTH {
        let mut lent = session_on_w();
        lent.session[place] += 1;
        script.call(&mut lent, if place % 2 == 0 { MARK } else { BACK });
    }
}

/// Rules that differ from those of the opening: taken if they tell the same, else 12.
pub fn other_rules(script: &mut Script) {
    script.begin("other rules than at the opening");
    for rules in
        [w(), more_states(), without_an_idle_arc(), without_ends(), from_state_5(), dearer()]
    {
        for call in [MARK, keep(2, 7), limit(2, 9), BACK] {
            let mut lent = session_on_w();
            lent.rules = rules.clone();
            script.call(&mut lent, call);
        }
    }
}

/// One state more, which nothing leads to: another Q than the one held.
fn more_states() -> Rules {
    Rules { states: 7, ..w() }
}

/// State 5 is reached by xx alone, and its arc on d leads only to xxd, which is not accepted.
fn without_an_idle_arc() -> Rules {
    let mut rules = w();
    (rules.targets[15], rules.costs[15]) = (NO_ARC, 0);
    rules
}

fn without_ends() -> Rules {
    Rules { accepting: 0, ..w() }
}

fn from_state_5() -> Rules {
    Rules { start: 5, ..w() }
}

/// The arc of the first d costs more, so that the least cost is another.
fn dearer() -> Rules {
    let mut rules = w();
    rules.costs[0] = 1_000;
    rules.costs[12] = 1_000;
    rules
}
