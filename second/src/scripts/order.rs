//! Two faults at once: the check that comes first answers.

use super::edges::{right_for, stand, CALLS};
use crate::samples::PATTERN_OF_65;
use crate::script::{Call, Lent, Script};
use crate::session::{Entry, Request, MOST_DECISIONS, MOST_MARKS};

/// The answers that a call can give besides 0, in the order of their checks.
pub fn refusals(call: Call) -> &'static [u32] {
    match call {
        Call::Filter | Call::Open => &[1, 2, 3, 4, 11],
        Call::First { .. } => &[1, 2, 3, 4, 7, 11],
        Call::Report => &[1, 2, 3, 7, 11],
        Call::Read => &[2, 5, 13],
        Call::Pattern => &[1, 2, 15, 14],
        Call::Write => &[1, 2, 3, 6],
        Call::Ask(Request::Keep { .. } | Request::Limit { .. }) => &[1, 2, 3, 12, 7, 8, 11],
        Call::Ask(Request::Mark) => &[1, 2, 3, 12, 9, 11],
        Call::Ask(Request::Back) => &[1, 2, 3, 12, 10, 11],
        Call::Mend { .. } => &[1, 2, 3, 4, 7, 11],
        Call::Check { .. } => &[1, 2, 3, 4, 7],
        Call::Job | Call::MendJob | Call::PatternJob => &[],
    }
}

/// Each fault of each call alone, and with each fault that is checked for earlier.
pub fn pairs(script: &mut Script) {
    CALLS.into_iter().for_each(|call| pairs_of(script, call));
}

pub fn pairs_of(script: &mut Script, call: Call) {
    script.begin(&format!("two faults in {}", call.name()));
    let refusals = refusals(call);
    for (index, later) in refusals.iter().enumerate() {
        for earlier in &refusals[..=index] {
            let (mut lent, mut asked) = (right_for(call), call);
            give_fault(*later, &mut lent, &mut asked);
            if earlier != later {
                give_fault(*earlier, &mut lent, &mut asked);
            }
            script.call(&mut lent, asked);
        }
    }
}

/// Changes what is right so that a call gets this answer. Memory with full lists comes about
/// before other faults, so that these stay in it.
fn give_fault(answer: u32, lent: &mut Lent, call: &mut Call) {
    match answer {
        // A pattern brings its own start.
        1 if *call == Call::Pattern => lent.rules.values = 17,
        1 => lent.rules.start = 6,
        2 => lent.rules.targets.truncate(1_023),
        3 => lent.rules.costs[0] = 1_001,
        4 => lent.masks[2] = 8,
        // No sheet gets both 5 and 13: of two wrong lines the first counts.
        5 => lent.input = [b"size\t6\t3\t0\nwrong\n", lent.input.as_slice()].concat(),
        6 => lent.output.truncate(lent.output.len() - 1),
        7 => give_range_fault(lent, call),
        8 => stand(lent, vec![Entry::Keep { place: 0, mask: 7 }; MOST_DECISIONS]),
        9 => stand(lent, vec![Entry::Mark; MOST_MARKS]),
        10 => stand(lent, vec![]),
        11 => leave_no_roster(lent, *call),
        13 => lent.input.extend(b"arc\t5\t2\t6\t0\n"),
        14 => lent.input = PATTERN_OF_65.as_bytes().to_vec(),
        15 => lent.input.push(b'|'),
        _ => lent.session[0] = 5,
    }
}

fn give_range_fault(lent: &mut Lent, call: &mut Call) {
    match call {
        Call::First { place, .. } => *place = 3,
        Call::Ask(Request::Keep { place, .. } | Request::Limit { place, .. }) => *place = 3,
        Call::Mend { most } => *most = 8,
        _ => lent.roster[2] = 3,
    }
}

/// No roster is allowed, in the opening and in a session whatever is asked of it. Masks play no
/// part in a report: for it, no word is accepted.
fn leave_no_roster(lent: &mut Lent, call: Call) {
    if call == Call::Report {
        lent.rules.accepting = 0;
        return;
    }
    lent.masks[1] = 0;
    stand(lent, vec![Entry::Keep { place: 0, mask: 7 }, Entry::Mark]);
}
