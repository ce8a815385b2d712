//! The edges of every size: one change at a time in all that a call is lent or handed, and the
//! smallest and the largest problems there are.

use super::patternjobs::LONGEST_SHEET;
use super::walks::{keep, limit, open_on_w, BACK, MARK};
use crate::cases::Problem;
use crate::rules::{Rules, MOST_COST, MOST_LIMIT, NO_ARC, TABLE};
use crate::samples::COLLEAGUES;
use crate::script::{Call, Lent, Script, Slice};
use crate::session::{Entry, Request, Session};
use crate::sheet::sheet_of;
use crate::worked::W;

/// A right call of each kind upon `all_right`.
pub const CALLS: [Call; 11] = [
    Call::Filter,
    Call::First { place: 1, value: 1 },
    Call::Report,
    Call::Read,
    Call::Write,
    Call::Open,
    Call::Ask(Request::Keep { place: 1, mask: 3 }),
    Call::Ask(Request::Limit { place: 1, limit: 3 }),
    MARK,
    BACK,
    Call::Job,
];

/// The calls that came with request 1. Their cases stand behind all others.
pub const MENDING_CALLS: [Call; 3] =
    [Call::Mend { most: 2 }, Call::Check { claimed: 2 }, Call::MendJob];

/// The calls that came with request 7, behind those.
pub const PATTERN_CALLS: [Call; 2] = [Call::Pattern, Call::PatternJob];

/// W with everything right for every call but `PATTERN_CALLS`: the session has a mark that can be
/// taken back.
pub fn all_right() -> Lent {
    let mut lent = open_on_w();
    lent.work.fill(5);
    lent.roster = vec![1, 1, 2];
    lent.drawn = vec![1, 0, 0];
    lent.plan.fill(5);
    lent.input = W.as_bytes().to_vec();
    lent.output = vec![b'?'; W.len()];
    stand(&mut lent, vec![Entry::Keep { place: 0, mask: 7 }, Entry::Mark]);
    lent
}

/// The same with an input that is right for the call.
pub fn right_for(call: Call) -> Lent {
    match call {
        Call::Pattern => Lent { input: COLLEAGUES.as_bytes().to_vec(), ..all_right() },
        Call::PatternJob => {
            let (input, output) = (format!("3\t{COLLEAGUES}\n"), vec![b'?'; LONGEST_SHEET]);
            Lent { input: input.into_bytes(), output, ..all_right() }
        }
        _ => all_right(),
    }
}

/// Memory in which these entries stand.
pub fn stand(lent: &mut Lent, entries: Vec<Entry>) {
    let session = Session { masks: lent.masks.clone(), limits: lent.limits.clone(), entries };
    (_, lent.session) = session.image(&lent.rules);
}

/// Every call with one thing changed, at and beside the edges.
pub fn faults(script: &mut Script) {
    CALLS.into_iter().for_each(|call| faults_of(script, call));
}

pub fn faults_of(script: &mut Script, call: Call) {
    script.begin(&format!("edges of {}", call.name()));
    let right = right_for(call);
    let mut changed = other_lengths(&right, call);
    if call.uses_sizes() {
        changed.extend(other_sizes(&right));
    }
    if call.uses().contains(&Slice::Targets) {
        changed.extend(other_tables(&right));
    }
    if call.uses().contains(&Slice::Masks) {
        changed.extend(other_masks(&right));
    }
    if matches!(call, Call::Report | Call::Check { .. }) {
        changed.extend(other_rosters(&right));
    }
    if call.uses().contains(&Slice::Drawn) {
        changed.extend(other_drawn(&right));
    }
    for mut lent in changed {
        script.call(&mut lent, call);
    }
    for other in other_numbers(call) {
        script.call(&mut right.clone(), other);
    }
}

/// A copy with one change.
fn with(right: &Lent, change: impl FnOnce(&mut Lent)) -> Lent {
    let mut lent = right.clone();
    change(&mut lent);
    lent
}

/// Each slice one entry too short or too long, and empty.
fn other_lengths(right: &Lent, call: Call) -> Vec<Lent> {
    let lengths: [fn(usize) -> usize; 3] = [|length| length - 1, |length| length + 1, |_| 0];
    let pairs = call.uses().iter().flat_map(|slice| lengths.map(|other| (*slice, other)));
    pairs.map(|(slice, other)| with(right, |lent| lent.change_length(slice, other))).collect()
}

/// Numbers that equal a right one once they are cut to 8, 16 or 32 bits.
fn cut_right(right: usize) -> [usize; 3] {
    [right + (1 << 8), right + (1 << 16), right + (1 << 32)]
}

fn other_sizes(right: &Lent) -> Vec<Lent> {
    let mut changed = Vec::new();
    for places in [&[0, 1, 2, 4, 366, 367, usize::MAX][..], &cut_right(3)].concat() {
        changed.push(with(right, |lent| lent.places = places));
    }
    for states in [&[0, 1, 5, 7, 64, 65, usize::MAX][..], &cut_right(6)].concat() {
        changed.push(with(right, |lent| lent.rules.states = states));
    }
    for values in [&[0, 1, 2, 4, 16, 17, usize::MAX][..], &cut_right(3)].concat() {
        changed.push(with(right, |lent| lent.rules.values = values));
    }
    for start in [5, 6, 64, 255] {
        changed.push(with(right, |lent| lent.rules.start = start));
    }
    changed
}

/// Targets, costs and accepting bits at the edges, at the first and the last arc and past it.
fn other_tables(right: &Lent) -> Vec<Lent> {
    let mut changed = Vec::new();
    for place in [0, 17, 18] {
        for target in [5, 6, 64, 254, NO_ARC] {
            changed.push(with(right, |lent| lent.rules.targets[place] = target));
        }
        for cost in [1, 1_000, 1_001, u16::MAX] {
            changed.push(with(right, |lent| lent.rules.costs[place] = cost));
        }
    }
    for bit in [5, 6, 63] {
        changed.push(with(right, |lent| lent.rules.accepting |= 1 << bit));
    }
    changed
}

fn other_masks(right: &Lent) -> Vec<Lent> {
    let mut changed = Vec::new();
    for place in [0, 2] {
        for mask in [0, 1, 4, 8, 15, 1 << 15, u16::MAX] {
            changed.push(with(right, |lent| lent.masks[place] = mask));
        }
        for most in [0, 1, 2, MOST_LIMIT - 1, MOST_LIMIT, MOST_LIMIT + 1, u32::MAX] {
            changed.push(with(right, |lent| lent.limits[place] = most));
        }
    }
    changed
}

/// Values out of range, also behind the first missing arc, and values with no arc.
fn other_rosters(right: &Lent) -> Vec<Lent> {
    let rosters = [[3, 1, 2], [1, 1, 3], [0, 1, 255], [0, 1, 16], [0, 1, 2], [0, 0, 2], [2, 2, 2]];
    rosters.map(|roster| with(right, |lent| lent.roster = roster.to_vec())).to_vec()
}

/// Drawn values out of range, rosters that are not accepted, and one that is.
fn other_drawn(right: &Lent) -> Vec<Lent> {
    let rosters = [[3, 1, 2], [1, 1, 3], [0, 1, 255], [16, 1, 2], [0, 1, 2], [0, 0, 2], [2, 2, 2]];
    rosters.map(|roster| with(right, |lent| lent.drawn = roster.to_vec())).to_vec()
}

/// The call with other numbers of its own.
fn other_numbers(call: Call) -> Vec<Call> {
    let places = [&[0, 1, 2, 3, 366, usize::MAX][..], &cut_right(1)].concat();
    let places = places.into_iter();
    match call {
        Call::First { value, .. } => {
            let values = [0, 2, 3, 16, 255].map(|value| Call::First { place: 1, value });
            places.map(|place| Call::First { place, value }).chain(values).collect()
        }
        Call::Ask(Request::Keep { mask, .. }) => {
            let masks = [0, 1, 7, 8, 1 << 15, u16::MAX].map(|mask| keep(1, mask));
            places.map(|place| keep(place, mask)).chain(masks).collect()
        }
        Call::Ask(Request::Limit { limit: most, .. }) => {
            let limits = [0, 1, 2, MOST_LIMIT - 1, MOST_LIMIT, MOST_LIMIT + 1, u32::MAX];
            let limits = limits.map(|most| limit(1, most));
            places.map(|place| limit(place, most)).chain(limits).collect()
        }
        Call::Mend { .. } => {
            let beside = [&[0, 1, 2, 3, 7, 8, 9, u32::MAX][..], &CUT_TO_7].concat();
            beside.into_iter().map(|most| Call::Mend { most }).collect()
        }
        Call::Check { .. } => {
            let beside = [&[0, 1, 2, 3, 7, 8, 9, u32::MAX][..], &CUT_TO_2].concat();
            beside.into_iter().map(|claimed| Call::Check { claimed }).collect()
        }
        _ => Vec::new(),
    }
}

/// Numbers that equal 7, or 2, once they are cut to 8 or 16 bits.
const CUT_TO_7: [u32; 2] = [7 + (1 << 8), 7 + (1 << 16)];
const CUT_TO_2: [u32; 2] = [2 + (1 << 8), 2 + (1 << 16)];

/// Every arc leads to the last state, where all begins, and is as dear as it may be.
pub fn dearest(places: usize, states: usize, values: usize) -> Lent {
    let rules = Rules {
        states,
        values,
        start: states as u8 - 1,
        targets: vec![states as u8 - 1; TABLE],
        costs: vec![MOST_COST; TABLE],
        accepting: 1 << (states - 1),
    };
    let (masks, limits) = (vec![rules.full_mask(); places], vec![u32::MAX; places]);
    let lent = Lent::of(Problem { places, rules, masks, limits });
    let output = vec![b'?'; sheet_of(&lent.rules).len()];
    Lent { roster: vec![values as u8 - 1; places], output, ..lent }
}

/// The last value at the last place.
fn last(lent: &Lent) -> (usize, usize) {
    (lent.places - 1, lent.rules.values - 1)
}

/// The smallest and the largest of each size, and a place too many with all lengths right.
pub fn sizes(script: &mut Script) {
    let least_and_most = [(1, 1, 1), (366, 1, 1), (1, 64, 1), (1, 1, 16), (366, 64, 16)];
    for (places, states, values) in [&least_and_most[..], &[(367, 64, 16)]].concat() {
        script.begin(&format!("{places} places, {states} states, {values} values"));
        let mut lent = dearest(places, states, values);
        let (place, value) = last(&lent);
        let first = Call::First { place, value: value as u8 };
        let decisions = [keep(place, 1 << value), limit(place, MOST_LIMIT), limit(0, 999)];
        let before = [Call::Filter, Call::Report, first, Call::Write, Call::Open, MARK];
        for call in [&before[..], &decisions, &[BACK]].concat() {
            script.call(&mut lent, call);
        }
    }
}

/// The dearest roster of all passes the last limit or does not.
pub fn limits(script: &mut Script) {
    script.begin("limits about 366,000");
    let mut lent = dearest(366, 1, 1);
    let (place, _) = last(&lent);
    for most in [MOST_LIMIT - 1, MOST_LIMIT, MOST_LIMIT + 1, u32::MAX] {
        lent.limits[place] = most;
        let calls = [Call::Filter, Call::First { place, value: 0 }, Call::Open, MARK, BACK];
        for call in calls {
            script.call(&mut lent, call);
        }
    }
    for most in [u32::MAX, MOST_LIMIT + 1, MOST_LIMIT, MOST_LIMIT - 1] {
        script.call(&mut lent, limit(place, most));
    }
}
