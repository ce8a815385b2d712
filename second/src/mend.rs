//! The calls mend and check: a drawn roster mended with as few changes as can be, and a proposal
//! judged, whoever made it.
//!
//! Mending for any n goes by tables that count changes. Masks, arcs, limits and the drawn roster
//! meet a prefix only through its last state, its running cost and its number of changes, and
//! every limit is an upper bound on a running cost. So of each place, state and number of changes
//! still to be made it is enough to know the greatest running cost with which some way goes on
//! from there to an accepting end with just so many changes.

use crate::answer::{require, require_lengths, Answer};
use crate::rules::{check_places, work_length, Case, Rules, MOST_LIMIT};

/// "k from 0 to 7".
pub const MOST_CHANGES: u32 = 7;

/// "a work table of exactly 8 × (n + 1) × 64 32-bit numbers".
pub fn plan_length(places: usize) -> usize {
    8 * work_length(places)
}

/// In how many places two rosters differ.
pub fn changes(drawn: &[u8], roster: &[u8]) -> usize {
    drawn.iter().zip(roster).filter(|(old, new)| old != new).count()
}

/// What a planner is asked about: a right case, and a right roster drawn for it.
#[derive(Clone, Copy, Debug)]
pub struct Drawn<'a> {
    pub case: Case<'a>,
    pub roster: &'a [u8],
}

/// By the changes still to be made and the state; none if there is no way.
type Layer = Vec<Vec<Option<u32>>>;

impl Drawn<'_> {
    /// 1 if a value at a place is a change, else 0.
    fn change(&self, place: usize, value: usize) -> usize {
        usize::from(usize::from(self.roster[place]) != value)
    }

    /// After the last place no change is left to be made, and no limit is left.
    fn last_layer(&self, most: usize) -> Layer {
        let rules = self.case.rules;
        let end = |state| rules.accepts(state).then_some(MOST_LIMIT);
        let mut layer = vec![vec![None; rules.states]; most + 1];
        layer[0] = (0..rules.states).map(end).collect();
        layer
    }

    /// The greatest running cost with which a state before a place has a way to the end with so
    /// many changes from there on.
    fn most_before(&self, place: usize, left: usize, state: usize, after: &Layer) -> Option<u32> {
        let room_by = |value| {
            let (target, cost) = self.case.step(place, state, 0, value)?;
            let left = left.checked_sub(self.change(place, value))?;
            after[left][target]?.min(self.case.limit(place)).checked_sub(cost)
        };
        (0..self.case.rules.values).filter_map(room_by).max()
    }

    fn layers(&self, most: usize) -> Vec<Layer> {
        let mut layers = vec![self.last_layer(most)];
        for place in (0..self.case.places()).rev() {
            let after = &layers[layers.len() - 1];
            let of = |left| {
                let states = 0..self.case.rules.states;
                states.map(|state| self.most_before(place, left, state, after)).collect()
            };
            let before = (0..=most).map(of).collect();
            layers.push(before);
        }
        layers.reverse();
        layers
    }

    /// "an allowed roster that differs from the drawn one in the fewest places, at most k; among
    /// equals, the first in place-by-place order".
    pub fn mended(&self, most: usize) -> Option<Vec<u8>> {
        let layers = self.layers(most);
        let start = usize::from(self.case.rules.start);
        let mut left = (0..=most).find(|left| layers[0][*left][start].is_some())?;
        let mut at = (start, 0);
        let mut roster = Vec::new();
        for (place, after) in layers[1..].iter().enumerate() {
            let good_step = |value| {
                let (target, cost) = self.case.step(place, at.0, at.1, value)?;
                let left = left.checked_sub(self.change(place, value))?;
                (cost <= after[left][target]?).then_some((value, left, (target, cost)))
            };
            let (value, left_then, then) = (0..self.case.rules.values).find_map(good_step)?;
            roster.push(value as u8);
            (left, at) = (left_then, then);
        }
        Some(roster)
    }

    /// "says yes exactly if it is allowed and the number is right".
    pub fn is_right(&self, roster: &[u8], claimed: u32) -> bool {
        let mut at = (usize::from(self.case.rules.start), 0);
        for (place, value) in roster.iter().enumerate() {
            match self.case.step(place, at.0, at.1, usize::from(*value)) {
                Some(next) => at = next,
                None => return false,
            }
        }
        self.case.rules.accepts(at.0) && changes(self.roster, roster) as u64 == u64::from(claimed)
    }
}

/// The checks 1 and 2 that both calls share.
fn check_lent(places: usize, case: &Case, drawn: &[u8], roster: &[u8]) -> Result<(), Answer> {
    check_places(places)?;
    case.rules.check_sizes()?;
    case.rules.check_lengths()?;
    let lent = [case.masks.len(), case.limits.len(), drawn.len(), roster.len()];
    require_lengths(&lent.map(|length| (length, places)))
}

fn in_range(rules: &Rules, roster: &[u8]) -> bool {
    roster.iter().all(|value| usize::from(*value) < rules.values)
}

/// The checks 3, 4 and 7 of both calls.
fn check_content(case: &Case, in_range: bool) -> Result<(), Answer> {
    case.rules.check_tables()?;
    case.rules.check_masks(case.masks)?;
    require(in_range, Answer::Range)
}

/// The answer and the number of changes. "Answer 11, output unchanged, exactly if none has k
/// changes or fewer; k above 7 or a drawn value not below V gets 7."
pub fn mend(
    places: usize,
    case: &Case,
    drawn: &[u8],
    most: u32,
    roster: &mut [u8],
    plan: &mut [u32],
) -> (Answer, u32) {
    let checks = check_lent(places, case, drawn, roster)
        .and_then(|()| require_lengths(&[(plan.len(), plan_length(places))]));
    if let Err(answer) = checks {
        return (answer, 0);
    }
    // "cleared as in 01".
    plan.fill(0);
    let right = most <= MOST_CHANGES && in_range(case.rules, drawn);
    if let Err(answer) = check_content(case, right) {
        return (answer, 0);
    }
    match (Drawn { case: *case, roster: drawn }).mended(most as usize) {
        Some(found) => {
            roster.copy_from_slice(&found);
            (Answer::Done, changes(drawn, &found) as u32)
        }
        None => (Answer::NoRoster, 0),
    }
}

/// The answer, and whether the checker says yes.
pub fn check(
    places: usize,
    case: &Case,
    drawn: &[u8],
    roster: &[u8],
    claimed: u32,
) -> (Answer, bool) {
    let right = in_range(case.rules, drawn) && in_range(case.rules, roster);
    let checks = check_lent(places, case, drawn, roster);
    if let Err(answer) = checks.and_then(|()| check_content(case, right)) {
        return (answer, false);
    }
    (Answer::Done, Drawn { case: *case, roster: drawn }.is_right(roster, claimed))
}

#[cfg(test)]
mod tests;
