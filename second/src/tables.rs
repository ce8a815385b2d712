//! Filter and first roster for any n, by two tables over layers and states.
//!
//! Why they are exact. Masks, arcs and limits meet a prefix only through its last state and
//! its running cost, and every limit is an upper bound on a running cost. So for one suffix
//! from state q the running costs with which q may be entered are all those up to some
//! bound, and for all suffixes together all those up to the greatest of these bounds
//! (`most_spent`). If any prefix into q meets it, then so does the one of least running cost
//! among those within masks and limits (`least_spent`). A value therefore has an allowed
//! roster at a place exactly if, for some state, the least spent there plus the arc's cost
//! is within the place's limit and within the most spent of the arc's target.

use crate::rules::{narrowed, Case, Found, MOST_LIMIT};

/// A number for each layer of the unrolled automaton and each state; none if there is no way.
type Layers = Vec<Vec<Option<u32>>>;

/// The least running cost with which each state stands before each place, and after the last.
fn least_spent(case: &Case) -> Layers {
    let mut before = vec![None; case.rules.states];
    before[usize::from(case.rules.start)] = Some(0);
    let mut layers = vec![before];
    for place in 0..case.places() {
        layers.push(least_after(case, place, &layers[place]));
    }
    layers
}

fn least_after(case: &Case, place: usize, before: &[Option<u32>]) -> Vec<Option<u32>> {
    let mut after: Vec<Option<u32>> = vec![None; case.rules.states];
    for (state, spent) in present(before) {
        for value in 0..case.rules.values {
            if let Some((target, cost)) = case.step(place, state, spent, value) {
                let least = after[target].map_or(cost, |other| other.min(cost));
                after[target] = Some(least);
            }
        }
    }
    after
}

fn present(layer: &[Option<u32>]) -> impl Iterator<Item = (usize, u32)> + '_ {
    layer.iter().enumerate().filter_map(|(state, number)| number.map(|number| (state, number)))
}

/// The greatest running cost with which each state before each place still has a way to an
/// accepting end within masks and limits. After the last place no limit is left, and no
/// roster passes the greatest limit, so that one stands there.
fn most_spent(case: &Case) -> Layers {
    let end = |state| case.rules.accepts(state).then_some(MOST_LIMIT);
    let mut layers = vec![(0..case.rules.states).map(end).collect::<Vec<_>>()];
    for place in (0..case.places()).rev() {
        let after = &layers[layers.len() - 1];
        let before = (0..case.rules.states).map(|state| most_before(case, place, state, after));
        let before = before.collect();
        layers.push(before);
    }
    layers.reverse();
    layers
}

fn most_before(case: &Case, place: usize, state: usize, after: &[Option<u32>]) -> Option<u32> {
    let room_by = |value| {
        let (target, cost) = case.step(place, state, 0, value)?;
        after[target]?.min(case.limit(place)).checked_sub(cost)
    };
    (0..case.rules.values).filter_map(room_by).max()
}

/// The step on a value, if it leaves a way to the end.
fn good_step(
    case: &Case,
    most: &Layers,
    place: usize,
    (state, spent): (usize, u32),
    value: usize,
) -> Option<(usize, u32)> {
    let (target, cost) = case.step(place, state, spent, value)?;
    (cost <= most[place + 1][target]?).then_some((target, cost))
}

pub fn filter(case: &Case) -> Option<Found> {
    let (least, most) = (least_spent(case), most_spent(case));
    let ends = present(&least[case.places()]).filter(|(state, _)| case.rules.accepts(*state));
    let cheapest = ends.map(|(_, spent)| spent).min()?;
    let kept = (0..case.places()).map(|place| kept_at(case, &least, &most, place)).collect();
    Some(Found { kept, least: cheapest })
}

fn kept_at(case: &Case, least: &Layers, most: &Layers, place: usize) -> u16 {
    let is_good = |value, at| good_step(case, most, place, at, value).is_some();
    case.rules.mask_of(|value| present(&least[place]).any(|at| is_good(value, at)))
}

pub fn first_roster(case: &Case, place: usize, value: u8) -> Option<Vec<u8>> {
    let masks = narrowed(case.masks, place, value);
    let case = Case { masks: &masks, ..*case };
    let most = most_spent(&case);
    case.smallest_roster(|place, at, value| good_step(&case, &most, place, at, value))
}

#[cfg(test)]
mod tests {
    use super::*;
    use crate::rules::{Rules, TABLE};
    use crate::worked::{check_first_cases, check_kept_cases, w};

    #[test]
    fn k1_to_k12() {
        check_kept_cases(filter);
        check_first_cases(first_roster);
    }

    #[test]
    fn the_dearest_roster_of_all_is_allowed_by_366000_and_not_by_less() {
        let dear = Rules { targets: vec![0; TABLE], costs: vec![1_000; TABLE], ..w() };
        let mut limits = vec![u32::MAX; 366];
        let masks = vec![7; 366];
        let found = Found { kept: masks.clone(), least: MOST_LIMIT };
        let ask = |limits: &[u32]| filter(&Case { rules: &dear, masks: &masks, limits });
        assert_eq!(ask(&limits), Some(found.clone()));
        limits[365] = MOST_LIMIT;
        assert_eq!(ask(&limits), Some(found));
        limits[365] = MOST_LIMIT - 1;
        assert_eq!(ask(&limits), None);
    }

    #[test]
    fn a_first_roster_with_a_value_outside_its_mask_is_none() {
        let rules = w();
        let case = Case { rules: &rules, masks: &[7, 1, 7], limits: &[MOST_LIMIT; 3] };
        assert_eq!(first_roster(&case, 1, 1), None);
        assert_eq!(first_roster(&case, 1, 0), Some(vec![0, 0, 2]));
    }
}
