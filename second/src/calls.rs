//! The calls filter and first roster: what was lent to answer, carried number and slices.

use crate::answer::{require, require_lengths, Answer};
use crate::rules::{check_places, work_length, Case, Found, Rules};
use crate::tables;

/// The checks 1 and 2 of both calls: `outputs` is the length of the output slice.
fn check_lent(
    places: usize,
    rules: &Rules,
    masks: &[u16],
    limits: &[u32],
    outputs: usize,
    work: &[u32],
) -> Result<(), Answer> {
    check_places(places)?;
    rules.check_sizes()?;
    rules.check_lengths()?;
    require_lengths(&[
        (masks.len(), places),
        (limits.len(), places),
        (outputs, places),
        (work.len(), work_length(places)),
    ])
}

/// The answer and the least cost.
pub fn filter(
    places: usize,
    rules: &Rules,
    masks: &[u16],
    limits: &[u32],
    kept: &mut [u16],
    work: &mut [u32],
) -> (Answer, u32) {
    if let Err(answer) = check_lent(places, rules, masks, limits, kept.len(), work) {
        return (answer, 0);
    }
    // "Every call lent a work table leaves it all zeros, except under answers 1 and 2."
    work.fill(0);
    if let Err(answer) = rules.check_tables().and_then(|()| rules.check_masks(masks)) {
        return (answer, 0);
    }
    match tables::filter(&Case { rules, masks, limits }) {
        Some(Found { kept: found, least }) => {
            kept.copy_from_slice(&found);
            (Answer::Done, least)
        }
        // "If no roster is allowed, every kept mask is 0 and the least cost is 0."
        None => {
            kept.fill(0);
            (Answer::NoRoster, 0)
        }
    }
}

#[allow(clippy::too_many_arguments)]
pub fn first_roster(
    places: usize,
    rules: &Rules,
    masks: &[u16],
    limits: &[u32],
    place: usize,
    value: u8,
    roster: &mut [u8],
    work: &mut [u32],
) -> Answer {
    if let Err(answer) = check_lent(places, rules, masks, limits, roster.len(), work) {
        return answer;
    }
    work.fill(0);
    let in_range = place < places && usize::from(value) < rules.values;
    let checks = rules
        .check_tables()
        .and_then(|()| rules.check_masks(masks))
        .and_then(|()| require(in_range, Answer::Range));
    if let Err(answer) = checks {
        return answer;
    }
    match tables::first_roster(&Case { rules, masks, limits }, place, value) {
        Some(found) => {
            roster.copy_from_slice(&found);
            Answer::Done
        }
        None => Answer::NoRoster,
    }
}

#[cfg(test)]
mod tests {
    use super::*;
    use crate::worked::{w, FIRST_CASES, KEPT_CASES};

    const DIRTY: u32 = 0xABCD_EF01;

    #[test]
    fn k1_to_k10_as_calls() {
        for worked in KEPT_CASES {
            let places = worked.masks.len();
            let (mut kept, mut work) = (vec![9; places], vec![DIRTY; work_length(places)]);
            let (answer, least) =
                filter(places, &w(), worked.masks, worked.limits, &mut kept, &mut work);
            assert_eq!((answer.number(), least), (worked.answer, worked.least), "{}", worked.name);
            assert_eq!(kept, worked.kept, "{}", worked.name);
            assert!(work.iter().all(|number| *number == 0));
        }
    }

    #[test]
    fn k11_and_k12_as_calls() {
        for worked in FIRST_CASES {
            let (mut roster, mut work) = ([9; 3], vec![DIRTY; 256]);
            let (place, value) = (worked.place, worked.value);
            let (masks, limits) = (worked.masks, worked.limits);
            let answer = first_roster(3, &w(), masks, limits, place, value, &mut roster, &mut work);
            assert_eq!(answer, Answer::Done);
            assert_eq!(roster, worked.roster, "{}", worked.name);
            assert_eq!(work, [0; 256]);
        }
    }

    /// A filter of three places with all lengths right: answer, least, kept, work.
    fn ask(rules: &Rules, masks: &[u16]) -> (Answer, u32, [u16; 3], Vec<u32>) {
        let (mut kept, mut work) = ([9; 3], vec![DIRTY; 256]);
        let (answer, least) = filter(3, rules, masks, &[5; 3], &mut kept, &mut work);
        (answer, least, kept, work)
    }

    #[test]
    fn sizes_and_lengths_change_nothing() {
        let wrong_start = Rules { start: 6, ..w() };
        let short_table = Rules { targets: vec![0; 1_023], ..w() };
        let untouched = |answer| (answer, 0, [9; 3], vec![DIRTY; 256]);
        assert_eq!(ask(&wrong_start, &[7; 3]), untouched(Answer::Sizes));
        assert_eq!(ask(&short_table, &[7; 3]), untouched(Answer::Lengths));
        assert_eq!(ask(&w(), &[7; 2]), untouched(Answer::Lengths));
    }

    #[test]
    fn tables_and_masks_only_clear_the_work_table() {
        let mut dear = w();
        dear.costs[0] = 1_001;
        let cleared = |answer| (answer, 0, [9; 3], vec![0; 256]);
        assert_eq!(ask(&dear, &[8; 3]), cleared(Answer::Tables));
        assert_eq!(ask(&w(), &[7, 8, 7]), cleared(Answer::Masks));
    }

    #[test]
    fn n_366_passes_and_367_gets_1() {
        for (places, expected) in [(366, Answer::Done), (367, Answer::Sizes)] {
            let (masks, limits) = (vec![7; places], vec![366_000; places]);
            let (mut kept, mut work) = (vec![0; places], vec![1; work_length(places)]);
            let (answer, _) = filter(places, &w(), &masks, &limits, &mut kept, &mut work);
            assert_eq!(answer, expected);
        }
    }

    /// A first roster of three places with all lengths right: answer, roster, work.
    fn first(masks: [u16; 3], place: usize, value: u8) -> (Answer, [u8; 3], Vec<u32>) {
        let (mut roster, mut work) = ([9; 3], vec![DIRTY; 256]);
        let answer = first_roster(3, &w(), &masks, &[9; 3], place, value, &mut roster, &mut work);
        (answer, roster, work)
    }

    #[test]
    fn first_roster_refuses_by_4_then_7_and_leaves_its_output_under_11() {
        let unchanged = |answer| (answer, [9; 3], vec![0; 256]);
        assert_eq!(first([8, 7, 7], 3, 3), unchanged(Answer::Masks));
        assert_eq!(first([7; 3], 3, 0), unchanged(Answer::Range));
        assert_eq!(first([7; 3], 0, 3), unchanged(Answer::Range));
        assert_eq!(first([7, 1, 7], 1, 1), unchanged(Answer::NoRoster));
    }
}
