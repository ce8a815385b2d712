use super::*;
use crate::worked::{w, Mended, MENDED_CASES};

const DIRTY: u32 = 0xABCD_EF01;

/// A planner of three places on W with all lengths right: answer, changes, roster, work table.
fn ask(masks: [u16; 3], drawn: [u8; 3], most: u32) -> (Answer, u32, [u8; 3], Vec<u32>) {
    let (mut roster, mut plan) = ([9; 3], vec![DIRTY; 2_048]);
    let rules = w();
    let case = Case { rules: &rules, masks: &masks, limits: &[9; 3] };
    let (answer, made) = mend(3, &case, &drawn, most, &mut roster, &mut plan);
    (answer, made, roster, plan)
}

#[test]
fn rosters_mended_on_w_as_calls() {
    let rules = w();
    for Mended { drawn, most, limits, masks, found } in MENDED_CASES {
        let (mut roster, mut plan) = ([9; 3], vec![DIRTY; 2_048]);
        let case = Case { rules: &rules, masks, limits };
        let (answer, made) = mend(3, &case, drawn, *most, &mut roster, &mut plan);
        match found {
            Some((count, mended)) => {
                assert_eq!((answer, made, roster), (Answer::Done, *count, *mended), "{drawn:?}");
                assert_eq!(check(3, &case, drawn, mended, made), (Answer::Done, true));
                assert_eq!(check(3, &case, drawn, mended, made + 1), (Answer::Done, false));
            }
            None => assert_eq!((answer, made, roster), (Answer::NoRoster, 0, [9; 3])),
        }
        assert!(plan.iter().all(|number| *number == 0));
    }
}

#[test]
fn the_work_table_has_8_rows_for_each_layer() {
    assert_eq!(plan_length(3), 2_048);
    assert_eq!(plan_length(366), 187_904);
}

#[test]
fn the_planner_refuses_by_4_then_7_and_leaves_its_output_under_11() {
    let unchanged = |answer| (answer, 0, [9; 3], vec![0; 2_048]);
    assert_eq!(ask([8, 7, 7], [0; 3], 8), unchanged(Answer::Masks));
    assert_eq!(ask([7; 3], [0; 3], 8), unchanged(Answer::Range));
    assert_eq!(ask([7; 3], [0, 0, 3], 7), unchanged(Answer::Range));
    assert_eq!(ask([7; 3], [2, 2, 0], 0), unchanged(Answer::NoRoster));
    assert_eq!(ask([7, 0, 7], [2, 2, 0], 7), unchanged(Answer::NoRoster));
}

#[test]
fn sizes_and_lengths_change_nothing() {
    let rules = w();
    let (masks, limits) = ([7; 3], [9; 3]);
    let case = Case { rules: &rules, masks: &masks, limits: &limits };
    let right = (3, 3, 2_048);
    for (drawn, roster, plan) in [(2, 3, 2_048), (3, 4, 2_048), (3, 3, 2_047), (3, 3, 256)] {
        assert_ne!((drawn, roster, plan), right);
        let (drawn, mut roster, mut plan) = (vec![0; drawn], vec![9; roster], vec![DIRTY; plan]);
        let before = (roster.clone(), plan.clone());
        let answer = mend(3, &case, &drawn, 9, &mut roster, &mut plan);
        assert_eq!(answer, (Answer::Lengths, 0));
        assert_eq!((roster, plan), before);
    }
    let mut plan = vec![DIRTY; 64];
    assert_eq!(mend(usize::MAX, &case, &[], 0, &mut [], &mut plan), (Answer::Sizes, 0));
    assert_eq!(plan, [DIRTY; 64]);
}

#[test]
fn the_checker_takes_any_claim_and_refuses_a_value_in_either_roster() {
    let rules = w();
    let (masks, limits) = ([7; 3], [9; 3]);
    let case = Case { rules: &rules, masks: &masks, limits: &limits };
    let says = |drawn: [u8; 3], roster: [u8; 3], claimed| check(3, &case, &drawn, &roster, claimed);
    assert_eq!(says([2, 2, 0], [2, 0, 0], 1), (Answer::Done, true));
    for claimed in [0, 2, 257, 65_537, u32::MAX] {
        assert_eq!(says([2, 2, 0], [2, 0, 0], claimed), (Answer::Done, false));
    }
    assert_eq!(says([0, 0, 0], [2, 2, 1], 3), (Answer::Done, true));
    assert_eq!(says([2, 2, 0], [2, 2, 0], 0), (Answer::Done, false));
    assert_eq!(says([2, 2, 3], [2, 0, 0], 1), (Answer::Range, false));
    assert_eq!(says([2, 2, 0], [3, 0, 0], 1), (Answer::Range, false));
}
