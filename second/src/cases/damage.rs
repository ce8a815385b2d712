//! Damage to right problems: wrong numbers, or others that are right as well.

use crate::random::Random;
use crate::rules::{Rules, MOST_COST, MOST_STATES, MOST_VALUES, NO_ARC, TABLE};

/// Another length than the right one, mostly off by one.
pub fn another_length(random: &mut Random, length: usize) -> usize {
    match random.below(8) {
        0..=2 if length > 0 => length - 1,
        6 if length > 0 => 0,
        7 => 2 * length + 1,
        _ => length + 1,
    }
}

/// Other sizes: outside the range, off by one, or right only if cut to fewer bits.
pub fn damage_sizes(random: &mut Random, places: &mut usize, rules: &mut Rules) {
    match random.below(8) {
        0 => *places = wrong_size(random, *places, 367),
        1 => *places = beside(random, *places),
        2 => rules.states = wrong_size(random, rules.states, 65),
        3 => rules.states = beside(random, rules.states),
        4 => rules.values = wrong_size(random, rules.values, 17),
        5 => rules.values = beside(random, rules.values),
        6 => rules.start = random.pick(&[rules.states as u8, 64, NO_ARC]),
        _ => rules.start = random.below(MOST_STATES) as u8,
    }
}

fn wrong_size(random: &mut Random, right: usize, first_above: usize) -> usize {
    let cut_right =
        [right.wrapping_add(1 << 8), right.wrapping_add(1 << 16), right.wrapping_add(1 << 32)];
    let cut_right = random.pick(&cut_right);
    random.pick(&[0, first_above, first_above + 1, usize::MAX, cut_right])
}

fn beside(random: &mut Random, number: usize) -> usize {
    random.pick(&[number.wrapping_sub(1), number.wrapping_add(1)])
}

/// One number of the tables changed, mostly to something wrong. It may be past the places
/// that play a part.
pub fn damage_tables(random: &mut Random, rules: &mut Rules) {
    let arcs = rules.states.saturating_mul(rules.values).clamp(1, TABLE - 1);
    let any = random.below(arcs);
    let place = random.pick(&[any, any, 0, arcs - 1, arcs]);
    if place >= rules.targets.len() || place >= rules.costs.len() {
        return;
    }
    match random.below(8) {
        0 => rules.targets[place] = rules.states as u8,
        1 => rules.targets[place] = random.pick(&[64, 128, 254]),
        2 => rules.targets[place] = NO_ARC,
        3 => rules.costs[place] = MOST_COST,
        4 => rules.costs[place] = random.pick(&[MOST_COST + 1, u16::MAX]),
        5 => rules.accepting |= 1 << random.pick(&[rules.states.min(63), 63]),
        6 => rules.accepting ^= 1 << random.below(MOST_STATES),
        _ => {
            rules.targets[place] = random.below(rules.states.clamp(1, 256)) as u8;
            rules.costs[place] = random.below(8) as u16;
        }
    }
}

/// A bit at or above V in one mask, if there is room for one.
pub fn damage_masks(random: &mut Random, rules: &Rules, masks: &mut [u16]) {
    let bit = random.pick(&[rules.values, 15]);
    if (rules.values..MOST_VALUES).contains(&bit) && !masks.is_empty() {
        masks[random.below(masks.len())] |= 1 << bit;
    }
}
