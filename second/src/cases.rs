//! Random problems for tests and scripts.

pub mod damage;
pub mod patterns;

use crate::random::Random;
use crate::rules::{work_length, Case, Rules};
use crate::rules::{MOST_COST, MOST_LIMIT, MOST_PLACES, MOST_STATES, MOST_VALUES, NO_ARC, TABLE};
use crate::worked::w;

/// How large a problem may be.
#[derive(Clone, Copy, Debug, PartialEq, Eq)]
pub enum Scale {
    /// Brute force is feasible.
    Small,
    Middle,
    /// Few states, so that many arcs lead into each, and up to the paper's most values.
    Wide,
    /// Up to the paper's sizes.
    Full,
}

impl Scale {
    /// The most places, states and values.
    fn most(self) -> (usize, usize, usize) {
        match self {
            Scale::Small => (6, 6, 4),
            Scale::Middle => (20, 12, 6),
            Scale::Wide => (30, 8, MOST_VALUES),
            Scale::Full => (MOST_PLACES, MOST_STATES, MOST_VALUES),
        }
    }

    /// Mostly small, since a script of full problems would be long.
    pub fn any(random: &mut Random) -> Scale {
        match random.below(100) {
            0..=2 => Scale::Full,
            3..=14 => Scale::Wide,
            15..=24 => Scale::Middle,
            _ => Scale::Small,
        }
    }
}

/// Rules with masks and limits, as a filter is lent them.
#[derive(Clone, Debug, PartialEq, Eq)]
pub struct Problem {
    pub places: usize,
    pub rules: Rules,
    pub masks: Vec<u16>,
    pub limits: Vec<u32>,
}

impl Problem {
    pub fn case(&self) -> Case<'_> {
        Case { rules: &self.rules, masks: &self.masks, limits: &self.limits }
    }
}

/// A number from 1 to `most`, the ends more often than the rest.
fn size(random: &mut Random, most: usize) -> usize {
    match random.below(7) {
        0 => 1,
        1 => most,
        _ => random.from_to(1, most),
    }
}

/// A right rule set. What stands past the places that play a part is one number throughout,
/// mostly one that would be wrong if it played a part.
pub fn rules(random: &mut Random, scale: Scale) -> Rules {
    if random.percent(10) {
        return w();
    }
    let (_, most_states, most_values) = scale.most();
    let (states, values) = (size(random, most_states), size(random, most_values));
    let (target, cost) = random.pick(&[(77, 7_777), (77, 7_777), (77, 7_777), (NO_ARC, 1), (0, 0)]);
    let mut rules = Rules {
        states,
        values,
        start: random.below(states) as u8,
        targets: vec![target; TABLE],
        costs: vec![cost; TABLE],
        accepting: random.number() & states_mask(states),
    };
    let arcs_in_100 = random.pick(&[30, 60, 90, 100]);
    let most_cost = random.pick(&[0, 1, 3, 20, MOST_COST, MOST_COST]);
    // Now and then all arcs lead into a few states.
    let ends = random.pick(&[states, states, states.div_ceil(2), states.div_ceil(8)]);
    for place in 0..states * values {
        let arc = random.percent(arcs_in_100).then(|| random_arc(random, ends, most_cost));
        (rules.targets[place], rules.costs[place]) = arc.unwrap_or((NO_ARC, 0));
    }
    rules
}

/// A right rule set of up to 3 states and 2 values, each size, start, set of accepting states and
/// set of arcs as likely as another. What stands past its places would be wrong there.
pub fn tiny_rules(random: &mut Random) -> Rules {
    let (states, values) = (random.from_to(1, 3), random.from_to(1, 2));
    let mut rules = Rules {
        states,
        values,
        start: random.below(states) as u8,
        targets: vec![77; TABLE],
        costs: vec![7_777; TABLE],
        accepting: random.number() & states_mask(states),
    };
    for place in 0..states * values {
        let arc = random.below(states + 1) as u8;
        let missing = usize::from(arc) == states;
        rules.targets[place] = if missing { NO_ARC } else { arc };
        rules.costs[place] = if missing { 0 } else { random.pick(&[0, MOST_COST]) };
    }
    rules
}

fn states_mask(states: usize) -> u64 {
    u64::MAX >> (MOST_STATES - states)
}

fn random_arc(random: &mut Random, ends: usize, most_cost: u16) -> (u8, u16) {
    let target = random.below(ends) as u8;
    (target, random.below(usize::from(most_cost) + 1) as u16)
}

/// A random way through the rules, until it is stuck.
struct Way {
    /// The value and the running cost at each place.
    steps: Vec<(usize, u32)>,
    last_state: usize,
}

impl Way {
    fn cost(&self) -> u32 {
        self.steps.last().map_or(0, |(_, spent)| *spent)
    }

    fn cost_at(&self, place: usize) -> u32 {
        self.steps.get(place).map_or(self.cost(), |(_, spent)| *spent)
    }
}

/// The thriftier a way is, the more its costs bind as limits.
fn walk(random: &mut Random, places: usize, rules: &Rules) -> Way {
    let thrift = random.pick(&[1, 4, 32]);
    let mut way = Way { steps: Vec::new(), last_state: usize::from(rules.start) };
    for _ in 0..places {
        let arc = cheapest_drawn(random, rules, way.last_state, thrift);
        let Some((value, (target, cost))) = arc else {
            break;
        };
        way.steps.push((value, way.cost() + cost));
        way.last_state = target;
    }
    way
}

/// The cheapest of some arcs drawn at random, with its value, if the state has any.
fn cheapest_drawn(
    random: &mut Random,
    rules: &Rules,
    state: usize,
    draws: usize,
) -> Option<(usize, (usize, u32))> {
    let arcs = (0..rules.values).filter_map(|value| Some((value, rules.arc(state, value)?)));
    let arcs: Vec<_> = arcs.collect();
    let draws = if arcs.is_empty() { 0 } else { draws };
    let drawn = (0..draws).map(|_| random.pick(&arcs));
    drawn.min_by_key(|(_, (_, cost))| *cost)
}

/// A right problem, made around a random way so that its limits bind and rosters are not rare.
pub fn problem(random: &mut Random, scale: Scale) -> Problem {
    let mut rules = rules(random, scale);
    let places = size(random, scale.most().0);
    let way = walk(random, places, &rules);
    if random.percent(60) {
        rules.accepting |= 1 << way.last_state;
    }
    let masks = masks(random, places, &rules, &way);
    let limits = limits(random, places, &way);
    Problem { places, rules, masks, limits }
}

fn masks(random: &mut Random, places: usize, rules: &Rules, way: &Way) -> Vec<u16> {
    let style = random.below(9);
    let full = rules.full_mask();
    let mut masks: Vec<u16> = (0..places).map(|_| random.number() as u16 & full).collect();
    match style {
        0 | 1 => masks.fill(full),
        2 => way.steps.iter().zip(&mut masks).for_each(|((value, _), mask)| *mask |= 1 << value),
        3 => masks.iter_mut().for_each(|mask| *mask |= random.number() as u16 & full),
        4 | 5 => repeat(random, full, &mut masks),
        _ => thin_out(random, rules.values, way, &mut masks),
    }
    if random.percent(4) {
        masks[random.below(places)] = 0;
    }
    masks
}

/// Masks that repeat: one mask in each long run, full masks broken now and then, or a few masks
/// by turns.
fn repeat(random: &mut Random, full: u16, masks: &mut [u16]) {
    let wide = |random: &mut Random| (random.number() | random.number()) as u16 & full;
    match random.below(3) {
        0 => {
            let most = random.pick(&[10, 40, 366]);
            for run in masks.chunks_mut(random.from_to(2, most)) {
                let mask = wide(random);
                run.fill(mask);
            }
        }
        1 => {
            let broken = random.from_to(2, 60);
            for (place, mask) in masks.iter_mut().enumerate() {
                *mask = if place % broken == 1 { wide(random) } else { full };
            }
        }
        _ => {
            let turns = random.from_to(1, 9);
            for place in turns..masks.len() {
                masks[place] = masks[place - turns];
            }
        }
    }
}

/// Sparse masks: at each place the way's value, or any where it is stuck, and now and then one or
/// two more.
fn thin_out(random: &mut Random, values: usize, way: &Way, masks: &mut [u16]) {
    let most = random.from_to(1, 3);
    for (place, mask) in masks.iter_mut().enumerate() {
        let value = way.steps.get(place).map_or(random.below(values), |(value, _)| *value);
        *mask = 1 << value;
        (1..random.from_to(1, most)).for_each(|_| *mask |= 1 << random.below(values));
    }
}

fn limits(random: &mut Random, places: usize, way: &Way) -> Vec<u32> {
    let style = random.below(11);
    let tight_place = random.below(places);
    let late = places - random.from_to(1, places.min(9));
    (0..places)
        .map(|place| match style {
            0 => MOST_LIMIT,
            1 => random.pick(&[MOST_LIMIT, MOST_LIMIT + 1, u32::MAX, 1 << 31, MOST_LIMIT - 1]),
            2 | 3 => near(random, way.cost_at(place)),
            4 => {
                let bound = near(random, way.cost_at(place));
                random.pick(&[bound, MOST_LIMIT, u32::MAX])
            }
            // Limits that fall along the places, down to the way's whole cost.
            5 => way.cost() + (places - 1 - place) as u32 + random.below(2) as u32,
            6 => near(random, way.cost()),
            7 if place == tight_place => near(random, way.cost_at(place)),
            7 => MOST_LIMIT,
            // Limits that bind late.
            8 | 9 if place >= late => near(random, way.cost_at(place)),
            8 | 9 => MOST_LIMIT,
            _ => random.below(2 * way.cost() as usize + 2) as u32,
        })
        .collect()
}

/// A number a little above another, seldom a little below.
fn near(random: &mut Random, number: u32) -> u32 {
    match random.below(12) {
        0 => number.saturating_sub(1),
        1..=4 => number,
        _ => number + random.below(4) as u32,
    }
}

/// A work table for a problem, mostly dirty: one number throughout, or a few among zeros.
pub fn work(random: &mut Random, places: usize) -> Vec<u32> {
    let length = work_length(places);
    let number = random.pick(&[0, 1, 366_000, u32::MAX]);
    let mut work = vec![number; length];
    if random.percent(50) {
        work.fill(0);
        let dirt = random.from_to(1, 3);
        (0..dirt).for_each(|_| work[random.below(length)] = random.number() as u32);
    }
    work
}

#[cfg(test)]
mod tests {
    use super::damage::{another_length, damage_masks, damage_sizes, damage_tables};
    use super::*;

    #[test]
    fn a_third_of_the_problems_have_sparse_masks() {
        let mut sparse = 0;
        for case in 0..600 {
            let mut random = Random::for_case(4, case);
            let problem = problem(&mut random, Scale::Wide);
            let few = problem.masks.iter().all(|mask| mask.count_ones() <= 3);
            sparse += usize::from(few && problem.rules.values > 6 && problem.places > 6);
        }
        assert!((60..300).contains(&sparse), "{sparse} sparse");
    }

    #[test]
    fn problems_are_right_and_most_damage_is_seen() {
        let mut refused = 0;
        for case in 0..500 {
            let mut random = Random::for_case(3, case);
            let scale = Scale::any(&mut random);
            let mut problem = problem(&mut random, scale);
            assert!(problem.case().is_right(problem.places), "{problem:?}");
            match case % 4 {
                0 => damage_sizes(&mut random, &mut problem.places, &mut problem.rules),
                1 => damage_tables(&mut random, &mut problem.rules),
                2 => damage_masks(&mut random, &problem.rules, &mut problem.masks),
                _ => {
                    let length = another_length(&mut random, problem.places);
                    problem.limits.resize(length, 0);
                }
            }
            refused += usize::from(!problem.case().is_right(problem.places));
        }
        assert!((250..500).contains(&refused), "{refused} refused");
    }
}
