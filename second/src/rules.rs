//! The rule set as it is lent, and the checks that answers 1 to 4 speak of.

use crate::answer::{require, require_lengths, Answer};

pub const MOST_PLACES: usize = 366;
pub const MOST_STATES: usize = 64;
pub const MOST_VALUES: usize = 16;
pub const MOST_COST: u16 = 1_000;
/// "1,024 target bytes and 1,024 16-bit costs".
pub const TABLE: usize = 1_024;
/// "Target 255 means no arc".
pub const NO_ARC: u8 = 255;
/// "above 366,000 it counts as 366,000, which no roster can pass".
pub const MOST_LIMIT: u32 = 366_000;

/// What a caller lends as rules, right or wrong.
#[derive(Clone, Debug, PartialEq, Eq)]
pub struct Rules {
    pub states: usize,
    pub values: usize,
    pub start: u8,
    pub targets: Vec<u8>,
    pub costs: Vec<u16>,
    pub accepting: u64,
}

impl Rules {
    /// Answer 1, the part about Q, V and start.
    pub fn check_sizes(&self) -> Result<(), Answer> {
        let right = (1..=MOST_STATES).contains(&self.states)
            && (1..=MOST_VALUES).contains(&self.values)
            && usize::from(self.start) < self.states;
        require(right, Answer::Sizes)
    }

    /// Answer 2, the part about the two tables.
    pub fn check_lengths(&self) -> Result<(), Answer> {
        require_lengths(&[(self.targets.len(), TABLE), (self.costs.len(), TABLE)])
    }

    /// Answer 3. "Places from Q × V on play no part."
    pub fn check_tables(&self) -> Result<(), Answer> {
        let arcs_right = (0..self.states * self.values).all(|place| self.arc_is_right(place));
        let accepting_right = (self.states..MOST_STATES).all(|state| !self.accepts(state));
        require(arcs_right && accepting_right, Answer::Tables)
    }

    /// Whether answers 1, 2 and 3 do not concern the rules.
    pub fn is_right(&self) -> bool {
        self.check_sizes().is_ok() && self.check_lengths().is_ok() && self.check_tables().is_ok()
    }

    fn arc_is_right(&self, place: usize) -> bool {
        let (target, cost) = (self.targets[place], self.costs[place]);
        if target == NO_ARC {
            cost == 0
        } else {
            usize::from(target) < self.states && cost <= MOST_COST
        }
    }

    /// Answer 4.
    pub fn check_masks(&self, masks: &[u16]) -> Result<(), Answer> {
        let right = masks.iter().all(|mask| self.mask_in_range(u32::from(*mask)));
        require(right, Answer::Masks)
    }

    /// Whether a mask has no "bit at or above V".
    pub fn mask_in_range(&self, mask: u32) -> bool {
        mask >> self.values == 0
    }

    /// A choice of everything.
    pub fn full_mask(&self) -> u16 {
        self.mask_of(|_| true)
    }

    /// The mask of the values that something is true of.
    pub fn mask_of(&self, is_in: impl Fn(usize) -> bool) -> u16 {
        (0..self.values).filter(|value| is_in(*value)).fold(0, |mask, value| mask | 1 << value)
    }

    /// "The arc of state q on value v is at q × V + v": its target and cost, if there is one.
    pub fn arc(&self, state: usize, value: usize) -> Option<(usize, u32)> {
        let place = state * self.values + value;
        match self.targets[place] {
            NO_ARC => None,
            target => Some((usize::from(target), u32::from(self.costs[place]))),
        }
    }

    pub fn accepts(&self, state: usize) -> bool {
        self.accepting >> state & 1 == 1
    }
}

/// Answer 1, the part about n.
pub fn check_places(places: usize) -> Result<(), Answer> {
    require((1..=MOST_PLACES).contains(&places), Answer::Sizes)
}

/// "a work table of exactly (n + 1) × 64 32-bit numbers".
pub fn work_length(places: usize) -> usize {
    (places + 1) * 64
}

/// "value v being bit v".
pub fn holds(mask: u16, value: usize) -> bool {
    mask >> value & 1 == 1
}

/// A right rule set with a right mask and a limit for each place: what a filter is about.
#[derive(Clone, Copy, Debug)]
pub struct Case<'a> {
    pub rules: &'a Rules,
    pub masks: &'a [u16],
    pub limits: &'a [u32],
}

impl Case<'_> {
    pub fn places(&self) -> usize {
        self.masks.len()
    }

    /// Whether answers 1 to 4 do not concern the case with this many places, so that it has a
    /// meaning.
    pub fn is_right(&self, places: usize) -> bool {
        check_places(places).is_ok()
            && (self.masks.len(), self.limits.len()) == (places, places)
            && self.rules.is_right()
            && self.rules.check_masks(self.masks).is_ok()
    }

    pub fn limit(&self, place: usize) -> u32 {
        self.limits[place].min(MOST_LIMIT)
    }

    /// One step at a place from a state with some cost spent, if mask, arc and limit allow it.
    pub fn step(
        &self,
        place: usize,
        state: usize,
        spent: u32,
        value: usize,
    ) -> Option<(usize, u32)> {
        if !holds(self.masks[place], value) {
            return None;
        }
        let (target, cost) = self.rules.arc(state, value)?;
        (spent + cost <= self.limit(place)).then_some((target, spent + cost))
    }

    /// "each place takes the smallest value that still leaves a way to the end": `good_step` is
    /// the step at a place, from a state with some cost spent, on a value that does.
    pub fn smallest_roster(
        &self,
        good_step: impl Fn(usize, (usize, u32), usize) -> Option<(usize, u32)>,
    ) -> Option<Vec<u8>> {
        let mut at = (usize::from(self.rules.start), 0);
        let mut roster = Vec::new();
        for place in 0..self.places() {
            let step = |value| Some((value, good_step(place, at, value)?));
            let (value, next) = (0..self.rules.values).find_map(step)?;
            roster.push(value as u8);
            at = next;
        }
        Some(roster)
    }
}

/// The masks with one place narrowed to one value, which is nothing if the mask lacks it.
pub fn narrowed(masks: &[u16], place: usize, value: u8) -> Vec<u16> {
    let mut narrow = masks.to_vec();
    narrow[place] &= 1 << value;
    narrow
}

/// What a filter finds when some roster is allowed.
#[derive(Clone, Debug, PartialEq, Eq)]
pub struct Found {
    pub kept: Vec<u16>,
    pub least: u32,
}

#[cfg(test)]
mod tests {
    use super::*;
    use crate::worked::w;

    #[test]
    fn w_passes_every_check() {
        let rules = w();
        assert_eq!(rules.check_sizes(), Ok(()));
        assert_eq!(rules.check_lengths(), Ok(()));
        assert_eq!(rules.check_tables(), Ok(()));
        assert_eq!(rules.check_masks(&[0, 7]), Ok(()));
    }

    #[test]
    fn sizes_outside_their_ranges_get_1() {
        let wrong = [(0, 3, 0), (65, 3, 0), (6, 0, 0), (6, 17, 0), (6, 3, 6), (usize::MAX, 3, 0)];
        for (states, values, start) in wrong {
            let rules = Rules { states, values, start, ..w() };
            assert_eq!(rules.check_sizes(), Err(Answer::Sizes));
        }
        assert_eq!(check_places(0), Err(Answer::Sizes));
        assert_eq!(check_places(366), Ok(()));
        assert_eq!(check_places(367), Err(Answer::Sizes));
    }

    #[test]
    fn cost_1000_passes_and_1001_gets_3() {
        let mut rules = w();
        rules.costs[0] = 1_000;
        assert_eq!(rules.check_tables(), Ok(()));
        rules.costs[0] = 1_001;
        assert_eq!(rules.check_tables(), Err(Answer::Tables));
    }

    #[test]
    fn bad_targets_missing_arcs_with_cost_and_accepting_bits_get_3() {
        let mut far = w();
        far.targets[0] = 6;
        let mut paid = w();
        paid.costs[4] = 1;
        assert_eq!(paid.targets[4], NO_ARC);
        let bit = Rules { accepting: 1 << 6, ..w() };
        let top = Rules { accepting: 1 << 63, ..w() };
        for rules in [far, paid, bit, top] {
            assert_eq!(rules.check_tables(), Err(Answer::Tables));
        }
    }

    #[test]
    fn places_from_q_times_v_on_play_no_part() {
        let mut rules = w();
        rules.targets[18..].fill(77);
        rules.costs[18..].fill(u16::MAX);
        assert_eq!(rules.check_tables(), Ok(()));
    }

    #[test]
    fn every_accepting_bit_is_lawful_with_64_states() {
        let rules = Rules { states: 64, accepting: u64::MAX, ..w() };
        let rules = Rules { targets: vec![NO_ARC; TABLE], costs: vec![0; TABLE], ..rules };
        assert_eq!(rules.check_tables(), Ok(()));
    }

    #[test]
    fn mask_8_on_w_gets_4_and_16_values_take_every_mask() {
        assert_eq!(w().check_masks(&[7, 8]), Err(Answer::Masks));
        let wide = Rules { values: 16, ..w() };
        assert_eq!(wide.check_masks(&[u16::MAX]), Ok(()));
        assert_eq!(wide.full_mask(), u16::MAX);
        assert_eq!(w().full_mask(), 7);
    }
}
