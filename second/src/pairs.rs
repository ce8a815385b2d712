//! Filter and first roster by sets of pairs: every state and running cost that some prefix
//! within masks and limits really has. Nothing is summed up in a least or a most, so this
//! is a check on the reasoning of the tables; it is feasible while the pairs are few.

use crate::rules::{Case, Found};
use std::collections::BTreeSet;

type Pair = (usize, u32);

/// For each layer the pairs that lie on an allowed roster.
pub struct Pairs<'a> {
    case: Case<'a>,
    layers: Vec<BTreeSet<Pair>>,
}

impl<'a> Pairs<'a> {
    /// The pairs of a case, unless there are more than `most` in all layers together.
    pub fn up_to(case: Case<'a>, most: usize) -> Option<Pairs<'a>> {
        let mut layers = vec![BTreeSet::from([(usize::from(case.rules.start), 0)])];
        let mut count = 1;
        for place in 0..case.places() {
            let pairs = layers[place].iter();
            let next: BTreeSet<Pair> =
                pairs.flat_map(|pair| followers(&case, place, *pair)).collect();
            count += next.len();
            if count > most {
                return None;
            }
            layers.push(next);
        }
        drop_dead_ends(&case, &mut layers);
        Some(Pairs { case, layers })
    }

    pub fn filter(&self) -> Option<Found> {
        let ends = &self.layers[self.case.places()];
        let least = ends.iter().map(|(_, spent)| *spent).min()?;
        let kept = (0..self.case.places()).map(|place| self.kept_at(place)).collect();
        Some(Found { kept, least })
    }

    fn kept_at(&self, place: usize) -> u16 {
        let pairs = &self.layers[place];
        let lives = |value, pair: &Pair| self.live_step(place, *pair, value).is_some();
        self.case.rules.mask_of(|value| pairs.iter().any(|pair| lives(value, pair)))
    }

    /// The first of all allowed rosters.
    pub fn first(&self) -> Option<Vec<u8>> {
        self.case.smallest_roster(|place, pair, value| self.live_step(place, pair, value))
    }

    fn live_step(&self, place: usize, (state, spent): Pair, value: usize) -> Option<Pair> {
        let next = self.case.step(place, state, spent, value)?;
        self.layers[place + 1].contains(&next).then_some(next)
    }
}

fn followers<'a>(
    case: &'a Case,
    place: usize,
    (state, spent): Pair,
) -> impl Iterator<Item = Pair> + 'a {
    (0..case.rules.values).filter_map(move |value| case.step(place, state, spent, value))
}

fn drop_dead_ends(case: &Case, layers: &mut [BTreeSet<Pair>]) {
    layers[case.places()].retain(|(state, _)| case.rules.accepts(*state));
    for place in (0..case.places()).rev() {
        let (before, after) = layers.split_at_mut(place + 1);
        let lives =
            |pair: &Pair| followers(case, place, *pair).any(|next| after[0].contains(&next));
        before[place].retain(lives);
    }
}

#[cfg(test)]
mod tests {
    use super::*;
    use crate::rules::narrowed;
    use crate::worked::{check_first_cases, check_kept_cases, w};

    #[test]
    fn k1_to_k12() {
        check_kept_cases(|case| Pairs::up_to(*case, 1_000).unwrap().filter());
        check_first_cases(|case, place, value| {
            let masks = narrowed(case.masks, place, value);
            Pairs::up_to(Case { masks: &masks, ..*case }, 1_000).unwrap().first()
        });
    }

    #[test]
    fn too_many_pairs_are_not_listed() {
        let rules = w();
        let case = Case { rules: &rules, masks: &[7; 9], limits: &[366_000; 9] };
        assert!(Pairs::up_to(case, 10).is_none());
    }
}
