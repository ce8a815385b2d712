//! The states of a pattern, found by walking.
//!
//! What is still to be read after a letter is a list of pieces (`Rest`). Every rest that can be had
//! without reading a letter is tried, until none is new; those that begin with a letter say which
//! letter places can read next, and with which rest. No place has more than one rest behind it, so
//! a set of places says how a word can go on.

use super::{Branches, Piece, Thing, Times};
use crate::rules::{Rules, MOST_STATES, NO_ARC};
use std::collections::{BTreeMap, BTreeSet};

/// Pieces still to be read, the next one last.
type Rest<'a> = Vec<Left<'a>>;

/// A thing and how often it is still to stand. Things are told apart by where they stand in memory.
#[derive(Clone, Copy)]
struct Left<'a> {
    thing: &'a Thing,
    times: Times,
}

impl Left<'_> {
    fn key(&self) -> (*const Thing, Times) {
        (self.thing, self.times)
    }
}

/// How a word can go on: the places that can read its next letter, each with its value, and whether
/// it can end.
#[derive(Clone, Debug, Default, PartialEq, Eq)]
struct Next {
    places: BTreeSet<(usize, usize)>,
    end: bool,
}

/// The letter places that could have read the last letter of a prefix; none for the empty prefix.
type Places = BTreeSet<usize>;

struct Walk<'a> {
    first: Next,
    /// By place.
    after: BTreeMap<usize, Next>,
    /// The rest behind each place that has been met and not been walked yet.
    met: Vec<(usize, Rest<'a>)>,
    /// The rest behind each place, to see that it has no other.
    rests: BTreeMap<usize, Vec<(*const Thing, Times)>>,
}

impl<'a> Walk<'a> {
    fn of(branches: &'a Branches) -> Walk<'a> {
        let mut walk = Walk {
            first: Next::default(),
            after: BTreeMap::new(),
            met: Vec::new(),
            rests: BTreeMap::new(),
        };
        walk.first = walk.next(branches.iter().map(|branch| pieces(branch)).collect());
        while let Some((place, rest)) = walk.met.pop() {
            let next = walk.next(vec![rest]);
            walk.after.insert(place, next);
        }
        walk
    }

    /// How a word can go on with any of these rests.
    fn next(&mut self, mut rests: Vec<Rest<'a>>) -> Next {
        let (mut next, mut seen) = (Next::default(), BTreeSet::new());
        while let Some(mut rest) = rests.pop() {
            if !seen.insert(keys(&rest)) {
                continue;
            }
            match rest.pop() {
                None => next.end = true,
                Some(Left { thing: &Thing::Letter { place, value }, times: Times::Once }) => {
                    next.places.insert((place, value));
                    self.meet(place, rest);
                }
                Some(left) => rests.extend(opened(left, rest)),
            }
        }
        next
    }

    fn meet(&mut self, place: usize, rest: Rest<'a>) {
        match self.rests.get(&place) {
            Some(known) => assert!(*known == keys(&rest), "two rests behind place {place}"),
            None => {
                self.rests.insert(place, keys(&rest));
                self.met.push((place, rest));
            }
        }
    }

    fn nexts(&self, places: &Places) -> Vec<&Next> {
        if places.is_empty() {
            return vec![&self.first];
        }
        places.iter().map(|place| &self.after[place]).collect()
    }

    fn accepts(&self, places: &Places) -> bool {
        self.nexts(places).iter().any(|next| next.end)
    }

    fn step(&self, places: &Places, value: usize) -> Places {
        let next = self.nexts(places).into_iter().flat_map(|next| &next.places);
        next.filter(|(_, read)| *read == value).map(|(place, _)| *place).collect()
    }
}

fn keys(rest: &Rest) -> Vec<(*const Thing, Times)> {
    rest.iter().map(Left::key).collect()
}

fn pieces(branch: &[Piece]) -> Rest<'_> {
    branch.iter().rev().map(|piece| Left { thing: &piece.thing, times: piece.times }).collect()
}

/// The rests that a piece before a rest gives, when it is taken or left or its group is opened.
fn opened<'a>(left: Left<'a>, rest: Rest<'a>) -> Vec<Rest<'a>> {
    let once = Left { times: Times::Once, ..left };
    let more = Left { times: Times::Any, ..left };
    let followed_by = |pieces: &[Left<'a>]| [rest.as_slice(), pieces].concat();
    match (left.times, left.thing) {
        (Times::Once, Thing::Group(branches)) => {
            branches.iter().map(|branch| followed_by(&pieces(branch))).collect()
        }
        (Times::Once, Thing::Letter { .. }) => unreachable!("a letter is read"),
        (Times::Perhaps, _) => vec![followed_by(&[once]), rest],
        (Times::Any, _) => vec![followed_by(&[more, once]), rest],
        (Times::Some, _) => vec![followed_by(&[more, once])],
    }
}

/// "States are numbered in the order first met, breadth first, smaller value first; costs are 0."
/// None if there are more than 64.
pub fn rules(branches: &Branches, values: usize) -> Option<Rules> {
    let walk = Walk::of(branches);
    // "the empty prefix is a state of its own": no other has the empty set.
    let mut states = vec![Places::new()];
    let mut targets = Vec::new();
    while targets.len() < states.len() * values {
        let (state, value) = (targets.len() / values, targets.len() % values);
        let places = walk.step(&states[state], value);
        if places.is_empty() {
            targets.push(NO_ARC);
            continue;
        }
        let known = states.iter().position(|other| *other == places);
        targets.push(known.unwrap_or(states.len()) as u8);
        if known.is_none() {
            states.push(places);
        }
        if states.len() > MOST_STATES {
            return None;
        }
    }
    let accepting = (0..states.len()).filter(|state| walk.accepts(&states[*state]));
    let accepting = accepting.fold(0, |mask, state| mask | 1 << state);
    let costs = vec![0; targets.len()];
    Some(Rules { states: states.len(), values, start: 0, targets, costs, accepting })
}
