//! The call that reads a pattern: rule tables filled from one line.
//!
//! The line is taken apart into a tree (`parse`). Its states are found by walking the tree letter
//! by letter (`walk`); whether a word is one of the pattern is found in another way, by matching it
//! piece by piece (`words`).

mod parse;
mod walk;
mod words;

pub use parse::parse;
pub use words::is_word;

use crate::answer::{require, require_lengths, Answer};
use crate::rules::{Rules, MOST_VALUES, TABLE};

/// "1 to 256 bytes".
pub const MOST_BYTES: usize = 256;
/// "at most 32 letters".
pub const MOST_LETTERS: usize = 32;
/// "to depth 8".
pub const MOST_DEPTH: usize = 8;

/// "The whole line, like a group, is one or more branches." A branch is a sequence.
pub type Branches = Vec<Vec<Piece>>;

/// A letter or a group, and how often it stands there.
#[derive(Clone, Debug, PartialEq, Eq)]
pub struct Piece {
    pub thing: Thing,
    pub times: Times,
}

#[derive(Clone, Debug, PartialEq, Eq)]
pub enum Thing {
    /// Places count the letters of the line, from 0.
    Letter {
        place: usize,
        value: usize,
    },
    Group(Branches),
}

#[derive(Clone, Copy, Debug, PartialEq, Eq, PartialOrd, Ord)]
pub enum Times {
    Once,
    /// `?`
    Perhaps,
    /// `*`
    Any,
    /// `+`
    Some,
}

/// The rule set of a line for so many values, its tables holding just the first Q × V places.
pub fn rules_of(line: &[u8], values: usize) -> Result<Rules, Answer> {
    let branches = parse(line, values).ok_or(Answer::Pattern)?;
    walk::rules(&branches, values).ok_or(Answer::States)
}

/// The call: the answer, and Q, V, start and the accepting mask, all 0 under a refusal. "Nothing is
/// written on refusal"; otherwise the first Q × V places are, "as the reader does".
pub fn read_pattern(
    line: &[u8],
    values: usize,
    targets: &mut [u8],
    costs: &mut [u16],
) -> (Answer, [u64; 4]) {
    let rules = require((1..=MOST_VALUES).contains(&values), Answer::Sizes)
        .and_then(|()| require_lengths(&[(targets.len(), TABLE), (costs.len(), TABLE)]))
        .and_then(|()| rules_of(line, values));
    match rules {
        Err(answer) => (answer, [0; 4]),
        Ok(rules) => {
            targets[..rules.targets.len()].copy_from_slice(&rules.targets);
            costs[..rules.costs.len()].copy_from_slice(&rules.costs);
            let [states, values] = [rules.states, rules.values].map(|n| n as u64);
            (Answer::Done, [states, values, u64::from(rules.start), rules.accepting])
        }
    }
}

#[cfg(test)]
mod tests;
