//! Words matched piece by piece: where each piece can end if it begins at some place of the word.
//! "Meaning is the usual one for regular expressions."

use super::{Branches, Piece, Thing, Times};
use std::collections::BTreeSet;

/// Places of a word.
type Ends = BTreeSet<usize>;

/// Whether a word is one of the pattern.
pub fn is_word(branches: &Branches, word: &[u8]) -> bool {
    ends_of_branches(branches, word, 0).contains(&word.len())
}

fn ends_of_branches(branches: &Branches, word: &[u8], from: usize) -> Ends {
    branches.iter().flat_map(|branch| ends_of_sequence(branch, word, from)).collect()
}

fn ends_of_sequence(pieces: &[Piece], word: &[u8], from: usize) -> Ends {
    let further = |ends: Ends, piece: &Piece| {
        ends.into_iter().flat_map(|end| ends_of_piece(piece, word, end)).collect()
    };
    pieces.iter().fold(Ends::from([from]), further)
}

fn ends_of_piece(piece: &Piece, word: &[u8], from: usize) -> Ends {
    let once = |from| ends_of_thing(&piece.thing, word, from);
    match piece.times {
        Times::Once => once(from),
        Times::Perhaps => once(from).into_iter().chain([from]).collect(),
        Times::Any => ends_of_many(Ends::from([from]), once),
        Times::Some => ends_of_many(once(from), once),
    }
}

/// Each end, and where any number of further turns can end.
fn ends_of_many(mut ends: Ends, once: impl Fn(usize) -> Ends) -> Ends {
    loop {
        let further = ends.iter().flat_map(|end| once(*end));
        let all: Ends = further.chain(ends.iter().copied()).collect();
        if all == ends {
            return ends;
        }
        ends = all;
    }
}

fn ends_of_thing(thing: &Thing, word: &[u8], from: usize) -> Ends {
    match thing {
        Thing::Letter { value, .. } => {
            let reads = word.get(from).is_some_and(|read| usize::from(*read) == *value);
            reads.then_some(from + 1).into_iter().collect()
        }
        Thing::Group(branches) => ends_of_branches(branches, word, from),
    }
}
