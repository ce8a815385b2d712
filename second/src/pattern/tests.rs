use super::*;
use crate::agree::patterns_agree;
use crate::cases::patterns::line;
use crate::random::Random;
use crate::samples::{COLLEAGUES, PATTERN_OF_64, PATTERN_OF_65, RIGHT_PATTERNS, WRONG_PATTERNS};
use crate::words::{all_words, is_accepted};
use crate::worked::w;
use std::collections::{BTreeMap, BTreeSet};

fn states(line: &str, values: usize) -> Result<usize, Answer> {
    rules_of(line.as_bytes(), values).map(|rules| rules.states)
}

#[test]
fn right_lines_have_their_states_and_words() {
    for (line, expected) in RIGHT_PATTERNS {
        assert_eq!(states(line, 3), Ok(*expected), "{line}");
        assert_eq!(states(line, 16), Ok(*expected), "{line}");
        assert!(patterns_agree(line.as_bytes(), 3), "{line}");
    }
}

#[test]
fn wrong_lines_get_15() {
    for line in WRONG_PATTERNS {
        assert_eq!(states(line, 3), Err(Answer::Pattern), "{line:?}");
    }
    assert_eq!(rules_of(b"a\xFF", 3), Err(Answer::Pattern));
}

#[test]
fn letters_stand_for_the_values_below_v() {
    for values in 1..=16 {
        for letter in 0..=16 {
            let line = char::from(b'a' + letter as u8).to_string();
            let expected = if letter < values { Ok(2) } else { Err(Answer::Pattern) };
            assert_eq!(states(&line, values), expected, "{line} {values}");
        }
    }
}

#[test]
fn bytes_letters_and_depth_at_their_most_and_one_more() {
    assert_eq!(states(&"a".repeat(32), 1), Ok(33));
    assert_eq!(states(&"a".repeat(33), 1), Err(Answer::Pattern));
    let long = "(((((((a)))))))".repeat(17);
    assert_eq!(states(&format!("{long}a"), 1), Ok(19));
    assert_eq!(states(&format!("{long}aa"), 1), Err(Answer::Pattern));
    let deep = |depth: usize| format!("{}a{}", "(".repeat(depth), ")".repeat(depth));
    assert_eq!(states(&deep(8), 1), Ok(2));
    assert_eq!(states(&deep(9), 1), Err(Answer::Pattern));
    // The start, both a's, the second a alone, b.
    assert_eq!(states(&format!("a|{}*b", deep(8)), 2), Ok(4));
}

#[test]
fn sixty_four_states_are_right_and_one_more_gets_14() {
    assert_eq!(states(PATTERN_OF_64, 2), Ok(64));
    assert_eq!(states(&format!("{PATTERN_OF_64}c"), 3), Err(Answer::States));
    assert_eq!(states(PATTERN_OF_65, 2), Err(Answer::States));
    // One choice fewer.
    assert_eq!(states(PATTERN_OF_65.strip_suffix("(a|b)").unwrap(), 2), Ok(33));
    assert_eq!(states(&format!("{PATTERN_OF_65}("), 2), Err(Answer::Pattern));
}

/// By hand: after the start come a1, {b1, b2}; a2; b3; c; then the places of the second group.
#[test]
fn the_colleagues_sheet() {
    let rules = rules_of(COLLEAGUES.as_bytes(), 3).unwrap();
    let none = 255;
    let targets = [
        [1, 2, none],
        [3, none, none],
        [none, 4, 5],
        [none, none, 5],
        [none, none, 5],
        [6, 7, none],
        [8, none, none],
        [none, 9, 5],
        [none, none, 5],
        [none, none, 5],
    ];
    assert_eq!(rules.targets, targets.concat());
    assert_eq!(rules.accepting, 0b11_1001_1100);
    assert!(rules.costs.iter().all(|cost| *cost == 0));
}

#[test]
fn states_are_numbered_by_their_first_prefix() {
    // b comes after a though its place is the first.
    let rules = rules_of(b"b|ac", 3).unwrap();
    assert_eq!(rules.targets[..3], [1, 2, 255]);
    assert_eq!(rules.targets[3..6], [255, 255, 3]);
}

#[test]
fn nothing_is_written_on_refusal_and_no_more_than_q_times_v_places_otherwise() {
    let ask = |line: &str, values, lengths: [usize; 2]| {
        let (mut targets, mut costs) = (vec![77; lengths[0]], vec![7_777; lengths[1]]);
        let (answer, carried) = read_pattern(line.as_bytes(), values, &mut targets, &mut costs);
        let first = targets.iter().position(|target| *target == 77).unwrap_or(lengths[0]);
        let written = costs.iter().take_while(|cost| **cost == 0).count();
        assert!(targets[first..].iter().all(|target| *target == 77));
        assert_eq!(first, written);
        (answer, carried, written)
    };
    let right = [1_024; 2];
    assert_eq!(ask("ab", 2, right), (Answer::Done, [3, 2, 0, 4], 6));
    assert_eq!(ask("a*", 16, right), (Answer::Done, [2, 16, 0, 3], 32));
    assert_eq!(ask("ab", 1, right), (Answer::Pattern, [0; 4], 0));
    assert_eq!(ask(PATTERN_OF_65, 2, right), (Answer::States, [0; 4], 0));
    for line in ["a", "", PATTERN_OF_65] {
        for lengths in [[1_023, 1_024], [1_024, 1_023], [1_025, 1_024], [1_024, 1_025], [0, 0]] {
            assert_eq!(ask(line, 2, lengths), (Answer::Lengths, [0; 4], 0));
            assert_eq!(ask(line, 0, lengths), (Answer::Sizes, [0; 4], 0));
            assert_eq!(ask(line, 17, lengths), (Answer::Sizes, [0; 4], 0));
        }
        assert_eq!(ask(line, usize::MAX, right), (Answer::Sizes, [0; 4], 0));
    }
}

/// Day turns in twos, one or two evenings, parted by one or two days off: W from a pattern.
#[test]
fn a_pattern_for_the_words_of_w() {
    let rules = rules_of(b"(cc?)?((aa|bb?)cc?)*(aa|bb?)?", 3).unwrap();
    for word in (0..=10).flat_map(|places| all_words(places, 3)) {
        assert_eq!(is_accepted(&rules, &word), is_accepted(&w(), &word), "{word:?}");
    }
}

/// All words of a pattern up to a length, each letter as its place and value.
type Marked = BTreeSet<Vec<(usize, usize)>>;

fn joined(firsts: &Marked, seconds: &Marked, longest: usize) -> Marked {
    let pairs = firsts.iter().flat_map(|first| seconds.iter().map(move |next| (first, next)));
    let short = pairs.filter(|(first, next)| first.len() + next.len() <= longest);
    short.map(|(first, next)| [first.as_slice(), next].concat()).collect()
}

fn marked_words(branches: &Branches, longest: usize) -> Marked {
    let sequence = |branch: &Vec<Piece>| {
        let none = Marked::from([Vec::new()]);
        branch.iter().fold(none, |all, piece| joined(&all, &marked_piece(piece, longest), longest))
    };
    branches.iter().flat_map(sequence).collect()
}

fn marked_piece(piece: &Piece, longest: usize) -> Marked {
    let once = match &piece.thing {
        Thing::Letter { place, value } => Marked::from([vec![(*place, *value)]]),
        Thing::Group(branches) => marked_words(branches, longest),
    };
    let mut all = match piece.times {
        Times::Once | Times::Some => once.clone(),
        Times::Perhaps | Times::Any => once.iter().cloned().chain([Vec::new()]).collect(),
    };
    if matches!(piece.times, Times::Any | Times::Some) {
        for _ in 0..longest {
            all.extend(joined(&all, &once, longest));
        }
    }
    all
}

/// The places that read the last letter of a prefix in some marked word.
fn places_after(words: &Marked, prefix: &[u8]) -> BTreeSet<usize> {
    let spells = |word: &&Vec<(usize, usize)>| {
        let read = word.iter().take(prefix.len()).map(|(_, value)| *value as u8);
        word.len() >= prefix.len() && read.eq(prefix.iter().copied())
    };
    let last = |word: &Vec<(usize, usize)>| prefix.len().checked_sub(1).map(|at| word[at].0);
    words.iter().filter(spells).filter_map(last).collect()
}

fn state_after(rules: &Rules, prefix: &[u8]) -> Option<usize> {
    let step = |state: usize, value: &u8| rules.arc(state, usize::from(*value)).map(|arc| arc.0);
    prefix.iter().try_fold(0, step)
}

/// Where marked words can be listed, "prefixes with equal nonempty sets share one" state, no others
/// do, and one with the empty set has none.
#[test]
fn prefixes_share_a_state_exactly_if_their_sets_are_equal() {
    let mut random = Random::new(7);
    let (mut compared, mut shared) = (0, 0);
    for _ in 0..400 {
        let (line, values) = line(&mut random);
        let branches = parse(&line, values).expect("grown lines are right");
        let letters = line.iter().filter(|byte| byte.is_ascii_lowercase()).count();
        if letters > 4 || values > 3 {
            continue;
        }
        // Any prefix goes on to a word within as many letters as there are.
        let words = marked_words(&branches, 3 + letters);
        let rules = rules_of(&line, values).unwrap();
        let mut by_set = BTreeMap::new();
        for prefix in (0..=3).flat_map(|length| all_words(length, values)) {
            let (places, state) = (places_after(&words, &prefix), state_after(&rules, &prefix));
            let text = line.escape_ascii();
            assert_eq!(state.is_some(), prefix.is_empty() || !places.is_empty(), "{text}");
            if let Some(state) = state {
                let known = *by_set.entry(places).or_insert(state);
                assert_eq!(known, state, "{text} {prefix:?}");
                shared += usize::from(state > 0);
            }
        }
        let distinct: BTreeSet<usize> = by_set.values().copied().collect();
        assert_eq!(distinct.len(), by_set.len());
        compared += 1;
    }
    assert!(compared > 30 && shared > 100, "{compared} {shared}");
}
