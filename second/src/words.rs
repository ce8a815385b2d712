//! Brute force over all words: the paper's definitions, read off one list. For small n only.

use crate::rules::{holds, Case, Found, Rules};

/// A roster and its running cost at each place.
type Costed = (Vec<u8>, Vec<u32>);

/// How many words there are, if that many are still worth listing.
pub fn count_up_to(places: usize, rules: &Rules, most: usize) -> Option<usize> {
    let words = rules.values.checked_pow(u32::try_from(places).ok()?)?;
    (words <= most).then_some(words)
}

/// All words of n values, "compared place by place, smaller value first".
pub fn all_words(places: usize, values: usize) -> Vec<Vec<u8>> {
    let mut words = vec![Vec::new()];
    for _ in 0..places {
        words = words.iter().flat_map(|word| longer_words(word, values)).collect();
    }
    words
}

fn longer_words(word: &[u8], values: usize) -> Vec<Vec<u8>> {
    (0..values as u8).map(|value| [word, &[value]].concat()).collect()
}

/// "From the start state a roster follows one arc for each value. A missing arc means not
/// accepted. It is accepted if the last state is accepting." The running costs, if accepted.
fn running_costs(rules: &Rules, word: &[u8]) -> Option<Vec<u32>> {
    let mut state = usize::from(rules.start);
    let mut spent = 0;
    let mut running = Vec::new();
    for &value in word {
        let (target, cost) = rules.arc(state, usize::from(value))?;
        state = target;
        spent += cost;
        running.push(spent);
    }
    rules.accepts(state).then_some(running)
}

pub fn is_accepted(rules: &Rules, word: &[u8]) -> bool {
    running_costs(rules, word).is_some()
}

/// "each value is in its place's mask, and at every place the running cost is at most that
/// place's limit".
fn is_within(case: &Case, word: &[u8], running: &[u32]) -> bool {
    let in_masks = (0..word.len()).all(|i| holds(case.masks[i], usize::from(word[i])));
    let in_limits = (0..word.len()).all(|i| running[i] <= case.limit(i));
    in_masks && in_limits
}

/// The allowed rosters in the paper's order, with their running costs.
pub fn allowed(case: &Case) -> Vec<Costed> {
    all_words(case.places(), case.rules.values)
        .into_iter()
        .filter_map(|word| running_costs(case.rules, &word).map(|running| (word, running)))
        .filter(|(word, running)| is_within(case, word, running))
        .collect()
}

/// "A kept value is one that some allowed roster has at that place."
pub fn filter(case: &Case) -> Option<Found> {
    let rosters = allowed(case);
    let least = rosters.iter().filter_map(|(_, running)| running.last().copied()).min()?;
    let mut kept = vec![0; case.places()];
    for (word, _) in &rosters {
        for (place, value) in word.iter().enumerate() {
            kept[place] |= 1 << value;
        }
    }
    Some(Found { kept, least })
}

/// "the allowed one having v there that comes first".
pub fn first_roster(case: &Case, place: usize, value: u8) -> Option<Vec<u8>> {
    let mut rosters = allowed(case).into_iter().map(|(word, _)| word);
    rosters.find(|word| word[place] == value)
}

/// Of the allowed rosters the first of those with the fewest changes, "at most k".
pub fn mended(case: &Case, drawn: &[u8], most: usize) -> Option<Vec<u8>> {
    let rosters: Vec<Vec<u8>> = allowed(case).into_iter().map(|(word, _)| word).collect();
    let fewest = rosters.iter().map(|word| changed(drawn, word)).min()?;
    rosters.into_iter().find(|word| changed(drawn, word) == fewest && fewest <= most)
}

/// Whether a roster is one of those allowed, and the claimed number of its changes is right.
pub fn proposal_is_right(case: &Case, drawn: &[u8], roster: &[u8], claimed: u32) -> bool {
    let is_allowed = allowed(case).iter().any(|(word, _)| word == roster);
    is_allowed && u32::try_from(changed(drawn, roster)) == Ok(claimed)
}

/// How many places have another value than the drawn one.
fn changed(drawn: &[u8], word: &[u8]) -> usize {
    (0..word.len()).map(|place| usize::from(word[place] != drawn[place])).sum()
}

/// The length of "the longest prefix that can be extended to an accepted word of full length":
/// of all accepted words the one that agrees with the roster for longest.
pub fn longest_prefix(rules: &Rules, roster: &[u8]) -> Option<usize> {
    let words = all_words(roster.len(), rules.values).into_iter();
    let accepted = words.filter(|word| running_costs(rules, word).is_some());
    accepted.map(|word| agreeing(&word, roster)).max()
}

/// How many values two words begin with alike.
fn agreeing(word: &[u8], other: &[u8]) -> usize {
    word.iter().zip(other).take_while(|(value, other)| value == other).count()
}

#[cfg(test)]
mod tests {
    use super::*;
    use crate::rules::MOST_LIMIT;
    use crate::worked::{check_drawn_cases, check_first_cases, check_kept_cases, w};
    use crate::worked::{Mended, MENDED_CASES};

    #[test]
    fn words_come_in_the_papers_order() {
        let words = all_words(2, 2);
        assert_eq!(words, [[0, 0], [0, 1], [1, 0], [1, 1]]);
    }

    #[test]
    fn w_accepts_the_eight_rosters_of_length_3() {
        let rules = w();
        let case = Case { rules: &rules, masks: &[7; 3], limits: &[MOST_LIMIT; 3] };
        let letters = |word: &[u8]| word.iter().map(|v| ['d', 'e', 'x'][usize::from(*v)]).collect();
        let rosters: Vec<String> = allowed(&case).iter().map(|(word, _)| letters(word)).collect();
        assert_eq!(rosters, ["ddx", "eex", "exe", "exx", "xdd", "xee", "xex", "xxe"]);
    }

    #[test]
    fn k1_to_k12() {
        check_kept_cases(filter);
        check_first_cases(first_roster);
    }

    #[test]
    fn rosters_drawn_on_w() {
        check_drawn_cases(longest_prefix);
    }

    #[test]
    fn rosters_mended_on_w() {
        let rules = w();
        for Mended { drawn, most, masks, limits, found } in MENDED_CASES {
            let case = Case { rules: &rules, masks, limits };
            let roster = mended(&case, drawn, *most as usize);
            assert_eq!(roster, found.map(|(_, roster)| roster.to_vec()), "{drawn:?}");
            if let Some((made, roster)) = found {
                assert!(proposal_is_right(&case, drawn, roster, *made));
                assert!(!proposal_is_right(&case, drawn, roster, *made + 1));
            }
        }
    }

    #[test]
    fn counting_words_never_overflows() {
        let rules = w();
        assert_eq!(count_up_to(366, &rules, usize::MAX), None);
        assert_eq!(count_up_to(3, &rules, 27), Some(27));
        assert_eq!(count_up_to(3, &rules, 26), None);
    }
}
