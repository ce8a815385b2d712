//! The plain ways held against each other: tables, brute force and pairs must agree
//! wherever they are feasible.

use crate::mend::Drawn;
use crate::pairs::Pairs;
use crate::pattern::{is_word, parse, rules_of};
use crate::rules::{narrowed, Case, Rules};
use crate::{faults, report, sheet, tables, words};

const MOST_WORDS: usize = 4_096;
const MOST_PAIRS: usize = 4_096;
/// Of a pattern's words: all up to length 6 for up to three values.
const MOST_PATTERN_WORDS: usize = 729;
const LONGEST_PATTERN_WORDS: usize = 6;

/// Whether brute force is feasible, so that its verdict is part of the agreement.
fn words_are_few(places: usize, rules: &Rules) -> bool {
    words::count_up_to(places, rules, MOST_WORDS).is_some()
}

pub fn filters_agree(case: &Case) -> bool {
    let found = tables::filter(case);
    let by_words = !words_are_few(case.places(), case.rules) || words::filter(case) == found;
    let by_pairs = Pairs::up_to(*case, MOST_PAIRS).is_none_or(|pairs| pairs.filter() == found);
    by_words && by_pairs
}

pub fn first_rosters_agree(case: &Case, place: usize, value: u8) -> bool {
    let first = tables::first_roster(case, place, value);
    let masks = narrowed(case.masks, place, value);
    let narrow = Case { masks: &masks, ..*case };
    let by_words = !words_are_few(case.places(), case.rules)
        || words::first_roster(case, place, value) == first;
    let by_pairs = Pairs::up_to(narrow, MOST_PAIRS).is_none_or(|pairs| pairs.first() == first);
    by_words && by_pairs
}

pub fn reports_agree(rules: &Rules, roster: &[u8]) -> bool {
    !words_are_few(roster.len(), rules)
        || words::longest_prefix(rules, roster) == report::longest_prefix(rules, roster)
}

pub fn mends_agree(drawn: &Drawn, most: usize) -> bool {
    let Drawn { case, roster } = drawn;
    !words_are_few(case.places(), case.rules)
        || words::mended(case, roster, most) == drawn.mended(most)
}

pub fn checks_agree(drawn: &Drawn, roster: &[u8], claimed: u32) -> bool {
    let Drawn { case, roster: was } = drawn;
    !words_are_few(case.places(), case.rules)
        || words::proposal_is_right(case, was, roster, claimed) == drawn.is_right(roster, claimed)
}

/// Whether the reader's wrong line and fault are the first of all.
pub fn readings_agree(text: &[u8]) -> bool {
    let wrong = sheet::parse(text).err().map(|wrong| (wrong.line, wrong.fault));
    wrong == faults::first_fault(text)
}

/// Whether the sheet of a line accepts exactly the words of the pattern, of all short words.
pub fn patterns_agree(line: &[u8], values: usize) -> bool {
    let (Some(branches), Ok(rules)) = (parse(line, values), rules_of(line, values)) else {
        return true;
    };
    let few = |places: &usize| words::count_up_to(*places, &rules, MOST_PATTERN_WORDS).is_some();
    let lengths = (0..=LONGEST_PATTERN_WORDS).take_while(few);
    lengths
        .flat_map(|places| words::all_words(places, values))
        .all(|word| words::is_accepted(&rules, &word) == is_word(&branches, &word))
}

#[cfg(test)]
mod tests {
    use super::*;
    use crate::cases::{problem, tiny_rules, Problem, Scale};
    use crate::mend::changes;
    use crate::random::Random;

    /// How many of the problems had words few enough, and how many a roster.
    fn agree_on(scale: Scale, count: u64) -> (usize, usize) {
        let (mut brute, mut found) = (0, 0);
        for case in 0..count {
            let mut random = Random::for_case(20_260_101, case);
            let problem = problem(&mut random, scale);
            agree_on_problem(&mut random, &problem);
            brute += usize::from(words_are_few(problem.places, &problem.rules));
            found += usize::from(tables::filter(&problem.case()).is_some());
        }
        (brute, found)
    }

    fn agree_on_problem(random: &mut Random, problem: &Problem) {
        let case = problem.case();
        assert!(filters_agree(&case), "{problem:?}");
        let place = random.below(problem.places);
        for value in 0..problem.rules.values as u8 {
            let agree = first_rosters_agree(&case, place, value);
            assert!(agree, "place {place}, value {value}, {problem:?}");
        }
    }

    #[test]
    fn all_ways_agree_on_many_small_problems() {
        let (brute, found) = agree_on(Scale::Small, 3_000);
        assert_eq!(brute, 3_000);
        assert!((1_000..2_800).contains(&found), "{found} problems had a roster");
    }

    #[test]
    fn tables_and_pairs_agree_on_longer_problems() {
        let (_, found) = agree_on(Scale::Middle, 300);
        assert!((100..290).contains(&found), "{found} problems had a roster");
    }

    #[test]
    fn both_ways_agree_on_every_roster_of_many_tiny_rule_sets() {
        let (mut accepted, mut kept_part, mut none_kept, mut no_word) = (0, 0, 0, 0);
        for case in 0..3_000 {
            let mut random = Random::for_case(20_261_116, case);
            let (places, rules) = (random.from_to(1, 4), tiny_rules(&mut random));
            for roster in words::all_words(places, rules.values) {
                assert!(reports_agree(&rules, &roster), "{roster:?}, {rules:?}");
                match report::longest_prefix(&rules, &roster) {
                    Some(length) if length == places => accepted += 1,
                    Some(0) => none_kept += 1,
                    Some(_) => kept_part += 1,
                    None => no_word += 1,
                }
            }
        }
        let met = [accepted, kept_part, none_kept, no_word];
        assert!(met.iter().all(|met| *met > 500), "{met:?}");
    }

    #[test]
    fn both_ways_mend_and_check_alike_on_many_small_problems() {
        let (mut made, mut none, mut yes) = ([0; 8], 0, 0);
        for case in 0..3_000 {
            let mut random = Random::for_case(20_261_117, case);
            let problem = problem(&mut random, Scale::Small);
            let (places, values) = (problem.places, problem.rules.values);
            let mut word = || (0..places).map(|_| random.below(values) as u8).collect::<Vec<u8>>();
            let (roster, other) = (word(), word());
            let drawn = Drawn { case: problem.case(), roster: &roster };
            for most in 0..8 {
                assert!(mends_agree(&drawn, most), "most {most}, {roster:?}, {problem:?}");
            }
            let mended = drawn.mended(7);
            match &mended {
                Some(mended) => made[changes(&roster, mended)] += 1,
                None => none += 1,
            }
            for proposal in mended.iter().chain([&roster, &other]) {
                for claimed in 0..8 {
                    assert!(checks_agree(&drawn, proposal, claimed), "{proposal:?}, {problem:?}");
                    yes += usize::from(drawn.is_right(proposal, claimed));
                }
            }
        }
        // No more than six places are small.
        assert!(made[..6].iter().all(|made| *made > 20), "{made:?}");
        assert!(none > 300 && yes > 1_500, "{none} {yes}");
    }

    /// Where the words are many: a proposal is allowed by a filter narrowed to it, and no roster
    /// with fewer changes is found where all but some places are held to the drawn one.
    #[test]
    fn longer_proposals_are_allowed_and_no_fewer_changes_are_found() {
        let mut mended = 0;
        for case in 0..400 {
            let mut random = Random::for_case(20_261_118, case);
            let problem = problem(&mut random, Scale::Middle);
            let (places, values) = (problem.places, problem.rules.values);
            let roster: Vec<u8> = (0..places).map(|_| random.below(values) as u8).collect();
            let drawn = Drawn { case: problem.case(), roster: &roster };
            let allowed_with =
                |masks: &[u16]| tables::filter(&Case { masks, ..problem.case() }).is_some();
            let found = drawn.mended(places);
            assert_eq!(found.is_some(), allowed_with(&problem.masks));
            let Some(found) = found else { continue };
            mended += 1;
            let meet = |place: usize, value: u8| problem.masks[place] & 1 << value;
            let narrow: Vec<u16> = (0..places).map(|place| meet(place, found[place])).collect();
            assert!(allowed_with(&narrow), "{problem:?}");
            let made = changes(&roster, &found);
            for _ in 0..20 {
                let mut held: Vec<u16> =
                    (0..places).map(|place| meet(place, roster[place])).collect();
                for _ in 1..made {
                    let place = random.below(places);
                    held[place] = problem.masks[place];
                }
                assert!(made == 0 || !allowed_with(&held), "{problem:?}");
            }
        }
        assert!(mended > 100, "{mended}");
    }

    #[test]
    fn kept_values_are_those_with_a_first_roster() {
        for case in 0..20 {
            let mut random = Random::for_case(7, case);
            let problem = problem(&mut random, Scale::Middle);
            let kept = tables::filter(&problem.case()).map(|found| found.kept);
            for place in 0..problem.places {
                for value in 0..problem.rules.values as u8 {
                    let first = tables::first_roster(&problem.case(), place, value);
                    let has = kept.as_ref().is_some_and(|kept| kept[place] >> value & 1 == 1);
                    assert_eq!(first.is_some(), has, "{problem:?}");
                }
            }
        }
    }
}
