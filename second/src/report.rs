//! The prefix report.

use crate::answer::{require, require_lengths, Answer};
use crate::rules::{check_places, Case, Rules, MOST_LIMIT};
use crate::tables;

fn check(places: usize, rules: &Rules, roster: &[u8]) -> Result<(), Answer> {
    check_places(places)?;
    rules.check_sizes()?;
    rules.check_lengths()?;
    require_lengths(&[(roster.len(), places)])?;
    rules.check_tables()?;
    let in_range = roster.iter().all(|value| usize::from(*value) < rules.values);
    require(in_range, Answer::Range)
}

/// Whether a report of the roster is refused by none of the checks before 11.
pub fn is_right(places: usize, rules: &Rules, roster: &[u8]) -> bool {
    check(places, rules, roster).is_ok()
}

/// Whether the first `length` values "can be extended to an accepted word of full length":
/// whether a filter that is given those values alone, then all values, and limits that no
/// roster can pass, finds a roster.
fn extends(rules: &Rules, roster: &[u8], length: usize) -> bool {
    let drawn = roster[..length].iter().map(|value| 1 << value);
    let masks: Vec<u16> = drawn.chain(vec![rules.full_mask(); roster.len() - length]).collect();
    let limits = vec![MOST_LIMIT; roster.len()];
    tables::filter(&Case { rules, masks: &masks, limits: &limits }).is_some()
}

/// The length of "the longest prefix that can be extended to an accepted word of full length",
/// if any can. What comes before the end of such a prefix can be extended too, so the lengths
/// that can come first.
pub fn longest_prefix(rules: &Rules, roster: &[u8]) -> Option<usize> {
    let lengths: Vec<usize> = (0..=roster.len()).collect();
    lengths.partition_point(|length| extends(rules, roster, *length)).checked_sub(1)
}

/// The answer and the report. "Where no word of length n is accepted, the report now answers 11."
pub fn prefix_report(places: usize, rules: &Rules, roster: &[u8]) -> (Answer, usize) {
    if let Err(answer) = check(places, rules, roster) {
        return (answer, 0);
    }
    match longest_prefix(rules, roster) {
        Some(length) => (Answer::Done, places - length),
        None => (Answer::NoRoster, 0),
    }
}

#[cfg(test)]
mod tests {
    use super::*;
    use crate::worked::{check_drawn_cases, w};

    #[test]
    fn the_rosters_drawn_on_w() {
        check_drawn_cases(longest_prefix);
        assert_eq!(prefix_report(3, &w(), &[2, 2, 0]), (Answer::Done, 1));
    }

    #[test]
    fn no_first_value_that_extends_reports_n() {
        let mut rules = w();
        rules.targets[0] = 255;
        rules.costs[0] = 0;
        assert_eq!(prefix_report(3, &rules, &[0, 0, 2]), (Answer::Done, 3));
    }

    #[test]
    fn no_accepted_word_gets_11_whatever_was_drawn() {
        let mut rules = w();
        rules.accepting = 0;
        assert_eq!(prefix_report(3, &rules, &[1, 1, 2]), (Answer::NoRoster, 0));
    }

    #[test]
    fn refusals_come_in_order_and_carry_0() {
        let mut dear = w();
        dear.costs[17] = 1_001;
        assert_eq!(prefix_report(0, &w(), &[]), (Answer::Sizes, 0));
        assert_eq!(prefix_report(3, &dear, &[0, 0]), (Answer::Lengths, 0));
        assert_eq!(prefix_report(3, &dear, &[0, 0, 3]), (Answer::Tables, 0));
        // 7 is given wherever the bad value stands, and before 11.
        let mut none = w();
        none.accepting = 0;
        assert_eq!(prefix_report(3, &none, &[0, 1, 3]), (Answer::Range, 0));
    }
}
