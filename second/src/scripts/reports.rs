//! Prefix reports of every roster of a small rule set.

use super::walks::lent_on_w;
use crate::cases::{self, Problem};
use crate::random::Random;
use crate::rules::MOST_LIMIT;
use crate::script::{Call, Lent, Script};
use crate::words::all_words;

/// Every roster of W of up to three values.
pub fn on_w(script: &mut Script) {
    script.begin("drawn rosters on W");
    for places in 1..=3 {
        report_all(script, &mut lent_on_w(&vec![7; places], &vec![MOST_LIMIT; places]));
    }
}

/// W without a final state; then two states by turns, of which the start alone is accepting, so
/// that every other length has an accepted word.
pub fn nothing_accepted(script: &mut Script) {
    script.begin("rosters where no word is accepted");
    let mut lent = lent_on_w(&[7; 2], &[MOST_LIMIT; 2]);
    lent.rules.accepting = 0;
    report_all(script, &mut lent);
    for places in [1, 2, 3, 4, 365, 366] {
        let mut lent = lent_on_w(&vec![1; places], &vec![MOST_LIMIT; places]);
        (lent.rules.states, lent.rules.values, lent.rules.accepting) = (2, 1, 1);
        (lent.rules.targets[0], lent.rules.targets[1]) = (1, 0);
        report_all(script, &mut lent);
    }
}

/// All rosters of a rule set of up to 3 states and 2 values, and of up to 4 places.
pub fn case(random: &mut Random, script: &mut Script) {
    let (places, rules) = (random.from_to(1, 4), cases::tiny_rules(random));
    let (masks, limits) = (vec![rules.full_mask(); places], vec![0; places]);
    report_all(script, &mut Lent::of(Problem { places, rules, masks, limits }));
}

fn report_all(script: &mut Script, lent: &mut Lent) {
    for roster in all_words(lent.places, lent.rules.values) {
        lent.roster = roster;
        script.call(lent, Call::Report);
    }
}
