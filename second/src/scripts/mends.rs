//! The planner and the checker: rosters drawn on W, the edges of both calls, and random ones.

use super::damage::damage;
use super::edges::{all_right, dearest, faults_of, MENDING_CALLS};
use super::order::pairs_of;
use super::problems::{damages, drawn_roster};
use super::walks::{lent_on_w, open_on_w};
use crate::cases::{self, Scale};
use crate::mend::{changes, MOST_CHANGES};
use crate::random::Random;
use crate::rules::{work_length, MOST_LIMIT};
use crate::script::{Call, Lent, Script};
use crate::tables;
use crate::words::all_words;
use crate::worked::{KEPT_CASES, MENDED_CASES};

/// The rosters that the tests have worked, every roster of W of length 3 with few changes and many,
/// and one with the masks and limits of each of K1 to K10.
pub fn on_w(script: &mut Script) {
    script.begin("rosters mended on W");
    for worked in MENDED_CASES {
        let mut lent = lent_on_w(worked.masks, worked.limits);
        lent.drawn = worked.drawn.to_vec();
        mend_and_check(script, &mut lent, worked.most);
    }
    script.begin("every roster mended on W");
    for most in [0, 1, MOST_CHANGES] {
        for drawn in all_words(3, 3) {
            let mut lent = open_on_w();
            lent.drawn = drawn;
            mend_and_check(script, &mut lent, most);
        }
    }
    script.begin("rosters mended as K1 to K10");
    for worked in KEPT_CASES {
        for value in [0, 1] {
            let mut lent = lent_on_w(worked.masks, worked.limits);
            lent.drawn.fill(value);
            lent.plan.fill(u32::MAX);
            mend_and_check(script, &mut lent, MOST_CHANGES);
        }
    }
}

/// Mends, and where that gives a proposal, checks it with its number of changes and with one more.
fn mend_and_check(script: &mut Script, lent: &mut Lent, most: u32) {
    let proposal = lent.drawn().mended(most as usize);
    script.call(lent, Call::Mend { most });
    if let Some(roster) = proposal {
        let made = changes(&lent.drawn, &roster) as u32;
        script.call(lent, Call::Check { claimed: made });
        script.call(lent, Call::Check { claimed: made + 1 });
    }
}

/// Every roster of W of length 3 with each claim there can be, and rosters that masks or limits
/// forbid.
pub fn claims(script: &mut Script) {
    script.begin("claims on W");
    let mut lent = open_on_w();
    lent.drawn = vec![2, 2, 0];
    for roster in all_words(3, 3) {
        lent.roster = roster;
        for claimed in 0..4 {
            script.call(&mut lent, Call::Check { claimed });
        }
    }
    script.begin("claims of rosters that are not allowed");
    for worked in KEPT_CASES.iter().filter(|worked| worked.masks.len() == 3) {
        for roster in [[0, 0, 2], [1, 1, 2], [2, 0, 0], [2, 2, 1]] {
            let mut lent = lent_on_w(worked.masks, worked.limits);
            lent.drawn = vec![2, 2, 0];
            let claimed = changes(&lent.drawn, &roster) as u32;
            lent.roster = roster.to_vec();
            script.call(&mut lent, Call::Check { claimed });
        }
    }
}

/// Numbers that lose their upper bits when they are handed over, and words that are no calls.
pub fn lines(script: &mut Script) {
    script.begin("the lines of the planner and the checker");
    for line in ["mends", "Mend\t1", "checks\t1", "mend job", "mend_job"] {
        script.unknown(line);
    }
    let mut lent = all_right();
    script.call_as("mend\t4294967298", &mut lent, Call::Mend { most: 2 });
    lent.roster.fill(9);
    script.call_as("mend\t4294967296", &mut lent, Call::Mend { most: 0 });
    lent.roster = vec![1, 1, 2];
    script.call_as("check\t4294967298", &mut lent, Call::Check { claimed: 2 });
    script.call_as("check\t18446744073709551615", &mut lent, Call::Check { claimed: u32::MAX });
}

/// One change at a time and two faults at once, as of all other calls.
pub fn faults(script: &mut Script) {
    MENDING_CALLS.into_iter().for_each(|call| faults_of(script, call));
    MENDING_CALLS.into_iter().for_each(|call| pairs_of(script, call));
}

/// The work table has room for seven changes, whatever is asked for: one that would do for just the
/// number asked for is too short.
pub fn short_tables(script: &mut Script) {
    script.begin("a work table for fewer changes");
    for most in 0..=8 {
        let mut lent = all_right();
        lent.plan.resize(work_length(3) * (most + 1), 5);
        script.call(&mut lent, Call::Mend { most: most as u32 });
    }
}

/// The smallest and the largest of each size, and a place too many with all lengths right. Where
/// the last value is struck at seven places, seven changes are enough; at eight they are not.
pub fn sizes(script: &mut Script) {
    let least_and_most = [(1, 1, 1), (366, 1, 1), (1, 64, 1), (1, 1, 16), (366, 64, 16)];
    for (places, states, values) in [&least_and_most[..], &[(367, 64, 16)]].concat() {
        script.begin(&format!("mending {places} places, {states} states, {values} values"));
        let mut lent = dearest(places, states, values);
        lent.drawn.fill(values as u8 - 1);
        for struck in [0, 6, 7, 8] {
            for place in (0..places).rev().take(struck) {
                lent.masks[place] &= !(1 << (values - 1));
            }
            if places > 366 {
                script.call(&mut lent, Call::Mend { most: MOST_CHANGES });
                script.call(&mut lent, Call::Check { claimed: 0 });
            } else {
                mend_and_check(script, &mut lent, MOST_CHANGES);
            }
        }
    }
}

/// The dearest roster of all passes the last limit or does not.
pub fn limits(script: &mut Script) {
    script.begin("mending with limits about 366,000");
    let mut lent = dearest(366, 1, 1);
    lent.roster.fill(0);
    for most in [MOST_LIMIT - 1, MOST_LIMIT, MOST_LIMIT + 1, u32::MAX] {
        lent.limits[365] = most;
        script.call(&mut lent, Call::Mend { most: 0 });
        script.call(&mut lent, Call::Check { claimed: 0 });
    }
}

/// Some drawn rosters of one problem, nearly half of the calls damaged. What a right call proposes
/// is checked, and then rosters of other makings.
pub fn case(random: &mut Random, script: &mut Script) {
    let any = Scale::any(random);
    // Longer than most other problems, so that many changes can be needed.
    let scale = random.pick(&[any, any, Scale::Middle, Scale::Middle, Scale::Wide]);
    let mut lent = Lent::of(cases::problem(random, scale));
    for _ in 0..random.from_to(1, 3) {
        lent.drawn = drawn(random, &lent);
        if random.percent(60) {
            lent.plan = plan(random, &lent);
            lent.roster.fill(random.number() as u8);
        }
        let most = random.pick(&[0, 1, 2, 3, 4, 5, 6, 7, 7, 7, 7, 8, 9]);
        if damages(random) > 0 {
            ask_damaged(random, script, &lent, Call::Mend { most });
        } else if most > MOST_CHANGES {
            script.call(&mut lent, Call::Mend { most });
        } else {
            mend_and_check(script, &mut lent, most);
        }
        check_another(random, script, &mut lent);
    }
}

/// A call with up to two changes, which do not stay.
fn ask_damaged(random: &mut Random, script: &mut Script, lent: &Lent, mut call: Call) {
    let mut damaged = lent.clone();
    (0..random.from_to(1, 2)).for_each(|_| damage(random, &mut damaged, &mut call));
    script.call(&mut damaged, call);
}

/// A check of some roster: of any making, with a claim that is right, off by one or large.
fn check_another(random: &mut Random, script: &mut Script, lent: &mut Lent) {
    lent.roster = match random.below(3) {
        0 => lent.drawn.clone(),
        1 => drawn_roster(random, lent.places, &lent.rules),
        _ => drawn(random, lent),
    };
    let made = changes(&lent.drawn, &lent.roster) as u32;
    let large = random.pick(&[u32::MAX, made + (1 << 8), made + (1 << 16), made ^ 1 << 31]);
    let claimed = random.pick(&[made, made, made, made + 1, made.saturating_sub(1), large]);
    if damages(random) > 0 {
        ask_damaged(random, script, lent, Call::Check { claimed });
    } else {
        script.call(lent, Call::Check { claimed });
    }
}

/// A drawn roster: any, mostly not accepted; an allowed one; or an allowed one with up to twelve
/// places drawn anew, which may then be outside the masks.
fn drawn(random: &mut Random, lent: &Lent) -> Vec<u8> {
    let Some(mut roster) = some_allowed(random, lent).filter(|_| random.percent(75)) else {
        return drawn_roster(random, lent.places, &lent.rules);
    };
    for _ in 0..random.pick(&[0, 1, 2, 3, 5, 7, 9, 12]) {
        roster[random.below(lent.places)] = random.below(lent.rules.values) as u8;
    }
    roster
}

/// The first allowed roster that has some kept value at some place.
fn some_allowed(random: &mut Random, lent: &Lent) -> Option<Vec<u8>> {
    let place = random.below(lent.places);
    let kept = tables::filter(&lent.case())?.kept[place];
    let values: Vec<u8> = (0..16).filter(|value| kept >> value & 1 == 1).collect();
    tables::first_roster(&lent.case(), place, random.pick(&values))
}

/// A work table, mostly dirty: one number throughout, or a few among zeros.
fn plan(random: &mut Random, lent: &Lent) -> Vec<u32> {
    let mut plan = vec![random.pick(&[0, 1, MOST_LIMIT, u32::MAX]); lent.plan.len()];
    if random.percent(50) {
        plan.fill(0);
        let dirt = random.from_to(1, 3);
        (0..dirt).for_each(|_| plan[random.below(lent.plan.len())] = random.number() as u32);
    }
    plan
}
