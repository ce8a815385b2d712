//! Random problems: filter, first roster, prefix report and writer asked about one rule set.

use super::damage::damage;
use crate::cases::{self, Scale};
use crate::random::Random;
use crate::rules::Rules;
use crate::script::{Call, Lent, Script};
use crate::sheet::sheet_of;

/// How often a call is damaged: not at all, or up to three times.
pub fn damages(random: &mut Random) -> usize {
    random.pick(&[0, 0, 0, 0, 0, 1, 1, 2, 3])
}

/// Some calls about one problem, nearly half of them damaged.
pub fn case(random: &mut Random, script: &mut Script) {
    let scale = Scale::any(random);
    let mut lent = Lent::of(cases::problem(random, scale));
    for _ in 0..random.from_to(3, 9) {
        let mut call = any_call(random, &mut lent);
        let count = damages(random);
        let mut damaged = lent.clone();
        (0..count).for_each(|_| damage(random, &mut damaged, &mut call));
        script.call(&mut damaged, call);
        // What a right call leaves stays; a damaged call's damage does not.
        if count == 0 {
            lent = damaged;
        }
    }
}

/// A right call, and what it is to find in the slices that it does not only read.
fn any_call(random: &mut Random, lent: &mut Lent) -> Call {
    let call = match random.below(12) {
        0..=4 => Call::Filter,
        5..=8 => Call::First {
            place: random.below(lent.places),
            value: random.below(lent.rules.values) as u8,
        },
        9 | 10 => Call::Report,
        _ => Call::Write,
    };
    if random.percent(40) {
        lent.work = cases::work(random, lent.places);
        lent.kept.fill(random.number() as u16);
    }
    match call {
        Call::Report => lent.roster = drawn_roster(random, lent.places, &lent.rules),
        Call::Write => lent.output = buffer(random, &lent.rules),
        _ => {}
    }
    call
}

/// A roster that mostly follows the arcs for a while before it goes astray.
pub fn drawn_roster(random: &mut Random, places: usize, rules: &Rules) -> Vec<u8> {
    let mut roster: Vec<u8> = (0..places).map(|_| random.below(rules.values) as u8).collect();
    let follows = random.below(places + 1);
    let mut state = usize::from(rules.start);
    for value in &mut roster[..follows] {
        let first = random.below(rules.values);
        let mut turns = (0..rules.values).map(|turn| (first + turn) % rules.values);
        if let Some(good) = turns.find(|good| rules.arc(state, *good).is_some()) {
            *value = good as u8;
        }
        state = rules.arc(state, usize::from(*value)).map_or(state, |(target, _)| target);
    }
    roster
}

/// A buffer that the sheet fits just so, or not quite, or with room to spare.
fn buffer(random: &mut Random, rules: &Rules) -> Vec<u8> {
    let exact = sheet_of(rules).len();
    let room = random.pick(&[exact, exact, exact - 1, exact + 1, exact + 100, 0, 20_000]);
    vec![random.pick(b"?\n\0\xFF"); room]
}
