//! Sessions: long random histories with marks and backs, and refused calls among them.

use super::damage::damage;
use super::edges::stand;
use crate::cases::{self, Problem, Scale};
use crate::random::Random;
use crate::rules::MOST_LIMIT;
use crate::script::{Call, Lent, Script};
use crate::session::{Entry, Request};
use crate::tables;

/// One history: a damaged opening, a right one, and the calls upon it.
pub fn case(random: &mut Random, script: &mut Script) {
    let scale = Scale::any(random);
    let mut lent = Lent::of(opening(random, scale));
    // "Opening takes memory of any content, and a new opening starts afresh."
    lent.session.fill(random.pick(&[0, 3, u32::MAX]));
    damaged_call(random, script, &lent, Call::Open);
    script.call(&mut lent, Call::Open);
    if random.percent(12) {
        fill(random, &mut lent);
    }
    let steps = if scale == Scale::Full { 12 } else { random.pick(&[10, 40, 120]) };
    for _ in 0..steps {
        step(random, script, &mut lent);
    }
}

/// What a session opens with: mostly, but not always, some roster is allowed.
pub fn opening(random: &mut Random, scale: Scale) -> Problem {
    let mut problem = cases::problem(random, scale);
    while tables::filter(&problem.case()).is_none() && random.percent(90) {
        problem = cases::problem(random, scale);
    }
    problem
}

/// A call that the history does not go on from, whether it was refused or not.
pub fn damaged_call(random: &mut Random, script: &mut Script, right: &Lent, mut call: Call) {
    let mut lent = right.clone();
    for _ in 0..random.pick(&[1, 1, 1, 2]) {
        damage(random, &mut lent, &mut call);
    }
    script.call(&mut lent, call);
}

/// One right call that the session goes on from, and now and then a damaged one before it.
fn step(random: &mut Random, script: &mut Script, lent: &mut Lent) {
    let call = Call::Ask(request(random, lent));
    if random.percent(25) {
        lent.work = cases::work(random, lent.places);
    }
    if random.percent(40) {
        damaged_call(random, script, lent, call);
    }
    script.call(lent, call);
}

/// Goes on from nearly full lists, so that the 513th decision and the 65th mark come up.
fn fill(random: &mut Random, lent: &mut Lent) {
    let (decisions, marks) = (random.from_to(500, 512), random.from_to(60, 64));
    let mut entries = Vec::new();
    let (mut decided, mut marked) = (0, 0);
    while decided < decisions || marked < marks {
        let mark = decided == decisions || (marked < marks && random.percent(11));
        entries.push(if mark { Entry::Mark } else { idle_entry(random, lent) });
        decided += usize::from(!mark);
        marked += usize::from(mark);
    }
    stand(lent, entries);
}

/// A decision that seldom narrows anything.
fn idle_entry(random: &mut Random, lent: &Lent) -> Entry {
    let place = random.below(lent.places);
    let full = lent.rules.full_mask();
    if random.percent(50) {
        let mask = if random.percent(1) { full & random.number() as u16 } else { full };
        Entry::Keep { place, mask }
    } else {
        Entry::Limit { place, limit: random.pick(&[MOST_LIMIT, u32::MAX, 400_000]) }
    }
}

/// A history in which no roster is left mostly goes back, so that it does not stay there.
fn request(random: &mut Random, lent: &Lent) -> Request {
    let stuck = lent.session[0] != 0;
    if stuck && random.percent(60) {
        return Request::Back;
    }
    let place = random.below(lent.places);
    match random.below(20) {
        0..=6 => Request::Keep { place, mask: decision_mask(random, lent, place) },
        7..=12 => Request::Limit { place, limit: decision_limit(random, lent, place) },
        13..=17 => Request::Mark,
        _ => Request::Back,
    }
}

pub fn decision_mask(random: &mut Random, lent: &Lent, place: usize) -> u16 {
    let full = lent.rules.full_mask();
    let kept = lent.session[2 + place] as u16;
    let one = 1 << random.below(lent.rules.values);
    let any = random.number() as u16;
    match random.below(12) {
        0..=4 => full & !one,
        5..=7 => kept | full & any,
        8 => full & any,
        9 => random.pick(&[full, one, kept]),
        // Mostly out of range where there is room for it.
        10 => any,
        _ => random.pick(&[full, full, 0]),
    }
}

pub fn decision_limit(random: &mut Random, lent: &Lent, place: usize) -> u32 {
    let held = lent.limits[place];
    let least = lent.session[1];
    match random.below(12) {
        0..=5 => least + random.below(10) as u32,
        6 => held.saturating_sub(1),
        7 => least,
        8 => random.below(least as usize + 1) as u32,
        _ => random.pick(&[held, u32::MAX, MOST_LIMIT, MOST_LIMIT + 1]),
    }
}
