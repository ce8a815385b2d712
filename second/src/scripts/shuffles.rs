//! Who decided first plays no part: sessions from one opening whose standing decisions are the
//! same up to order, or the same with more put in, their marks and backs elsewhere.

use super::histories::{damaged_call, decision_limit, decision_mask, opening};
use super::walks::{keep, limit, open_on_w, BACK, MARK};
use crate::cases::Scale;
use crate::random::Random;
use crate::script::{Call, Lent, Script, Slice};
use crate::session::Request;
use crate::tables;

/// Two masks and two limits on W, one of them given twice, in two orders that end in the other
/// mask and the other limit; then some of them alone, and all of them with one more.
pub fn walk(script: &mut Script) {
    script.begin("who decided first, on W");
    let (d_or_e, e_or_x) = (keep(0, 3), keep(0, 6));
    let (within_2, within_4) = (limit(1, 2), limit(1, 4));
    let (no_roster, out_of_range, only_e_last) = (keep(2, 0), keep(3, 1), keep(2, 2));
    let (first, tried) = ([d_or_e, within_2, d_or_e], [MARK, e_or_x, MARK, no_roster, BACK]);
    let sessions: [Vec<Call>; 4] = [
        [&first[..], &[e_or_x, within_4]].concat(),
        [&[within_4], &tried[..], &[out_of_range, d_or_e, d_or_e, MARK, within_2]].concat(),
        [&[MARK], &first[..], &[MARK]].concat(),
        [&[e_or_x, only_e_last, within_4], &first[..]].concat(),
    ];
    for (number, calls) in sessions.into_iter().enumerate() {
        let mut lent = open_on_w();
        lent.session.fill(number as u32);
        script.call(&mut lent, Call::Open);
        for call in calls {
            script.call(&mut lent, call);
        }
        show(script, &lent);
    }
}

/// Some decisions, the same in another order, and the same with more put in.
pub fn case(random: &mut Random, script: &mut Script) {
    let scale = Scale::any(random);
    let mut opened = Lent::of(opening(random, scale));
    while !is_roomy(&opened) && random.percent(90) {
        opened = Lent::of(opening(random, scale));
    }
    script.call(&mut opened, Call::Open);
    let count = random.pick(&[2, 3, 4, 8]);
    let mut decisions: Vec<Request> = (0..count).map(|_| decision(random, &opened)).collect();
    if random.percent(40) {
        decisions.push(random.pick(&decisions));
    }
    let first = decided(random, script, &opened, &decisions);
    shuffle(random, &mut decisions);
    let second = decided(random, script, &opened, &decisions);
    assert_eq!(shown(&first), shown(&second), "in another order: {decisions:?}");

    for _ in 0..random.from_to(1, 3) {
        decisions.push(decision(random, &first));
    }
    shuffle(random, &mut decisions);
    let third = decided(random, script, &opened, &decisions);
    let (more, few) = (shown(&third), shown(&first));
    assert!(no_more(more, few), "with more put in, {decisions:?}: {more:?}, not {few:?}");
}

/// As many values are left as two at each place, so that there is something to decide.
fn is_roomy(lent: &Lent) -> bool {
    let kept = tables::filter(&lent.case()).map_or(Vec::new(), |found| found.kept);
    kept.iter().map(|mask| mask.count_ones() as usize).sum::<usize>() >= 2 * lent.places
}

/// Result, least cost and kept masks, as they stand in the memory.
fn shown(lent: &Lent) -> &[u32] {
    &lent.session[..lent.places + 2]
}

fn show(script: &mut Script, lent: &Lent) {
    script.show(Slice::Session, 0, lent.places + 2);
}

/// No value that the other has struck, and no less cost while a roster is left.
fn no_more(shown: &[u32], other: &[u32]) -> bool {
    let mut kept = shown[2..].iter().zip(&other[2..]);
    kept.all(|(mask, other)| mask & !other == 0) && (shown[0] != 0 || shown[1] >= other[1])
}

fn shuffle<T>(random: &mut Random, list: &mut [T]) {
    for last in (1..list.len()).rev() {
        list.swap(last, random.below(last + 1));
    }
}

/// A decision in range. Mostly it leaves a roster, if nothing else is decided: it keeps a kept
/// value, or the cheapest roster is within the limit.
fn decision(random: &mut Random, lent: &Lent) -> Request {
    let place = random.below(lent.places);
    let (full, any) = (lent.rules.full_mask(), random.number() as u16);
    let values = (0..lent.rules.values).map(|value| 1 << value);
    let kept: Vec<u32> = values.filter(|bit| lent.session[2 + place] & bit != 0).collect();
    match random.below(10) {
        0..=4 if !kept.is_empty() => {
            Request::Keep { place, mask: random.pick(&kept) as u16 | any & full }
        }
        0..=5 => Request::Keep { place, mask: decision_mask(random, lent, place) & full },
        6..=8 => Request::Limit { place, limit: lent.session[1] + random.pick(&[0, 2, 20, 500]) },
        _ => Request::Limit { place, limit: decision_limit(random, lent, place) },
    }
}

/// A session from the same opening in which just these decisions come to stand, in this order:
/// lent other memory, handed the same rule set in other tables, with marks and backs of its own.
fn decided(random: &mut Random, script: &mut Script, opened: &Lent, decisions: &[Request]) -> Lent {
    let mut lent = opened.clone();
    lent.session.fill(random.pick(&[0, 11, u32::MAX]));
    let arcs = lent.rules.states * lent.rules.values;
    lent.rules.targets[arcs..].fill(random.pick(&[0, 99]));
    lent.rules.costs[arcs..].fill(random.pick(&[0, 9_999]));
    script.call(&mut lent, Call::Open);
    for decision in decisions {
        if random.percent(25) {
            script.call(&mut lent, MARK);
        }
        if random.percent(25) {
            try_and_take_back(random, script, &mut lent);
        }
        if random.percent(15) {
            damaged_call(random, script, &lent, Call::Ask(*decision));
        }
        script.call(&mut lent, Call::Ask(*decision));
    }
    show(script, &lent);
    lent
}

/// Decisions that do not come to stand, since the mark before them is gone back to.
fn try_and_take_back(random: &mut Random, script: &mut Script, lent: &mut Lent) {
    script.call(lent, MARK);
    for _ in 0..random.below(3) {
        let tried = decision(random, lent);
        script.call(lent, Call::Ask(tried));
    }
    script.call(lent, BACK);
}
