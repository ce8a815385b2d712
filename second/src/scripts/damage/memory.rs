//! Damage to a session's memory, or changes that leave another right session there.

use crate::random::Random;
use crate::rules::{work_length, MOST_PLACES};
use crate::script::Lent;
use crate::session::memory_length;

/// One change to the memory as it was left by right calls.
pub fn damage(random: &mut Random, lent: &mut Lent) {
    match random.below(8) {
        0 => add_entry(random, lent),
        1 => never_opened(random, lent),
        _ => change_number(random, lent),
    }
}

/// Another n, with memory and work table cut or drawn out to fit it.
pub fn other_places(random: &mut Random, lent: &mut Lent) {
    let places = random.pick(&[lent.places.saturating_sub(1), lent.places.saturating_add(1)]);
    if (1..=MOST_PLACES).contains(&places) {
        lent.places = places;
        lent.session.resize(memory_length(places), 0);
        lent.work.resize(work_length(places), 0);
    }
}

/// Memory that no opening has left.
fn never_opened(random: &mut Random, lent: &mut Lent) {
    lent.session.fill(random.pick(&[0, 1, u32::MAX]));
}

/// One more entry with its count: another right session, or a count that is past its most.
fn add_entry(random: &mut Random, lent: &mut Lent) {
    let (n, memory) = (lent.places.min(MOST_PLACES), &mut lent.session);
    let counts = memory.get(n + 6..n + 8).map(|counts| (counts[0], counts[1]));
    let (decisions, marks) = counts.unwrap_or((0, 0));
    let row = n + 64 + 3 * (decisions.wrapping_add(marks) % 576) as usize;
    if row + 3 > memory.len() {
        return;
    }
    // Neither place 0 narrowed to what is kept there, nor the largest limit, nor a mark
    // changes what a filter finds.
    let kept = memory[2];
    let (entry, count) =
        random.pick(&[([1, 0, kept], n + 6), ([2, 0, u32::MAX], n + 6), ([3, 0, 0], n + 7)]);
    memory[row..row + 3].copy_from_slice(&entry);
    memory[count] = memory[count].wrapping_add(1);
}

/// One number of the memory changed, in the parts that have a meaning more often.
fn change_number(random: &mut Random, lent: &mut Lent) {
    let (n, memory) = (lent.places.min(MOST_PLACES), &mut lent.session);
    let used = (memory.get(n + 6).copied().unwrap_or(0) % 513) as usize;
    let place = match random.below(8) {
        0 => random.below(2),
        1 => 2 + random.below(n.max(1)),
        2 => n + 2 + random.below(6),
        3 => n + 8 + random.below(56),
        4 | 5 => n + 64 + random.below(3 * used + 6),
        6 => n + 1_792 + random.below(2 * n + 1),
        _ => random.below(memory.len().max(1)),
    };
    if let Some(number) = memory.get_mut(place) {
        let bit = *number ^ 1 << random.below(32);
        let near = random.pick(&[number.wrapping_add(1), number.wrapping_sub(1)]);
        let any = random.number() as u32;
        *number = random.pick(&[near, bit, 0, 3, u32::MAX, any]);
    }
}
