//! Random damage to what a call is lent or handed: whatever the call is, one of the parts that
//! it has a use for is changed, mostly to something wrong.

pub mod memory;
pub mod numbers;
pub mod text;

use crate::cases::damage::{another_length, damage_masks, damage_sizes, damage_tables};
use crate::random::Random;
use crate::script::{Call, Lent, Slice};
use crate::session::Request;

/// One change.
pub fn damage(random: &mut Random, lent: &mut Lent, call: &mut Call) {
    let slice = random.pick(call.uses());
    match random.below(8) {
        0 | 1 if call.uses_sizes() => damage_numbers(random, lent, call),
        2 | 3 => damage_length(random, lent, slice),
        _ => damage_content(random, lent, slice),
    }
}

/// The five numbers, or those that the call is handed besides.
fn damage_numbers(random: &mut Random, lent: &mut Lent, call: &mut Call) {
    match random.below(3) {
        0 => damage_sizes(random, &mut lent.places, &mut lent.rules),
        1 if matches!(call, Call::Ask(_)) => memory::other_places(random, lent),
        _ => *call = with_wrong_numbers(random, lent, *call),
    }
}

/// A place, value or mask out of range, also such that it is right again if cut to fewer bits.
fn with_wrong_numbers(random: &mut Random, lent: &Lent, call: Call) -> Call {
    let values = lent.rules.values;
    let outside = [lent.places, usize::MAX, 1 << 8, 1 << 16, 1 << 32];
    let outside = random.pick(&outside);
    match call {
        Call::First { place, value } if random.percent(50) => {
            Call::First { place: place.wrapping_add(outside), value }
        }
        Call::First { place, .. } => {
            Call::First { place, value: random.pick(&[values as u8, 16, 255]) }
        }
        Call::Mend { most } => {
            let most = random.pick(&[8, 9, u32::MAX, most | 1 << 8, most | 1 << 16]);
            Call::Mend { most }
        }
        Call::Ask(Request::Keep { place, .. }) if random.percent(50) => {
            let mask = random.pick(&[u16::MAX, 1 << 15, 1_u16.wrapping_shl(values as u32)]);
            Call::Ask(Request::Keep { place, mask })
        }
        Call::Ask(Request::Keep { mask, .. }) => Call::Ask(Request::Keep { place: outside, mask }),
        Call::Ask(Request::Limit { limit, .. }) => {
            Call::Ask(Request::Limit { place: outside, limit })
        }
        other => other,
    }
}

fn damage_length(random: &mut Random, lent: &mut Lent, slice: Slice) {
    lent.change_length(slice, |length| another_length(random, length));
}

fn damage_content(random: &mut Random, lent: &mut Lent, slice: Slice) {
    match slice {
        Slice::Targets | Slice::Costs => damage_tables(random, &mut lent.rules),
        Slice::Masks => damage_masks(random, &lent.rules, &mut lent.masks),
        Slice::Roster => damage_values(random, lent.rules.values, &mut lent.roster),
        Slice::Drawn => damage_values(random, lent.rules.values, &mut lent.drawn),
        Slice::Session => memory::damage(random, lent),
        Slice::Input => text::damage(random, &mut lent.input),
        // Any content is right here, so that only the length can be wrong.
        Slice::Limits | Slice::Kept | Slice::Work | Slice::Output | Slice::Plan => {
            damage_length(random, lent, slice);
        }
    }
}

fn damage_values(random: &mut Random, values: usize, roster: &mut [u8]) {
    if !roster.is_empty() {
        let place = random.below(roster.len());
        roster[place] = random.pick(&[values as u8, 16, 255]);
    }
}
