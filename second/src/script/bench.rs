//! What the program that carries a script out holds: twelve slices and five numbers.

use super::call::Call;
use super::lent::{Lent, Slice};
use super::lines::edits;

/// A slice's whole room, and how many of its entries are lent.
struct Room {
    entries: Vec<u32>,
    length: usize,
}

/// n, Q, V, start and the accepting mask.
type Sizes = [u64; 5];

/// All zeros and all lengths 0 at first.
pub struct Bench {
    sizes: Sizes,
    rooms: [Room; 12],
}

impl Default for Bench {
    fn default() -> Bench {
        let rooms = Slice::ALL.map(|slice| Room { entries: vec![0; slice.room()], length: 0 });
        Bench { sizes: [0; 5], rooms }
    }
}

impl Bench {
    /// The entries of a slice that are lent.
    pub fn lent(&self, slice: Slice) -> &[u32] {
        let room = &self.rooms[slice as usize];
        &room.entries[..room.length]
    }

    /// The lines after which a call is lent just this. They speak of nothing that the call has
    /// no use for, and of nothing that stands there already.
    pub fn bring(&mut self, wished: &Lent, call: Call) -> Vec<u8> {
        let mut text = Vec::new();
        if call.uses_sizes() {
            text.extend(self.bring_sizes(sizes_of(wished)).into_bytes());
        }
        for slice in call.uses() {
            let room = &mut self.rooms[*slice as usize];
            text.extend(room.bring(*slice, &wished.entries(*slice)));
        }
        text
    }

    fn bring_sizes(&mut self, sizes: Sizes) -> String {
        if self.sizes == sizes {
            return String::new();
        }
        self.sizes = sizes;
        let [places, states, values, start, accepting] = sizes;
        format!("size\t{places}\t{states}\t{values}\t{start}\t{accepting}\n")
    }

    /// Sets a run of a slice's entries, as far as there is room.
    pub fn fill(&mut self, slice: Slice, place: usize, count: usize, number: u32) {
        let entries = &mut self.rooms[slice as usize].entries;
        entries.iter_mut().skip(place).take(count).for_each(|entry| *entry = number);
    }

    /// Takes over what a call has left in the slices that it was lent.
    pub fn take_over(&mut self, left: &Lent, call: Call) {
        for slice in call.uses() {
            self.rooms[*slice as usize].set(&left.entries(*slice));
        }
    }
}

impl Room {
    fn set(&mut self, entries: &[u32]) {
        self.entries[..entries.len()].copy_from_slice(entries);
        self.length = entries.len();
    }

    fn bring(&mut self, slice: Slice, wished: &[u32]) -> Vec<u8> {
        let mut text = edits(slice.name(), &self.entries, wished).into_bytes();
        if self.length != wished.len() {
            text.extend(format!("length\t{}\t{}\n", slice.name(), wished.len()).into_bytes());
        }
        self.set(wished);
        // A text is mostly shorter as it stands than number by number.
        let whole = format!("bytes\t{}\n", wished.len());
        if slice == Slice::Input && whole.len() + wished.len() < text.len() {
            text = whole.into_bytes();
            text.extend(wished.iter().map(|byte| *byte as u8));
        }
        text
    }
}

fn sizes_of(lent: &Lent) -> Sizes {
    let rules = &lent.rules;
    let [places, states, values] = [lent.places, rules.states, rules.values].map(|n| n as u64);
    [places, states, values, u64::from(rules.start), rules.accepting]
}
