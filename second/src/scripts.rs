//! What the scripts hold: fixed cases, which meet every answer of every call, and then random
//! ones from a seed.

mod damage;
mod edges;
mod histories;
mod jobs;
mod lists;
mod memory;
mod mendjobs;
mod mends;
mod order;
mod patternjobs;
mod patterns;
mod problems;
mod reports;
mod sheets;
mod shuffles;
pub mod tally;
mod walks;

use crate::random::Random;
use crate::script::Script;

/// The fixed cases, in the order in which they stand in a script.
const FIXED: &[fn(&mut Script)] = &[
    walks::kept,
    walks::first,
    walks::session,
    walks::sheet,
    walks::lines,
    edges::faults,
    edges::sizes,
    edges::limits,
    order::pairs,
    memory::written_by_others,
    memory::number_by_number,
    memory::other_rules,
    lists::decisions,
    lists::marks,
    sheets::samples,
    sheets::byte_by_byte,
    sheets::numbers,
    jobs::samples,
    jobs::wrong_sheets,
    jobs::long,
    shuffles::walk,
    reports::on_w,
    reports::nothing_accepted,
    mends::on_w,
    mends::claims,
    mends::lines,
    mends::faults,
    mends::short_tables,
    mends::sizes,
    mends::limits,
    mendjobs::samples,
    mendjobs::wrong_sheets,
    mendjobs::long,
    patterns::samples,
    patterns::sizes,
    patterns::byte_by_byte,
    patterns::lines,
    patterns::faults,
    patternjobs::samples,
    patternjobs::long,
];

/// What makes the calls of a random case.
type RandomCase = fn(&mut Random, &mut Script);

/// How many of a hundred random cases are of each kind, and its name. One of a problem or text
/// makes some calls, a session's history up to some two hundred.
const RANDOM: &[(usize, &str, RandomCase)] = &[
    (45, "problems", problems::case),
    (4, "patterns", patterns::case),
    (2, "patternjobs", patternjobs::case),
    (4, "mends", mends::case),
    (2, "mendjobs", mendjobs::case),
    (3, "reports", reports::case),
    (18, "sheets", sheets::case),
    (15, "jobs", jobs::case),
    (5, "histories", histories::case),
    (2, "shuffles", shuffles::case),
];

/// The cases one after the other: the fixed ones, then random ones until enough calls are made.
pub struct Cases {
    seed: u64,
    /// How many calls there shall be at least.
    wanted: usize,
    /// The one kind of random cases that there shall be, and no fixed ones.
    only: Option<RandomCase>,
    calls: usize,
    taken: usize,
}

impl Cases {
    pub fn new(seed: u64, wanted: usize) -> Cases {
        Cases { seed, wanted, only: None, calls: 0, taken: 0 }
    }

    /// Random cases of one kind alone, if there is a kind of this name.
    pub fn only(kind: &str, seed: u64, wanted: usize) -> Option<Cases> {
        let (_, _, case) = RANDOM.iter().find(|(_, name, _)| *name == kind)?;
        Some(Cases { only: Some(*case), ..Cases::new(seed, wanted) })
    }

    /// Adds the next case to a script. False if there is none left.
    pub fn add_next(&mut self, script: &mut Script) -> bool {
        let before = script.calls();
        match self.fixed().get(self.taken) {
            Some(fixed) => fixed(script),
            None if self.calls < self.wanted => self.add_random(script),
            None => return false,
        }
        self.calls += script.calls() - before;
        self.taken += 1;
        true
    }

    fn fixed(&self) -> &'static [fn(&mut Script)] {
        if self.only.is_some() {
            &[]
        } else {
            FIXED
        }
    }

    fn add_random(&self, script: &mut Script) {
        let number = self.taken - self.fixed().len() + 1;
        let mut random = Random::for_case(self.seed, number as u64);
        script.begin(&format!("case {number}"));
        let case = self.only.unwrap_or_else(|| any_kind(&mut random));
        case(&mut random, script);
    }
}

fn any_kind(random: &mut Random) -> RandomCase {
    let mut share = random.below(100);
    for (part, _, case) in RANDOM {
        if share < *part {
            return *case;
        }
        share -= part;
    }
    unreachable!("the parts make a hundred")
}

#[cfg(test)]
mod tests;
