//! What the random readings of sheets are like, counted from their texts and not from what the
//! reader answers.

use super::sheets::readings;
use crate::faults::has_number_outside;
use crate::random::Random;
use crate::script::{Call, CameTo};
use std::collections::BTreeMap;

/// Counts of readings.
#[derive(Debug, Default)]
pub struct Tally {
    pub readings: usize,
    /// Of texts that are not the right sheet that they were made from.
    pub damaged: usize,
    /// Of damaged texts that have a number out of range.
    pub outside: usize,
    /// By what they came to.
    pub came_to: BTreeMap<CameTo, usize>,
}

/// The readings of the random cases of kind `sheets`, at least so many.
pub fn tally(seed: u64, wanted: usize) -> Tally {
    let mut tally = Tally::default();
    let mut number = 0;
    while tally.readings < wanted {
        number += 1;
        let (sheet, lent) = readings(&mut Random::for_case(seed, number));
        for mut lent in lent {
            lent.cut_to_room();
            let damaged = lent.input != sheet.as_bytes();
            tally.readings += 1;
            tally.damaged += usize::from(damaged);
            tally.outside += usize::from(damaged && has_number_outside(&lent.input));
            *tally.came_to.entry(Call::Read.carry_out(&mut lent).0).or_default() += 1;
        }
    }
    tally
}

#[cfg(test)]
mod tests {
    use super::*;

    /// A third of the damaged sheets at the least, and the reader meets every answer.
    #[test]
    fn enough_damaged_sheets_have_a_number_out_of_range() {
        let Tally { readings, damaged, outside, came_to } = tally(93, 12_000);
        assert!(3 * outside >= damaged, "{outside} of {damaged}");
        assert!(4 * damaged >= 3 * readings, "{damaged} of {readings}");
        for (answer, least) in [(0, 1_000), (2, 200), (5, 3_000), (13, 3_000)] {
            let count = came_to.get(&CameTo::Answer(answer)).copied().unwrap_or(0);
            assert!(count >= least, "answer {answer} in {count}");
        }
        // Many of them stand behind another fault, in the same line or before it.
        let answered = came_to.get(&CameTo::Answer(13)).copied().unwrap_or(0);
        assert!(outside > answered + 400, "{outside} and {answered} answers 13");
    }
}
