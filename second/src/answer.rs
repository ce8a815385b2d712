//! The answer numbers of the paper's table.

#[derive(Clone, Copy, Debug, PartialEq, Eq)]
#[repr(u32)]
pub enum Answer {
    Done = 0,
    Sizes = 1,
    Lengths = 2,
    Tables = 3,
    Masks = 4,
    Sheet = 5,
    Room = 6,
    Range = 7,
    Decisions = 8,
    Marks = 9,
    NoMark = 10,
    NoRoster = 11,
    Memory = 12,
    Outside = 13,
    States = 14,
    Pattern = 15,
}

impl Answer {
    pub fn number(self) -> u32 {
        self as u32
    }
}

/// One check: the call goes on if `right`, and otherwise ends with `answer`.
pub fn require(right: bool, answer: Answer) -> Result<(), Answer> {
    if right {
        Ok(())
    } else {
        Err(answer)
    }
}

/// Answer 2: "a lent slice has another length than stated"; pairs of lent and stated.
pub fn require_lengths(lent_and_stated: &[(usize, usize)]) -> Result<(), Answer> {
    let right = lent_and_stated.iter().all(|(lent, stated)| lent == stated);
    require(right, Answer::Lengths)
}
