//! A line taken apart, byte by byte, with a pile of the groups that are open.

use super::{Branches, Piece, Thing, Times, MOST_BYTES, MOST_DEPTH, MOST_LETTERS};

/// The whole line or a group while it is read: its branches up to the last `|`, and the one at
/// hand.
#[derive(Default)]
struct Open {
    done: Branches,
    branch: Vec<Piece>,
}

impl Open {
    /// Ends the branch at hand: "No branch is empty".
    fn end_branch(&mut self) -> Option<()> {
        let branch = std::mem::take(&mut self.branch);
        (!branch.is_empty()).then(|| self.done.push(branch))
    }
}

struct Reading {
    /// The whole line, then a group within each other.
    open: Vec<Open>,
    letters: usize,
    values: usize,
    /// Whether a letter or a group has just ended, which `*`, `+` or `?` may follow.
    may_repeat: bool,
}

impl Reading {
    fn top(&mut self) -> &mut Open {
        self.open.last_mut().expect("the whole line stays open")
    }

    fn take(&mut self, byte: u8) -> Option<()> {
        let may_repeat = std::mem::replace(&mut self.may_repeat, false);
        match byte {
            b'a'..=b'p' => self.take_letter(usize::from(byte - b'a')),
            b'(' => {
                self.open.push(Open::default());
                (self.open.len() <= 1 + MOST_DEPTH).then_some(())
            }
            b'|' => self.top().end_branch(),
            b')' => self.close(),
            b'*' if may_repeat => self.repeat(Times::Any),
            b'+' if may_repeat => self.repeat(Times::Some),
            b'?' if may_repeat => self.repeat(Times::Perhaps),
            _ => None,
        }
    }

    fn take_letter(&mut self, value: usize) -> Option<()> {
        let place = self.letters;
        self.letters += 1;
        self.put(Thing::Letter { place, value });
        (value < self.values && self.letters <= MOST_LETTERS).then_some(())
    }

    fn close(&mut self) -> Option<()> {
        self.top().end_branch()?;
        let group = self.open.pop()?;
        (!self.open.is_empty()).then(|| self.put(Thing::Group(group.done)))
    }

    fn put(&mut self, thing: Thing) {
        self.top().branch.push(Piece { thing, times: Times::Once });
        self.may_repeat = true;
    }

    fn repeat(&mut self, times: Times) -> Option<()> {
        self.top().branch.last_mut().map(|piece| piece.times = times)
    }
}

/// The branches of a right line for so many values.
pub fn parse(line: &[u8], values: usize) -> Option<Branches> {
    if line.len() > MOST_BYTES {
        return None;
    }
    let open = vec![Open::default()];
    let mut reading = Reading { open, letters: 0, values, may_repeat: false };
    line.iter().try_for_each(|byte| reading.take(*byte))?;
    reading.top().end_branch()?;
    let whole = reading.open.pop()?;
    reading.open.is_empty().then_some(whole.done)
}
