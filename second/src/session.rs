//! Sessions as plain lists of entries, replayed from the opening at every call.
//!
//! The memory image, in order: the last result, the least cost, the n kept masks; n, Q, V,
//! start, the count of decisions, the count of marks, 56 zeros; 576 rows of three numbers
//! (kind, place, number), oldest first, unused rows zeros; the n opening masks; the n opening
//! limits, held raw.

use crate::answer::{require, require_lengths, Answer};
use crate::rules::{check_places, work_length, Case, Found, Rules};
use crate::tables;

pub const MOST_DECISIONS: usize = 512;
pub const MOST_MARKS: usize = 64;
const ROWS: usize = MOST_DECISIONS + MOST_MARKS;
const SPARE: usize = 56;

const KEEP: u32 = 1;
const LIMIT: u32 = 2;
const MARK: u32 = 3;

/// "exactly 3n + 1,792 lent 32-bit numbers".
pub fn memory_length(places: usize) -> usize {
    3 * places + 1_792
}

/// A standing decision or an open mark.
#[derive(Clone, Copy, Debug, PartialEq, Eq)]
pub enum Entry {
    Keep { place: usize, mask: u16 },
    Limit { place: usize, limit: u32 },
    Mark,
}

impl Entry {
    fn row(self) -> [u32; 3] {
        match self {
            Entry::Keep { place, mask } => [KEEP, place as u32, u32::from(mask)],
            Entry::Limit { place, limit } => [LIMIT, place as u32, limit],
            Entry::Mark => [MARK, 0, 0],
        }
    }

    /// The entry of a row that is in range; "a mark's two other numbers" are unused room.
    fn from_row(places: usize, rules: &Rules, row: &[u32]) -> Option<Entry> {
        let [kind, place, number] = *row else {
            return None;
        };
        let known_place = usize::try_from(place).ok().filter(|place| *place < places);
        match kind {
            KEEP if rules.mask_in_range(number) => {
                Some(Entry::Keep { place: known_place?, mask: number as u16 })
            }
            LIMIT => Some(Entry::Limit { place: known_place?, limit: number }),
            MARK if place == 0 && number == 0 => Some(Entry::Mark),
            _ => None,
        }
    }
}

/// "A session holds the opening masks and limits, the list of standing decisions and open
/// marks in order"; the rest of it is worked out from these.
#[derive(Clone, Debug, PartialEq, Eq)]
pub struct Session {
    pub masks: Vec<u16>,
    pub limits: Vec<u32>,
    pub entries: Vec<Entry>,
}

impl Session {
    pub fn marks(&self) -> usize {
        self.entries.iter().filter(|entry| **entry == Entry::Mark).count()
    }

    pub fn decisions(&self) -> usize {
        self.entries.len() - self.marks()
    }

    /// "a fresh filter of the opening with all standing decisions applied".
    fn fresh_filter(&self, rules: &Rules) -> Option<Found> {
        let (mut masks, mut limits) = (self.masks.clone(), self.limits.clone());
        for entry in &self.entries {
            match *entry {
                Entry::Keep { place, mask } => masks[place] &= mask,
                Entry::Limit { place, limit } => limits[place] = limits[place].min(limit),
                Entry::Mark => {}
            }
        }
        tables::filter(&Case { rules, masks: &masks, limits: &limits })
    }

    /// The result on hand and the whole memory.
    pub fn image(&self, rules: &Rules) -> (Answer, Vec<u32>) {
        let places = self.masks.len();
        let (result, found) = match self.fresh_filter(rules) {
            Some(found) => (Answer::Done, found),
            None => (Answer::NoRoster, Found { kept: vec![0; places], least: 0 }),
        };
        let mut memory = vec![result.number(), found.least];
        memory.extend(found.kept.iter().map(|mask| u32::from(*mask)));
        let sizes = [places, rules.states, rules.values, usize::from(rules.start)];
        memory.extend(sizes.map(|size| size as u32));
        memory.extend([self.decisions() as u32, self.marks() as u32]);
        memory.extend([0; SPARE]);
        memory.extend(self.entries.iter().flat_map(|entry| entry.row()));
        memory.resize(memory.len() + 3 * (ROWS - self.entries.len()), 0);
        memory.extend(self.masks.iter().map(|mask| u32::from(*mask)));
        memory.extend(&self.limits);
        (result, memory)
    }

    /// The session of a memory of the right length, if it is well-formed: its lists are in
    /// range, and all of the memory is what these lists leave behind.
    pub fn from_memory(places: usize, rules: &Rules, memory: &[u32]) -> Option<Session> {
        let session = Session::lists(places, rules, memory)?;
        let (_, image) = session.image(rules);
        (image == memory).then_some(session)
    }

    fn lists(places: usize, rules: &Rules, memory: &[u32]) -> Option<Session> {
        let decisions = count_up_to(memory[places + 6], MOST_DECISIONS)?;
        let marks = count_up_to(memory[places + 7], MOST_MARKS)?;
        let rows = memory[places + 64..places + 1_792].chunks(3).take(decisions + marks);
        let entries = rows.map(|row| Entry::from_row(places, rules, row));
        let masks = memory[places + 1_792..2 * places + 1_792].iter();
        let masks = masks.map(|mask| rules.mask_in_range(*mask).then_some(*mask as u16));
        Some(Session {
            masks: masks.collect::<Option<_>>()?,
            limits: memory[2 * places + 1_792..].to_vec(),
            entries: entries.collect::<Option<_>>()?,
        })
    }

    /// "Back removes the newest open mark and every decision after it."
    fn go_back(&mut self) -> Result<(), Answer> {
        let newest = self.entries.iter().rposition(|entry| *entry == Entry::Mark);
        self.entries.truncate(newest.ok_or(Answer::NoMark)?);
        Ok(())
    }

    fn decide(&mut self, entry: Entry) -> Result<(), Answer> {
        require(self.decisions() < MOST_DECISIONS, Answer::Decisions)?;
        self.entries.push(entry);
        Ok(())
    }

    fn open_mark(&mut self) -> Result<(), Answer> {
        require(self.marks() < MOST_MARKS, Answer::Marks)?;
        self.entries.push(Entry::Mark);
        Ok(())
    }
}

fn count_up_to(count: u32, most: usize) -> Option<usize> {
    usize::try_from(count).ok().filter(|count| *count <= most)
}

/// What is asked of an open session.
#[derive(Clone, Copy, Debug, PartialEq, Eq)]
pub enum Request {
    Keep { place: usize, mask: u16 },
    Limit { place: usize, limit: u32 },
    Mark,
    Back,
}

impl Request {
    /// Answer 7, which comes before 8, 9 and 10.
    fn check_range(self, places: usize, rules: &Rules) -> Result<(), Answer> {
        let in_range = match self {
            Request::Keep { place, mask } => place < places && rules.mask_in_range(u32::from(mask)),
            Request::Limit { place, .. } => place < places,
            Request::Mark | Request::Back => true,
        };
        require(in_range, Answer::Range)
    }

    fn apply(self, session: &mut Session) -> Result<(), Answer> {
        match self {
            Request::Keep { place, mask } => session.decide(Entry::Keep { place, mask }),
            Request::Limit { place, limit } => session.decide(Entry::Limit { place, limit }),
            Request::Mark => session.open_mark(),
            Request::Back => session.go_back(),
        }
    }
}

/// The checks 1 and 2 of every session call.
fn check_lent(places: usize, rules: &Rules, memory: &[u32], work: &[u32]) -> Result<(), Answer> {
    check_places(places)?;
    rules.check_sizes()?;
    rules.check_lengths()?;
    require_lengths(&[(memory.len(), memory_length(places)), (work.len(), work_length(places))])
}

/// "Opening takes memory of any content, and a new opening starts afresh."
pub fn open(
    places: usize,
    rules: &Rules,
    masks: &[u16],
    limits: &[u32],
    memory: &mut [u32],
    work: &mut [u32],
) -> Answer {
    let lent = check_lent(places, rules, memory, work)
        .and_then(|()| require_lengths(&[(masks.len(), places), (limits.len(), places)]));
    if let Err(answer) = lent {
        return answer;
    }
    work.fill(0);
    if let Err(answer) = rules.check_tables().and_then(|()| rules.check_masks(masks)) {
        return answer;
    }
    let opening = Session { masks: masks.to_vec(), limits: limits.to_vec(), entries: Vec::new() };
    let (result, image) = opening.image(rules);
    memory.copy_from_slice(&image);
    result
}

/// Keep, limit, mark or back upon a session's memory.
pub fn ask(
    places: usize,
    rules: &Rules,
    memory: &mut [u32],
    work: &mut [u32],
    request: Request,
) -> Answer {
    if let Err(answer) = check_lent(places, rules, memory, work) {
        return answer;
    }
    work.fill(0);
    match asked(places, rules, memory, request) {
        Ok((result, image)) => {
            memory.copy_from_slice(&image);
            result
        }
        Err(answer) => answer,
    }
}

/// The result and the memory after a request, or its refusal by 3, 12, 7, 8, 9 or 10.
fn asked(
    places: usize,
    rules: &Rules,
    memory: &[u32],
    request: Request,
) -> Result<(Answer, Vec<u32>), Answer> {
    rules.check_tables()?;
    let mut session = Session::from_memory(places, rules, memory).ok_or(Answer::Memory)?;
    request.check_range(places, rules)?;
    request.apply(&mut session)?;
    Ok(session.image(rules))
}

#[cfg(test)]
mod tests;
