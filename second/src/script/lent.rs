//! What the calls of a script can be lent.

use crate::cases::Problem;
use crate::mend::{plan_length, Drawn};
use crate::rules::{work_length, Case, Rules};
use crate::session::memory_length;

/// The twelve slices of a script, in the order in which they are printed.
#[derive(Clone, Copy, Debug, PartialEq, Eq)]
pub enum Slice {
    Targets,
    Costs,
    Masks,
    Limits,
    Kept,
    Roster,
    Work,
    Session,
    Input,
    Output,
    Drawn,
    Plan,
}

impl Slice {
    /// The name in a script, and how many entries there is room for.
    fn name_and_room(self) -> (&'static str, usize) {
        match self {
            Slice::Targets => ("targets", 1_100),
            Slice::Costs => ("costs", 1_100),
            Slice::Masks => ("masks", 400),
            Slice::Limits => ("limits", 400),
            Slice::Kept => ("kept", 400),
            Slice::Roster => ("roster", 400),
            Slice::Work => ("work", 24_000),
            Slice::Session => ("session", 3_000),
            Slice::Input => ("input", 33_000),
            Slice::Output => ("output", 20_000),
            Slice::Drawn => ("drawn", 400),
            Slice::Plan => ("plan", 190_000),
        }
    }

    pub fn name(self) -> &'static str {
        self.name_and_room().0
    }

    pub fn room(self) -> usize {
        self.name_and_room().1
    }

    pub const ALL: [Slice; 12] = [
        Slice::Targets,
        Slice::Costs,
        Slice::Masks,
        Slice::Limits,
        Slice::Kept,
        Slice::Roster,
        Slice::Work,
        Slice::Session,
        Slice::Input,
        Slice::Output,
        Slice::Drawn,
        Slice::Plan,
    ];
}

/// All that a call can be lent or handed besides its own numbers, right or wrong. A call that
/// has no use for a part of it does not see that part.
#[derive(Clone, Debug, PartialEq, Eq)]
pub struct Lent {
    pub places: usize,
    pub rules: Rules,
    pub masks: Vec<u16>,
    pub limits: Vec<u32>,
    pub kept: Vec<u16>,
    pub roster: Vec<u8>,
    pub work: Vec<u32>,
    pub session: Vec<u32>,
    pub input: Vec<u8>,
    pub output: Vec<u8>,
    pub drawn: Vec<u8>,
    pub plan: Vec<u32>,
}

impl Lent {
    /// Slices of the right lengths for a problem. Outputs hold 9s, so that zeros written there
    /// are seen.
    pub fn of(problem: Problem) -> Lent {
        let Problem { places, rules, masks, limits } = problem;
        Lent {
            places,
            rules,
            masks,
            limits,
            kept: vec![9; places],
            roster: vec![9; places],
            work: vec![0; work_length(places)],
            session: vec![9; memory_length(places)],
            input: Vec::new(),
            output: Vec::new(),
            drawn: vec![0; places],
            plan: vec![0; plan_length(places)],
        }
    }

    pub fn case(&self) -> Case<'_> {
        Case { rules: &self.rules, masks: &self.masks, limits: &self.limits }
    }

    pub fn drawn(&self) -> Drawn<'_> {
        Drawn { case: self.case(), roster: &self.drawn }
    }

    /// Whether answers 1 to 4 do not concern the rules, masks and limits.
    pub fn is_right(&self) -> bool {
        self.case().is_right(self.places)
    }

    /// Whether answers 2 and 7 do not concern a roster.
    pub fn values_right(&self, roster: &[u8]) -> bool {
        roster.len() == self.places
            && roster.iter().all(|value| usize::from(*value) < self.rules.values)
    }

    /// The entries of a slice as numbers.
    pub fn entries(&self, slice: Slice) -> Vec<u32> {
        match slice {
            Slice::Targets => widened(&self.rules.targets),
            Slice::Costs => widened(&self.rules.costs),
            Slice::Masks => widened(&self.masks),
            Slice::Limits => self.limits.clone(),
            Slice::Kept => widened(&self.kept),
            Slice::Roster => widened(&self.roster),
            Slice::Work => self.work.clone(),
            Slice::Session => self.session.clone(),
            Slice::Input => widened(&self.input),
            Slice::Output => widened(&self.output),
            Slice::Drawn => widened(&self.drawn),
            Slice::Plan => self.plan.clone(),
        }
    }

    /// Another length for a slice, given the old one, but at most its room. What is added is
    /// zeros.
    pub fn change_length(&mut self, slice: Slice, other: impl FnOnce(usize) -> usize) {
        let other = |length| other(length).min(slice.room());
        match slice {
            Slice::Targets => resize(&mut self.rules.targets, other),
            Slice::Costs => resize(&mut self.rules.costs, other),
            Slice::Masks => resize(&mut self.masks, other),
            Slice::Limits => resize(&mut self.limits, other),
            Slice::Kept => resize(&mut self.kept, other),
            Slice::Roster => resize(&mut self.roster, other),
            Slice::Work => resize(&mut self.work, other),
            Slice::Session => resize(&mut self.session, other),
            Slice::Input => resize(&mut self.input, other),
            Slice::Output => resize(&mut self.output, other),
            Slice::Drawn => resize(&mut self.drawn, other),
            Slice::Plan => resize(&mut self.plan, other),
        }
    }

    /// No slice can be lent with more entries than there is room for.
    pub fn cut_to_room(&mut self) {
        for slice in Slice::ALL {
            self.change_length(slice, |length| length);
        }
    }
}

fn resize<T: Clone + Default>(entries: &mut Vec<T>, other: impl FnOnce(usize) -> usize) {
    entries.resize(other(entries.len()), T::default());
}

fn widened<T: Copy + Into<u32>>(entries: &[T]) -> Vec<u32> {
    entries.iter().map(|entry| (*entry).into()).collect()
}
