use super::*;
use crate::rules::{MOST_LIMIT, NO_ARC};
use crate::worked::w;

const DIRTY: u32 = 0xABCD_EF01;

/// A session on three places of some rules, every call lent a dirty work table.
struct Desk {
    rules: Rules,
    memory: Vec<u32>,
}

impl Desk {
    /// Opens as K3, upon memory of any content.
    fn open() -> Desk {
        let mut desk = Desk { rules: w(), memory: vec![DIRTY; memory_length(3)] };
        let mut work = vec![DIRTY; 256];
        let answer = open(3, &desk.rules, &[7; 3], &[MOST_LIMIT; 3], &mut desk.memory, &mut work);
        assert_eq!(answer, Answer::Done);
        assert_eq!(work, [0; 256]);
        desk
    }

    fn ask(&mut self, request: Request) -> u32 {
        let mut work = vec![DIRTY; 256];
        let answer = ask(3, &self.rules, &mut self.memory, &mut work, request);
        assert_eq!(work, [0; 256]);
        answer.number()
    }

    /// A request that must be refused with this answer and leave the session as it was.
    fn refuses(&mut self, request: Request, answer: Answer) {
        let before = self.memory.clone();
        assert_eq!(self.ask(request), answer.number());
        assert_eq!(self.memory, before);
    }

    /// The kept masks, the least cost and the last result.
    fn standing(&self) -> ([u32; 3], u32, u32) {
        let kept = [self.memory[2], self.memory[3], self.memory[4]];
        (kept, self.memory[1], self.memory[0])
    }
}

fn keep(place: usize, mask: u16) -> Request {
    Request::Keep { place, mask }
}

fn limit(place: usize, limit: u32) -> Request {
    Request::Limit { place, limit }
}

#[test]
fn the_walk_of_the_paper() {
    let mut desk = Desk::open();
    assert_eq!(desk.standing(), ([7, 7, 7], 2, 0));
    let opened = desk.memory.clone();
    assert_eq!(desk.ask(Request::Mark), 0);
    assert_eq!(desk.ask(keep(1, 1)), 0);
    assert_eq!(desk.standing(), ([5, 1, 5], 2, 0));
    assert_eq!(desk.ask(limit(0, 0)), 0);
    assert_eq!(desk.standing(), ([4, 1, 1], 2, 0));
    let limited = desk.memory.clone();
    assert_eq!(desk.ask(Request::Mark), 0);
    assert_eq!(desk.ask(keep(2, 4)), 11);
    assert_eq!(desk.standing(), ([0, 0, 0], 0, 11));
    assert_eq!(desk.ask(Request::Back), 0);
    assert_eq!(desk.memory, limited);
    assert_eq!(desk.ask(Request::Back), 0);
    assert_eq!(desk.memory, opened);
    desk.refuses(Request::Back, Answer::NoMark);
}

#[test]
fn the_image_after_the_walks_third_step() {
    let mut desk = Desk::open();
    desk.ask(Request::Mark);
    desk.ask(keep(1, 1));
    desk.ask(limit(0, 400_000));
    let memory = &desk.memory;
    assert_eq!(memory.len(), 1_801);
    assert_eq!(memory[..11], [0, 2, 5, 1, 5, 3, 6, 3, 0, 2, 1]);
    assert_eq!(memory[11..67], [0; 56]);
    assert_eq!(memory[67..76], [3, 0, 0, 1, 1, 1, 2, 0, 400_000]);
    assert!(memory[76..1_795].iter().all(|number| *number == 0));
    assert_eq!(memory[1_795..], [7, 7, 7, 366_000, 366_000, 366_000]);
}

#[test]
fn a_session_without_rosters_still_takes_calls() {
    let mut desk = Desk::open();
    assert_eq!(desk.ask(Request::Mark), 0);
    assert_eq!(desk.ask(keep(0, 0)), 11);
    assert_eq!(desk.ask(Request::Mark), 11);
    assert_eq!(desk.ask(keep(0, 7)), 11);
    assert_eq!(desk.ask(Request::Back), 11);
    assert_eq!(desk.ask(Request::Back), 0);
}

#[test]
fn the_512th_decision_stands_and_the_513th_gets_8() {
    let mut desk = Desk::open();
    for _ in 0..511 {
        assert_eq!(desk.ask(keep(0, 7)), 0);
    }
    assert_eq!(desk.ask(limit(2, u32::MAX)), 0);
    desk.refuses(keep(0, 7), Answer::Decisions);
    desk.refuses(limit(0, 1), Answer::Decisions);
    desk.refuses(keep(3, 7), Answer::Range);
    assert_eq!(desk.ask(Request::Mark), 0);
}

#[test]
fn the_64th_mark_is_opened_and_the_65th_gets_9() {
    let mut desk = Desk::open();
    for _ in 0..64 {
        assert_eq!(desk.ask(Request::Mark), 0);
    }
    desk.refuses(Request::Mark, Answer::Marks);
    assert_eq!(desk.ask(keep(0, 7)), 0);
    assert_eq!(desk.ask(Request::Back), 0);
    assert_eq!(desk.ask(Request::Mark), 0);
}

#[test]
fn decisions_before_any_mark_stay() {
    let mut desk = Desk::open();
    desk.ask(keep(1, 1));
    let kept = desk.memory.clone();
    desk.ask(Request::Mark);
    desk.ask(limit(0, 0));
    desk.ask(Request::Back);
    assert_eq!(desk.memory, kept);
    desk.refuses(Request::Back, Answer::NoMark);
}

#[test]
fn places_and_masks_out_of_range_get_7() {
    let mut desk = Desk::open();
    desk.refuses(keep(3, 7), Answer::Range);
    desk.refuses(keep(usize::MAX, 7), Answer::Range);
    desk.refuses(keep(0, 8), Answer::Range);
    desk.refuses(limit(3, 0), Answer::Range);
}

#[test]
fn nearly_every_changed_number_gets_12() {
    let mut desk = Desk::open();
    desk.ask(keep(1, 1));
    desk.ask(Request::Mark);
    desk.ask(limit(0, 5));
    let right = desk.memory.clone();
    // A larger limit or decision that changes no result leaves another right session.
    let lawful = |place: usize| place == 75 || place >= 1_798;
    for place in (0..right.len()).filter(|place| !lawful(*place)) {
        desk.memory.clone_from(&right);
        desk.memory[place] = desk.memory[place].wrapping_add(1 << 16);
        desk.refuses(Request::Back, Answer::Memory);
    }
}

#[test]
fn memory_is_judged_by_the_definition_alone() {
    let mut desk = Desk::open();
    desk.memory[1_798] = 400_000;
    assert_eq!(desk.ask(Request::Mark), 0);
    desk.memory[1_795] = 8;
    desk.refuses(Request::Back, Answer::Memory);
}

#[test]
fn other_rules_are_refused_only_if_the_memory_is_not_theirs() {
    let mut desk = Desk::open();
    // State 5 is reached by xx alone, and its arc on d only by xxd, which is not accepted.
    desk.rules.targets[15] = NO_ARC;
    desk.rules.costs[15] = 0;
    assert_eq!(desk.ask(Request::Mark), 0);
    desk.rules.accepting = 0;
    desk.refuses(Request::Mark, Answer::Memory);
    desk.rules = Rules { start: 5, ..w() };
    desk.refuses(Request::Mark, Answer::Memory);
    desk.rules.costs[0] = 1_001;
    desk.refuses(keep(9, 9), Answer::Tables);
}

#[test]
fn sizes_and_lengths_leave_the_work_table() {
    let mut memory = Desk::open().memory;
    let before = memory.clone();
    let mut work = vec![DIRTY; 256];
    let short = &mut vec![DIRTY; 255];
    assert_eq!(ask(3, &w(), &mut memory, short, Request::Mark), Answer::Lengths);
    assert_eq!(ask(0, &w(), &mut memory, &mut work, Request::Mark), Answer::Sizes);
    assert_eq!(ask(4, &w(), &mut memory, &mut work, Request::Mark), Answer::Lengths);
    assert_eq!((&memory, &work, short), (&before, &vec![DIRTY; 256], &mut vec![DIRTY; 255]));
}

#[test]
fn a_refused_opening_leaves_the_session() {
    let mut memory = Desk::open().memory;
    let before = memory.clone();
    let mut work = vec![DIRTY; 256];
    let answer = open(3, &w(), &[7, 8, 7], &[0; 3], &mut memory, &mut work);
    assert_eq!((answer, &memory), (Answer::Masks, &before));
    assert_eq!(work, [0; 256]);
    let answer = open(3, &w(), &[7; 2], &[0; 3], &mut memory, &mut work);
    assert_eq!((answer, &memory), (Answer::Lengths, &before));
}

#[test]
fn an_opening_without_rosters_answers_11() {
    let mut memory = vec![DIRTY; memory_length(3)];
    let answer = open(3, &w(), &[7; 3], &[0, 0, 1], &mut memory, &mut vec![DIRTY; 256]);
    assert_eq!(answer, Answer::NoRoster);
    assert_eq!(memory[..5], [11, 0, 0, 0, 0]);
}
