//! The cases that the paper works on W, and the session walk.

use super::sheets::sheet_lent;
use crate::cases::Problem;
use crate::rules::MOST_LIMIT;
use crate::script::{Call, Lent, Script, Slice};
use crate::session::Request;
use crate::worked::{w, FIRST_CASES, KEPT_CASES, W};

/// What a call on W is lent.
pub fn lent_on_w(masks: &[u16], limits: &[u32]) -> Lent {
    let (masks, limits) = (masks.to_vec(), limits.to_vec());
    Lent::of(Problem { places: masks.len(), rules: w(), masks, limits })
}

/// The masks and limits of K3: three places where everything is allowed.
pub fn open_on_w() -> Lent {
    lent_on_w(&[7; 3], &[MOST_LIMIT; 3])
}

pub fn keep(place: usize, mask: u16) -> Call {
    Call::Ask(Request::Keep { place, mask })
}

pub fn limit(place: usize, limit: u32) -> Call {
    Call::Ask(Request::Limit { place, limit })
}

pub const MARK: Call = Call::Ask(Request::Mark);
pub const BACK: Call = Call::Ask(Request::Back);

/// K1 to K10.
pub fn kept(script: &mut Script) {
    for worked in KEPT_CASES {
        script.begin(worked.name);
        script.call(&mut lent_on_w(worked.masks, worked.limits), Call::Filter);
    }
}

/// K11 and K12.
pub fn first(script: &mut Script) {
    for worked in FIRST_CASES {
        script.begin(worked.name);
        let call = Call::First { place: worked.place, value: worked.value };
        script.call(&mut lent_on_w(worked.masks, worked.limits), call);
    }
}

/// "open as K3, mark, keep place 1 mask 1, limit place 0 at 0, mark, keep place 2 mask 4, back,
/// back, back".
pub fn session(script: &mut Script) {
    script.begin("the session walk on W");
    let mut lent = open_on_w();
    let calls = [Call::Open, MARK, keep(1, 1), limit(0, 0), MARK, keep(2, 4), BACK, BACK, BACK];
    for call in calls {
        script.call(&mut lent, call);
        script.show(Slice::Session, 0, 5);
    }
}

/// W read and written.
pub fn sheet(script: &mut Script) {
    script.begin("W read");
    let mut lent = sheet_lent(W.as_bytes());
    script.call(&mut lent, Call::Read);
    script.show(Slice::Targets, 0, 19);
    script.show(Slice::Costs, 0, 19);
    script.begin("W written");
    lent.output = vec![b'?'; W.len() + 3];
    script.call(&mut lent, Call::Write);
    script.show(Slice::Output, 0, W.len() + 3);
}

/// What docs/CALLS.md says of the lines themselves: unknown ones, entries shown or set past a
/// slice's end, and numbers that lose their upper bits when they are handed over.
pub fn lines(script: &mut Script) {
    script.begin("the lines of a script");
    for line in ["", "nothing", "filters", "Filter", "filter "] {
        script.unknown(line);
    }
    let mut lent = open_on_w();
    script.call(&mut lent, Call::Filter);
    script.show(Slice::Kept, 1, 9);
    script.show(Slice::Kept, 3, 1);
    script.show(Slice::Kept, usize::MAX, usize::MAX);
    script.show(Slice::Kept, 1, usize::MAX);
    script.fill(Slice::Kept, 1, usize::MAX, 9);
    script.fill(Slice::Kept, usize::MAX, 3, 8);
    script.show(Slice::Kept, 0, 4);
    script.call_as("first\t1\t257", &mut lent, Call::First { place: 1, value: 1 });
    script.call(&mut lent, Call::Open);
    script.call_as("keep\t1\t65537", &mut lent, keep(1, 1));
    script.call_as("limit\t0\t4294967296", &mut lent, limit(0, 0));
}
