//! Full lists: "the 512th decision stands, the 513th gets 8", and the same for 64 marks.

use super::memory::{DECISIONS, MARKS, ROWS};
use super::walks::{keep, limit, open_on_w, BACK, MARK};
use crate::script::{Call, Script};
use crate::session::{MOST_DECISIONS, MOST_MARKS};

/// 512 decisions, the refusals then, and memory that holds a 513th.
pub fn decisions(script: &mut Script) {
    script.begin("512 decisions, and more");
    let mut lent = open_on_w();
    script.call(&mut lent, Call::Open);
    script.call(&mut lent, MARK);
    for decision in 0..MOST_DECISIONS {
        let call = if decision % 2 == 0 { keep(decision % 3, 7) } else { limit(0, 400_000) };
        script.call(&mut lent, call);
    }
    for call in [keep(0, 7), limit(0, 1), keep(3, 7), keep(0, 8), limit(3, 1), MARK] {
        script.call(&mut lent, call);
    }
    let mut one_more = lent.clone();
    let row = ROWS + 3 * (MOST_DECISIONS + 2);
    one_more.session[row..row + 3].copy_from_slice(&[1, 0, 7]);
    one_more.session[DECISIONS] += 1;
    script.call(&mut one_more, BACK);
    for call in [BACK, keep(1, 1), BACK, BACK, keep(1, 1)] {
        script.call(&mut lent, call);
    }
}

/// 64 marks, the refusal then, and memory that holds a 65th.
pub fn marks(script: &mut Script) {
    script.begin("64 marks, and more");
    let mut lent = open_on_w();
    script.call(&mut lent, Call::Open);
    for mark in 0..MOST_MARKS {
        script.call(&mut lent, MARK);
        if mark % 8 == 0 {
            script.call(&mut lent, limit(2, 1_000 - mark as u32));
        }
    }
    for call in [MARK, keep(0, 7)] {
        script.call(&mut lent, call);
    }
    let mut one_more = lent.clone();
    let row = ROWS + 3 * (MOST_MARKS + 9);
    one_more.session[row] = 3;
    one_more.session[MARKS] += 1;
    script.call(&mut one_more, BACK);
    for _ in 0..=MOST_MARKS {
        script.call(&mut lent, BACK);
    }
    script.call(&mut lent, MARK);
}
