//! The sheet W and the rosters worked on it, as the paper prints them.

#[cfg(test)]
use crate::rules::Case;
use crate::rules::{Found, Rules, MOST_LIMIT, NO_ARC, TABLE};

/// The sheet W, whole.
pub const W: &str = "size\t6\t3\t0\n\
    final\t0\nfinal\t2\nfinal\t3\nfinal\t4\nfinal\t5\n\
    arc\t0\t0\t1\t1\narc\t0\t1\t3\t2\narc\t0\t2\t4\t0\n\
    arc\t1\t0\t2\t1\n\
    arc\t2\t2\t4\t0\n\
    arc\t3\t1\t2\t2\narc\t3\t2\t4\t0\n\
    arc\t4\t0\t1\t1\narc\t4\t1\t3\t2\narc\t4\t2\t5\t0\n\
    arc\t5\t0\t1\t1\narc\t5\t1\t3\t2\n";

/// The arcs of W, by state then value: state, value, target, cost.
const ARCS: [(usize, usize, u8, u16); 12] = [
    (0, 0, 1, 1),
    (0, 1, 3, 2),
    (0, 2, 4, 0),
    (1, 0, 2, 1),
    (2, 2, 4, 0),
    (3, 1, 2, 2),
    (3, 2, 4, 0),
    (4, 0, 1, 1),
    (4, 1, 3, 2),
    (4, 2, 5, 0),
    (5, 0, 1, 1),
    (5, 1, 3, 2),
];

/// The rule set of W, with the places that play no part holding no arcs.
pub fn w() -> Rules {
    let mut targets = vec![NO_ARC; TABLE];
    let mut costs = vec![0; TABLE];
    for (state, value, target, cost) in ARCS {
        targets[state * 3 + value] = target;
        costs[state * 3 + value] = cost;
    }
    Rules { states: 6, values: 3, start: 0, targets, costs, accepting: 0b11_1101 }
}

/// One of K1 to K10.
pub struct KeptCase {
    pub name: &'static str,
    pub masks: &'static [u16],
    pub limits: &'static [u32],
    pub kept: &'static [u16],
    pub least: u32,
    pub answer: u32,
}

impl KeptCase {
    pub fn found(&self) -> Option<Found> {
        (self.answer == 0).then(|| Found { kept: self.kept.to_vec(), least: self.least })
    }
}

/// "-" is a limit of 366,000.
const N: u32 = MOST_LIMIT;

const fn found(
    name: &'static str,
    masks: &'static [u16],
    limits: &'static [u32],
    kept: &'static [u16],
    least: u32,
) -> KeptCase {
    KeptCase { name, masks, limits, kept, least, answer: 0 }
}

const fn none(
    name: &'static str,
    masks: &'static [u16],
    limits: &'static [u32],
    kept: &'static [u16],
) -> KeptCase {
    KeptCase { name, masks, limits, kept, least: 0, answer: 11 }
}

pub const KEPT_CASES: &[KeptCase] = &[
    found("K1", &[7], &[N], &[6], 0),
    found("K2", &[7, 7], &[N, N], &[7, 7], 0),
    found("K3", &[7, 7, 7], &[N, N, N], &[7, 7, 7], 2),
    found("K4", &[7, 1, 7], &[N, N, N], &[5, 1, 5], 2),
    found("K5", &[7, 7, 7], &[0, N, N], &[4, 7, 7], 2),
    found("K6", &[7, 7, 7], &[0, 0, N], &[4, 4, 2], 2),
    none("K7", &[7, 7, 7], &[0, 0, 1], &[0, 0, 0]),
    found("K8", &[7, 7, 7], &[1, 2, 2], &[5, 7, 7], 2),
    found("K9", &[7, 7, 7], &[N, 1, N], &[4, 5, 3], 2),
    none("K10", &[7, 0, 7], &[N, N, N], &[0, 0, 0]),
];

/// K11 or K12.
pub struct FirstCase {
    pub name: &'static str,
    pub masks: &'static [u16],
    pub limits: &'static [u32],
    pub place: usize,
    pub value: u8,
    pub roster: &'static [u8],
}

const fn first(name: &'static str, limits: &'static [u32], roster: &'static [u8]) -> FirstCase {
    FirstCase { name, masks: &[7, 7, 7], limits, place: 1, value: 1, roster }
}

/// "first roster with e at place 1 is eex", "the same with K5's limits is xee".
pub const FIRST_CASES: &[FirstCase] =
    &[first("K11", &[N, N, N], &[1, 1, 2]), first("K12", &[0, N, N], &[2, 1, 1])];

/// Drawn rosters and their reports: "xxd then gets 1 (xx extends to xxe), and dxx gets 2", d alone
/// is not accepted, and the eight accepted rosters of length 3 get 0.
pub const DRAWN_CASES: &[(&[u8], usize)] = &[
    (&[2, 2, 0], 1),
    (&[0, 2, 2], 2),
    (&[0], 1),
    (&[0, 0, 2], 0),
    (&[1, 1, 2], 0),
    (&[1, 2, 1], 0),
    (&[1, 2, 2], 0),
    (&[2, 0, 0], 0),
    (&[2, 1, 1], 0),
    (&[2, 1, 2], 0),
    (&[2, 2, 1], 0),
];

/// A roster drawn on W, and what comes of mending it.
pub struct Mended {
    pub drawn: &'static [u8],
    pub most: u32,
    pub masks: &'static [u16],
    pub limits: &'static [u32],
    /// The number of changes and the roster, if there is one.
    pub found: Option<(u32, [u8; 3])>,
}

const fn mended(
    drawn: &'static [u8],
    most: u32,
    masks: &'static [u16],
    limits: &'static [u32],
    found: Option<(u32, [u8; 3])>,
) -> Mended {
    Mended { drawn, most, masks, limits, found }
}

/// Worked by hand from the eight accepted rosters of length 3 (ddx, eex, exe, exx, xdd, xee, xex, xxe):
/// xxd is one change from xdd and from xxe; with x alone at the first place, or only those who spend
/// nothing there, eee is one change from xee; limits of 0, 0 and 1 leave no roster (K7).
pub const MENDED_CASES: &[Mended] = &[
    mended(&[2, 2, 0], 7, &[7; 3], &[N; 3], Some((1, [2, 0, 0]))),
    mended(&[2, 2, 0], 1, &[7; 3], &[N; 3], Some((1, [2, 0, 0]))),
    mended(&[2, 2, 0], 0, &[7; 3], &[N; 3], None),
    mended(&[2, 2, 0], 7, &[7, 6, 7], &[N; 3], Some((1, [2, 2, 1]))),
    mended(&[1, 2, 2], 0, &[7; 3], &[N; 3], Some((0, [1, 2, 2]))),
    mended(&[1, 2, 2], 7, &[6; 3], &[0, N, N], Some((2, [2, 1, 2]))),
    mended(&[1, 2, 2], 1, &[6; 3], &[0, N, N], None),
    mended(&[0, 0, 0], 7, &[7; 3], &[N; 3], Some((1, [0, 0, 2]))),
    mended(&[1, 1, 1], 7, &[7; 3], &[N; 3], Some((1, [1, 1, 2]))),
    mended(&[1, 1, 1], 7, &[7; 3], &[0, N, N], Some((1, [2, 1, 1]))),
    mended(&[0, 0, 1], 7, &[4, 7, 7], &[N; 3], Some((2, [2, 0, 0]))),
    mended(&[0, 0, 0], 3, &[6; 3], &[N; 3], Some((3, [1, 1, 2]))),
    mended(&[0, 0, 0], 2, &[6; 3], &[N; 3], None),
    mended(&[1, 1, 1], 7, &[7; 3], &[0, 0, 1], None),
];

/// Holds a filter against K1 to K10.
#[cfg(test)]
pub fn check_kept_cases(filter: impl Fn(&Case) -> Option<Found>) {
    let rules = w();
    for worked in KEPT_CASES {
        let case = Case { rules: &rules, masks: worked.masks, limits: worked.limits };
        assert_eq!(filter(&case), worked.found(), "{}", worked.name);
    }
}

/// Holds a first roster, by place and value, against K11 and K12.
#[cfg(test)]
pub fn check_first_cases(first: impl Fn(&Case, usize, u8) -> Option<Vec<u8>>) {
    let rules = w();
    for worked in FIRST_CASES {
        let case = Case { rules: &rules, masks: worked.masks, limits: worked.limits };
        let first = first(&case, worked.place, worked.value);
        assert_eq!(first.as_deref(), Some(worked.roster), "{}", worked.name);
    }
}

/// Holds the length of a longest prefix against the drawn rosters.
#[cfg(test)]
pub fn check_drawn_cases(longest_prefix: impl Fn(&Rules, &[u8]) -> Option<usize>) {
    for (roster, report) in DRAWN_CASES {
        assert_eq!(longest_prefix(&w(), roster), Some(roster.len() - report), "{roster:?}");
    }
}
