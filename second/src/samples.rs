//! Texts that are right or wrong in one way each, for tests and scripts alike.

/// Right sheets beside W.
pub const RIGHT_SHEETS: &[&str] = &[
    "size\t1\t1\t0\n",
    "size\t64\t16\t63\n",
    "size\t2\t2\t1\narc\t1\t1\t0\t1000\n",
    "size\t6\t3\t0\nfinal\t2\narc\t1\t1\t0\t0\narc\t1\t2\t0\t0\narc\t2\t0\t0\t0\n",
    "size\t6\t3\t5\nfinal\t0\nfinal\t5\n",
];

/// Sheets that are wrong at their first line, and the answer by its first fault: 5 for form, order
/// and a missing line feed, 13 for a number out of range.
pub const WRONG_SIZE_LINES: &[(&str, u32)] = &[
    ("", 5),
    ("\n", 5),
    ("size\t6\t3\t0", 5),
    ("size\t0\t3\t0\n", 13),
    ("size\t65\t3\t0\n", 13),
    ("size\t6\t0\t0\n", 13),
    ("size\t6\t17\t0\n", 13),
    ("size\t6\t3\t6\n", 13),
    ("size\t06\t3\t0\n", 5),
    ("size\t6\t3\n", 5),
    ("size\t6\t3\t0\t\n", 5),
    ("size\t6\t3\t0\t0\n", 5),
    ("size 6 3 0\n", 5),
    ("Size\t6\t3\t0\n", 5),
    ("size\t6\t3\t0\r\n", 5),
    (" size\t6\t3\t0\n", 5),
    ("size\t\t6\t3\t0\n", 5),
    ("size\t+6\t3\t0\n", 5),
    ("final\t0\n", 5),
    ("size\t6\t3\t\n", 5),
    ("size\t6\t3\t00\n", 5),
    ("sizes\t6\t3\t0\n", 5),
    ("size\t18446744073709551622\t3\t0\n", 13),
    ("size\t6\t3\t0\0\n", 5),
    // Short lines: a field is tested before the next one is missed.
    ("size", 5),
    ("size\n", 5),
    ("size\t", 5),
    ("size\t6", 5),
    ("size\t6\n", 5),
    ("size\t0", 13),
    ("size\t0\n", 13),
    ("size\t00\n", 5),
    ("size\t65", 13),
    ("size\t6\t0\n", 13),
    ("size\t6\t17", 13),
    // Behind a first fault nothing else is looked at.
    ("size\t0\tx\t9\n", 13),
    ("size\t0\t0\t0\n", 13),
    ("size\tx\t0\t9\n", 5),
    ("size\t6\tx\t9\n", 5),
    ("size\t6\t17\tx\n", 13),
    ("size\t6\t\t6\n", 5),
    ("size\t6\t3\t6\t\n", 13),
    ("size\t65\t17\t65\t1\n", 13),
    ("final\t99\n", 5),
    ("arc\t99", 5),
    ("Size\t0\t0\t0\n", 5),
    // The line feed comes last.
    ("size\t6\t3\t6", 13),
    ("size\t6\t3\t0\t0", 5),
    ("size\t0\t3\t0", 13),
    // A field is judged whole.
    ("size\t65x\t3\t0\n", 5),
    ("size\t065\t3\t0\n", 5),
    ("size\t6\t99 \t0\n", 5),
    ("size\t6\t3\t99\r\n", 5),
    // Right if cut to 8, 16, 32 or 64 bits.
    ("size\t262\t3\t0\n", 13),
    ("size\t6\t65539\t0\n", 13),
    ("size\t6\t3\t4294967296\n", 13),
    ("size\t6\t3\t18446744073709551616\n", 13),
    ("size\t64\t16\t64\n", 13),
    ("size\t1\t1\t1\n", 13),
    // What stands behind a wrong line is not read.
    ("size\t6\t3\t0\t0\nfinal\t99\n", 5),
    ("size\t6\t3\t6\nfinal\tx\n", 13),
];

/// Second lines that are wrong after a size line of 6 states and 3 values, and their answers.
pub const WRONG_LATER_LINES: &[(&str, u32)] = &[
    ("\n", 5),
    ("size\t6\t3\t0\n", 5),
    ("final\t6\n", 13),
    ("final\t0", 5),
    ("final\n", 5),
    ("final\t\n", 5),
    ("final\t0\t\n", 5),
    ("final\t01\n", 5),
    ("final\t-1\n", 5),
    ("arc\t0\t0\t1\n", 5),
    ("arc\t6\t0\t1\t1\n", 13),
    ("arc\t0\t3\t1\t1\n", 13),
    ("arc\t0\t0\t6\t1\n", 13),
    ("arc\t0\t0\t255\t0\n", 13),
    ("arc\t0\t0\t1\t1001\n", 13),
    ("arc\t0\t0\t1\t1\t\n", 5),
    ("arc\t0\t0\t1\t1", 5),
    ("ark\t0\t0\t1\t1\n", 5),
    ("arc\t0\t0\t1\t99999999999999999999\n", 13),
    // Short lines.
    ("arc", 5),
    ("arc\n", 5),
    ("arc\t0\n", 5),
    ("arc\t99\n", 13),
    ("arc\t99", 13),
    ("arc\tx\n", 5),
    ("arc\t0\t99\n", 13),
    ("arc\t0\t99", 13),
    ("arc\t0\t0\t6\n", 13),
    ("arc\t0\t0\t1", 5),
    // Fields too many come after the last proper one.
    ("final\t99\t7\n", 13),
    ("final\t1\t7\n", 5),
    ("final\t1\t99\n", 5),
    ("final\tx\t99\n", 5),
    ("final\t99\tx\n", 13),
    ("arc\t0\t0\t1\t1001\t\n", 13),
    ("arc\t0\t0\t1\t1\t1001\n", 5),
    // The line feed comes last.
    ("final\t99", 13),
    ("final\tx", 5),
    ("final\t1\t7", 5),
    ("arc\t0\t0\t0\t1001", 13),
    // From left to right.
    ("arc\t6\tx\t1\t1\n", 13),
    ("arc\tx\t3\t6\t1001\n", 5),
    ("arc\t0\t3\t\t1\n", 13),
    ("arc\t0\t\t6\t1\n", 5),
    ("arc\t0\t0\t6\t+1\n", 13),
    ("arc\t0\t0\t01\t1001\n", 5),
    ("arc\t\t99\t99\t9999\n", 5),
    // Any other first field is a fault of form.
    ("size\t0\t0\t0\n", 5),
    ("size\t99\n", 5),
    ("Final\t99\n", 5),
    ("finals\t99\n", 5),
    ("arcs\t99\t0\t0\t0\n", 5),
    ("\tfinal\t99\n", 5),
    ("\t99\n", 5),
    ("99\n", 5),
    ("days\t999\n", 5),
    ("keep\t99\t99\n", 5),
    // A field is judged whole.
    ("final\t999x\n", 5),
    ("final\tx999\n", 5),
    ("final\t099\n", 5),
    ("final\t99\r\n", 5),
    ("final\t 99\n", 5),
    ("arc\t0\t0\t1\t99999999999999999999999x\n", 5),
    ("arc\t0\t0\t1\t099999999999999999999999\n", 5),
    ("arc\t0\t0\t1\t+1001\n", 5),
    // Numbers of many digits, and those that are right if cut to 8, 16, 32 or 64 bits.
    ("arc\t0\t0\t1\t99999999999999999999999\n", 13),
    ("arc\t0\t0\t1\t1000000000\n", 13),
    ("arc\t0\t0\t1\t10000000000000000000000000000000000000000\n", 13),
    ("final\t256\n", 13),
    ("final\t65536\n", 13),
    ("final\t4294967296\n", 13),
    ("final\t18446744073709551616\n", 13),
    ("final\t340282366920938463463374607431768211456\n", 13),
    ("arc\t0\t256\t1\t1\n", 13),
    ("arc\t0\t0\t4294967297\t1\n", 13),
    ("arc\t0\t0\t1\t65536\n", 13),
];

/// Sheets whose last line breaks the order, its number, and the answer: a number of the line that
/// is out of range comes before its order.
pub const OUT_OF_ORDER: &[(&str, usize, u32)] = &[
    ("size\t6\t3\t0\nfinal\t2\nfinal\t2\n", 3, 5),
    ("size\t6\t3\t0\nfinal\t2\nfinal\t1\n", 3, 5),
    ("size\t6\t3\t0\nfinal\t2\narc\t1\t1\t0\t0\narc\t1\t1\t0\t0\n", 4, 5),
    ("size\t6\t3\t0\nfinal\t2\narc\t1\t1\t0\t0\narc\t1\t0\t0\t0\n", 4, 5),
    ("size\t6\t3\t0\nfinal\t2\narc\t1\t1\t0\t0\narc\t0\t2\t0\t0\n", 4, 5),
    ("size\t6\t3\t0\nfinal\t2\narc\t1\t1\t0\t0\nfinal\t3\n", 4, 5),
    // Without a line feed, with a field too many, with a cost, a target and a state out of range.
    ("size\t6\t3\t0\nfinal\t2\nfinal\t1", 3, 5),
    ("size\t6\t3\t0\nfinal\t2\nfinal\t1\t9", 3, 5),
    ("size\t6\t3\t0\nfinal\t2\nfinal\t1\t99\n", 3, 5),
    ("size\t6\t3\t0\narc\t1\t1\t0\t0\narc\t1\t1\t0\t0\t1001\n", 3, 5),
    ("size\t6\t3\t0\narc\t1\t1\t0\t0\narc\t1\t1\t0\t1001\n", 3, 13),
    ("size\t6\t3\t0\narc\t1\t1\t0\t0\narc\t0\t2\t6\t0\n", 3, 13),
    ("size\t6\t3\t0\narc\t1\t1\t0\t0\narc\t0\t2\t0\t1001", 3, 13),
    ("size\t6\t3\t0\narc\t1\t1\t0\t0\narc\t0\t2\t0\t1001\t0\n", 3, 13),
    ("size\t6\t3\t0\narc\t1\t1\t0\t0\nfinal\t6\n", 3, 13),
    ("size\t6\t3\t0\narc\t1\t1\t0\t0\nfinal\t5", 3, 5),
];

/// Right sheets with one of their numbers left out, and the most that it can be.
pub const NUMBERS: &[(&str, u128)] = &[
    ("size\t@\t3\t0\n", 64),
    ("size\t6\t@\t0\n", 16),
    ("size\t6\t3\t@\n", 5),
    ("size\t6\t3\t0\nfinal\t@\n", 5),
    ("size\t6\t3\t0\narc\t@\t0\t0\t0\n", 5),
    ("size\t6\t3\t0\narc\t0\t@\t0\t0\n", 2),
    ("size\t6\t3\t0\narc\t0\t0\t@\t0\n", 5),
    ("size\t6\t3\t0\narc\t0\t0\t0\t@\n", 1_000),
];

/// A line of a sheet taken apart into what is tested one after the other.
pub struct Tested {
    /// The lines before it, but for the last.
    pub before: &'static str,
    /// The parts of a right line: its fields, what may be too much, the last line before it (for
    /// the order), its line feed.
    pub right: &'static [&'static str],
    /// A part, what it becomes, and the answer.
    pub faults: &'static [(usize, &'static str, u32)],
}

impl Tested {
    /// Each fault alone and each two of different parts: the sheet, the number of the wrong line, and
    /// the answer of the part that is tested first.
    pub fn faulty(&self) -> Vec<(String, usize, u32)> {
        let mut faulty = Vec::new();
        for first in self.faults {
            let (part, text, answer) = *first;
            for second in self.faults.iter().filter(|fault| fault.0 > part || *fault == first) {
                let mut parts = self.right.to_vec();
                (parts[part], parts[second.0]) = (text, second.1);
                let (sheet, line) = self.sheet(&parts);
                faulty.push((sheet, line, answer));
            }
        }
        faulty
    }

    /// The sheet with these parts for its last line, and the number of that line.
    fn sheet(&self, parts: &[&str]) -> (String, usize) {
        let [fields @ .., line_before, line_feed] = parts else {
            panic!("the last two parts are not the line's own");
        };
        let before = format!("{}{line_before}", self.before);
        let line = before.matches('\n').count() + 1;
        (format!("{before}{}{line_feed}", fields.concat()), line)
    }
}

/// The three kinds of line, each part with each kind of fault that it can have.
pub const TESTED: &[Tested] = &[
    Tested {
        before: "",
        right: &["size", "\t6", "\t3", "\t5", "", "", "\n"],
        faults: &[
            (0, "sizes", 5),
            (1, "\t06", 5),
            (1, "\t0", 13),
            (1, "\t65", 13),
            (2, "\t3x", 5),
            (2, "\t0", 13),
            (2, "\t17", 13),
            (3, "\t", 5),
            (3, "\t99", 13),
            (4, "\t1", 5),
            (6, "", 5),
        ],
    },
    Tested {
        before: "size\t6\t3\t0\n",
        right: &["final", "\t3", "", "final\t2\n", "\n"],
        faults: &[
            (0, "size", 5),
            (1, "\t+3", 5),
            (1, "\t6", 13),
            (2, "\t99", 5),
            (3, "final\t5\n", 5),
            (3, "arc\t0\t0\t0\t0\n", 5),
            (4, "", 5),
        ],
    },
    Tested {
        before: "size\t6\t3\t0\n",
        right: &["arc", "\t1", "\t1", "\t1", "\t1", "", "arc\t1\t0\t0\t0\n", "\n"],
        faults: &[
            (0, "", 5),
            (1, "\tx", 5),
            (1, "\t6", 13),
            (2, "\t", 5),
            (2, "\t3", 13),
            (3, "\t01", 5),
            (3, "\t6", 13),
            (4, "\t1001x", 5),
            (4, "\t1001", 13),
            (5, "\t9999", 5),
            (6, "arc\t5\t2\t0\t0\n", 5),
            (7, "", 5),
        ],
    },
];

/// Jobs on W, the paper's example first.
pub const RIGHT_JOBS: &[&str] = &[
    "days\t3\nkeep\t1\t1\n",
    "days\t3\nlimit\t1\t1\nlimit\t1\t4294967295\n",
    "days\t128\n",
    "days\t3\nkeep\t0\t0\n",
];

/// First job lines on W that are wrong.
pub const WRONG_DAYS_LINES: &[&str] = &[
    "days\t0\n",
    "days\t129\n",
    "days\t3",
    "days\n",
    "days\t3\t\n",
    "Days\t3\n",
    "day\t3\n",
    "keep\t0\t1\n",
    "days 3\n",
    "days\t\n",
    "days\t99999999999999999999\n",
];

/// Job lines that are wrong after `days` 3 on W.
pub const WRONG_JOB_LINES: &[&str] = &[
    "keep\t3\t1\n",
    "keep\t0\t8\n",
    "keep\t0\t65536\n",
    "limit\t3\t1\n",
    "keep\t0\n",
    "limit\t0\t4294967296\n",
    "limit\t0\t99999999999999999999\n",
    "keep\t0\t1\t\n",
    "keep\t0\t1",
    "limit\t0\n",
    "mark\n",
    "days\t3\n",
    "keep\t0\t1\r\n",
];

/// Mending jobs on W.
pub const RIGHT_MENDS: &[&str] = &[
    "days\t3\ndrawn\t2\t2\t0\nmost\t7\n",
    "days\t3\ndrawn\t2\t2\t0\nmost\t0\n",
    "days\t3\nkeep\t1\t6\nlimit\t2\t2\ndrawn\t2\t2\t0\nmost\t1\n",
    "days\t3\nlimit\t0\t0\ndrawn\t1\t2\t2\nmost\t2\n",
    "days\t1\ndrawn\t0\nmost\t1\n",
    "days\t3\nkeep\t0\t0\ndrawn\t1\t2\t2\nmost\t7\n",
];

/// Lines that are wrong where `drawn` is to come, with `days` 3 on W.
pub const WRONG_DRAWN_LINES: &[&str] = &[
    "drawn\n",
    "drawn\t\n",
    "drawn\t2\t2\n",
    "drawn\t2\t2\t0\t0\n",
    "drawn\t2\t2\t0\t\n",
    "drawn\t2\t2\t\n",
    "drawn\t\t2\t2\n",
    "drawn\t2\t2\t3\n",
    "drawn\t3\t2\t0\n",
    "drawn\t2\t2\t256\n",
    "drawn\t2\t02\t0\n",
    "drawn\t2\t-2\t0\n",
    "drawn\t2\t2\t0",
    "drawn\t2\t2\t0\r\n",
    "drawn 2 2 0\n",
    "Drawn\t2\t2\t0\n",
    "drawns\t2\t2\t0\n",
    "drawn\t2\t2\t18446744073709551616\n",
    "most\t7\n",
    "\n",
];

/// Lines that are wrong where `most` is to come.
pub const WRONG_MOST_LINES: &[&str] = &[
    "most\t8\n",
    "most\t9\n",
    "most\t10\n",
    "most\t256\n",
    "most\t4294967296\n",
    "most\t18446744073709551616\n",
    "most\t07\n",
    "most\t+7\n",
    "most\t\n",
    "most\n",
    "most\t7",
    "most\t7\t\n",
    "most\t7\t7\n",
    "most\t7\r\n",
    "most 7\n",
    "Most\t7\n",
    "mosts\t7\n",
    "drawn\t2\t2\t0\n",
    "keep\t0\t7\n",
    "\n",
];

/// "My colleagues write" this.
pub const COLLEAGUES: &str = "(aa|b|bb)(c(aa|b|bb))*";

/// A pattern of 64 states; with `c` behind it there is one more.
pub const PATTERN_OF_64: &str = "((a|ab)*b(a|bb)(a|b)(a|bb))+";

/// The empty prefix and every choice of the last six letters' a's: 1 + 2^6 states.
pub const PATTERN_OF_65: &str = "(a|b)*a(a|b)(a|b)(a|b)(a|b)(a|b)";

/// Right lines for V = 3, with the number of their states.
pub const RIGHT_PATTERNS: &[(&str, usize)] = &[
    (COLLEAGUES, 10),
    ("a", 2),
    ("a*", 2),
    ("a+", 2),
    ("a?", 2),
    ("(a?)*", 2),
    ("(a*)+", 2),
    ("((a*)*)*", 2),
    ("(a?b?)*", 3),
    ("(a?b?)+c", 4),
    ("((a|b)?)+", 3),
    ("a|a", 2),
    ("(a|a)b", 3),
    // The two b's are two places, the two a's are read by both.
    ("ab|cb", 5),
    ("ab|ac", 4),
    ("aa*", 3),
    ("a*a", 2),
    ("(ab)+", 3),
    ("(ab)*c?", 4),
    ("(a|b)*a", 3),
    ("a|bc|(c)", 5),
    ("c?b?a?", 4),
    ("((((((((a))))))))", 2),
    ("((((((((a|b)c))))))+)?", 4),
    ("(a)(b)((c))", 4),
    (PATTERN_OF_64, 64),
];

/// Lines that are wrong for V = 3.
pub const WRONG_PATTERNS: &[&str] = &[
    "",
    "a**",
    "a*+",
    "a+?",
    "a??",
    "(a)+*",
    "a|",
    "|a",
    "a||b",
    "|",
    "()",
    "()a",
    "a()*",
    "(|a)",
    "(a|)",
    "(a||b)",
    "(a",
    "a)",
    "(",
    ")",
    ")a(",
    "(a))(b",
    "((a)",
    "*a",
    "+",
    "?",
    "a|*b",
    "(*a)",
    "(((((((((a)))))))))",
    "a|b|(((((((((a)))))))))*",
    "d",
    "abd",
    "p",
    "q",
    "z",
    "A",
    "`",
    "a\n",
    "\na",
    "a\nb",
    "a\r",
    "a b",
    " a",
    "a\t",
    "a.b",
    "[a]",
    "a{2}",
    "a\\*",
    "\0",
    "a\0",
    "é",
    "0",
];
