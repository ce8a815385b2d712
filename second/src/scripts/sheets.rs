//! Sheets to be read, right ones and wrong ones.

use super::damage::{damage, numbers, text};
use crate::cases::{self, Problem, Scale};
use crate::random::Random;
use crate::rules::{Rules, TABLE};
use crate::samples::{
    NUMBERS, OUT_OF_ORDER, RIGHT_SHEETS, TESTED, WRONG_LATER_LINES, WRONG_SIZE_LINES,
};
use crate::script::{Call, Lent, Script};
use crate::sheet::sheet_of;
use crate::worked::{w, W};

/// Tables full of what no sheet leaves, and a sheet to be read into them.
pub fn sheet_lent(text: &[u8]) -> Lent {
    let rules = Rules { targets: vec![77; TABLE], costs: vec![7_777; TABLE], ..w() };
    let problem = Problem { places: 1, rules, masks: vec![7], limits: vec![0] };
    Lent { input: text.to_vec(), ..Lent::of(problem) }
}

fn ask(script: &mut Script, text: &str) {
    script.call(&mut sheet_lent(text.as_bytes()), Call::Read);
}

/// Every kind of right and wrong line that the tests know.
pub fn samples(script: &mut Script) {
    script.begin("right sheets");
    RIGHT_SHEETS.iter().for_each(|text| ask(script, text));
    script.begin("sheets wrong by form, range, order or line feed");
    for (line, _) in WRONG_LATER_LINES {
        ask(script, &format!("size\t6\t3\t0\n{line}"));
    }
    WRONG_SIZE_LINES.iter().for_each(|(text, _)| ask(script, text));
    OUT_OF_ORDER.iter().for_each(|(text, _, _)| ask(script, text));
}

/// W broken off after each byte, and each of its bytes changed.
pub fn byte_by_byte(script: &mut Script) {
    script.begin("W broken off after each byte");
    for length in 0..W.len() {
        script.call(&mut sheet_lent(&W.as_bytes()[..length]), Call::Read);
    }
    script.begin("W with one byte changed");
    let others = [b'\n', b'\t', b'0', b'9', b'a', b' ', 0x80, 0xFF, b'/', b':'];
    for at in 0..W.len() {
        let mut lent = sheet_lent(W.as_bytes());
        lent.input[at] = others[at % others.len()];
        script.call(&mut lent, Call::Read);
    }
}

/// Every number of a sheet at its edges, beyond them, of many digits, and such that it is right if
/// cut to fewer bits; two faults in one line.
pub fn numbers(script: &mut Script) {
    for (text, most) in NUMBERS {
        script.begin(&format!("numbers up to {most}"));
        let wraps = [8, 16, 32, 64].map(|bits| (1_u128 << bits) + 1);
        for number in [0, 1, most - 1, *most, most + 1, most + 2].into_iter().chain(wraps) {
            ask(script, &text.replace('@', &number.to_string()));
        }
        for digits in [9, 10, 11, 19, 20, 21, 40] {
            ask(script, &text.replace('@', &"9".repeat(digits)));
        }
    }
    script.begin("a number of ten thousand digits");
    let long = "9".repeat(10_000);
    ask(script, &format!("size\t6\t3\t0\nfinal\t{long}\n"));
    ask(script, &format!("size\t6\t3\t0\nfinal\t{long}x\n"));
    script.begin("two faults in a line of a sheet");
    for tested in TESTED {
        tested.faulty().iter().for_each(|(text, _, _)| ask(script, text));
    }
}

/// Some readings of one sheet, mostly damaged.
pub fn case(random: &mut Random, script: &mut Script) {
    for mut lent in readings(random).1 {
        script.call(&mut lent, Call::Read);
    }
}

/// A right sheet, and what some readings of it are lent.
pub fn readings(random: &mut Random) -> (String, Vec<Lent>) {
    let scale = Scale::any(random);
    let sheet = sheet_of(&cases::rules(random, scale));
    let count = random.from_to(2, 6);
    let lent = (0..count).map(|_| reading(random, &sheet)).collect();
    (sheet, lent)
}

/// The sheet as it is, with numbers spoiled, or with any damage to it or to the tables.
fn reading(random: &mut Random, sheet: &str) -> Lent {
    let mut lent = sheet_lent(sheet.as_bytes());
    match random.below(20) {
        0 | 1 => {}
        2..=10 => numbers::spoil(random, &mut lent.input),
        11..=16 => text::damage(random, &mut lent.input),
        _ => {
            for _ in 0..random.from_to(1, 3) {
                damage(random, &mut lent, &mut Call::Read);
            }
        }
    }
    lent
}
