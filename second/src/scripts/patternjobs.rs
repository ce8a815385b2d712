//! The pattern program's inputs, right ones and wrong ones.

use super::damage::damage;
use super::jobs::job_lent;
use crate::cases::patterns::{damage_line, line};
use crate::random::Random;
use crate::samples::{COLLEAGUES, PATTERN_OF_64, PATTERN_OF_65, WRONG_PATTERNS};
use crate::script::{Call, Script};

/// Room for every sheet: the output as `pattern` lends it.
pub const LONGEST_SHEET: usize = 18_212;

fn ask(script: &mut Script, input: &str) {
    script.call(&mut job_lent(input.as_bytes(), LONGEST_SHEET), Call::PatternJob);
}

/// Outputs of several lengths, every kind of wrong pattern and wrong V, and line feeds.
pub fn samples(script: &mut Script) {
    script.begin("a pattern's sheet, with shorter and shorter outputs");
    for (input, length) in [("1\ta\n", 33), ("0\ta\n", 7), ("1\tb\n", 8)] {
        for output in [LONGEST_SHEET, length + 1, length, length - 1, 5, 1, 0] {
            script.call(&mut job_lent(input.as_bytes(), output), Call::PatternJob);
        }
    }
    script.begin("right patterns of the program, with a line feed and without");
    for (line, values) in [(COLLEAGUES, 3), (COLLEAGUES, 16), (PATTERN_OF_64, 2), ("p", 16)] {
        ask(script, &format!("{values}\t{line}\n"));
        ask(script, &format!("{values}\t{line}"));
    }
    script.begin("wrong patterns of the program, and too many states");
    for line in WRONG_PATTERNS {
        ask(script, &format!("3\t{line}\n"));
    }
    for end in ["\n", "", "\n\n", "\r\n", "|\n", " \n", "\n3\ta\n"] {
        ask(script, &format!("2\t{PATTERN_OF_65}{end}"));
        ask(script, &format!("3\t{COLLEAGUES}{end}"));
    }
    script.begin("wrong values of the program");
    for values in ["", "0", "1", "2", "3", "16", "17", "03", "00", "+3", "-3", " 3", "3 ", "3.0"] {
        ask(script, &format!("{values}\t{COLLEAGUES}\n"));
        ask(script, &format!("{values}\t\n"));
    }
    for values in ["259", "65539", "4294967299", "18446744073709551619", "x", "c", "3\n"] {
        ask(script, &format!("{values}\t{COLLEAGUES}\n"));
    }
    for input in
        ["", "\n", "\t", "\t\n", "3", "3\n", "3 a\n", "\t3\ta\n", "a", "3\t\ta\n", "3\ta\t"]
    {
        ask(script, input);
    }
}

/// The longest right inputs, broken off after each byte, and longer ones.
pub fn long(script: &mut Script) {
    script.begin("256 bytes of a pattern and more in the program");
    let most = "(((((((a)))))))".repeat(17) + "a";
    for tail in ["", "\n", "a", "a\n", "\n\n", "aa\n", "aaaa\n"] {
        for values in ["1", "16", "17", "016"] {
            ask(script, &format!("{values}\t{most}{tail}"));
        }
    }
    for length in [300, 5_000, 32_990] {
        for byte in ["a", "\n", "\t", "1"] {
            ask(script, &format!("1\t{}", byte.repeat(length)));
            ask(script, &byte.repeat(length));
        }
    }
    script.begin("an input of the program broken off after each byte");
    let whole = format!("3\t{COLLEAGUES}\n");
    (0..=whole.len()).for_each(|length| ask(script, &whole[..length]));
}

/// Some inputs, each with a line grown anew, more than half of them damaged.
pub fn case(random: &mut Random, script: &mut Script) {
    for _ in 0..random.from_to(1, 4) {
        let (mut text, values) = line(random);
        if random.percent(40) {
            damage_line(random, &mut text, values);
        }
        let values = if random.percent(90) { values.to_string() } else { other_values(random) };
        let end: &[u8] = random.pick(&[b"\n", b"\n", b"\n", b"", b"\n\n", b"\r\n"]);
        let input = [values.as_bytes(), b"\t", text.as_slice(), end].concat();
        let output = random.pick(&[LONGEST_SHEET, LONGEST_SHEET, LONGEST_SHEET, 40, 3, 0]);
        let (mut lent, mut call) = (job_lent(&input, output), Call::PatternJob);
        if random.percent(20) {
            damage(random, &mut lent, &mut call);
        }
        script.call(&mut lent, call);
    }
}

/// Mostly no V, or none that is right.
fn other_values(random: &mut Random) -> String {
    let number = random.below(20);
    let form = random.pick(&["", "0", "+", " ", "1", "x"]);
    format!("{form}{number}")
}
