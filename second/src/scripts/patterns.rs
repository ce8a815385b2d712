//! Patterns to be read, right ones and wrong ones.

use super::damage::damage;
use super::edges::{faults_of, PATTERN_CALLS};
use super::order::pairs_of;
use super::sheets::sheet_lent;
use crate::cases::patterns::{damage_line, line};
use crate::cases::Problem;
use crate::pattern::rules_of;
use crate::random::Random;
use crate::rules::{Rules, MOST_LIMIT, MOST_VALUES};
use crate::samples::{COLLEAGUES, PATTERN_OF_64, PATTERN_OF_65, RIGHT_PATTERNS, WRONG_PATTERNS};
use crate::script::{Call, Lent, Script};
use crate::sheet::sheet_of;
use crate::words::all_words;

/// Tables full of what no pattern leaves, and a line to be read into them.
fn pattern_lent(line: &[u8], values: usize) -> Lent {
    let mut lent = sheet_lent(line);
    lent.rules.values = values;
    lent
}

fn ask(script: &mut Script, line: &str, values: usize) {
    script.call(&mut pattern_lent(line.as_bytes(), values), Call::Pattern);
}

/// Reads a line, and if it is right writes its sheet and has the tables filter.
fn ask_and_use(script: &mut Script, line: &[u8], values: usize) {
    let mut read = pattern_lent(line, values);
    script.call(&mut read, Call::Pattern);
    let Ok(Rules { states, start, accepting, .. }) = rules_of(line, values) else {
        return;
    };
    let rules = Rules { states, start, accepting, ..read.rules };
    let (masks, limits) = (vec![rules.full_mask(); 5], vec![MOST_LIMIT; 5]);
    let output = vec![b'?'; sheet_of(&rules).len()];
    let mut lent = Lent { output, ..Lent::of(Problem { places: 5, rules, masks, limits }) };
    script.call(&mut lent, Call::Write);
    script.call(&mut lent, Call::Filter);
}

/// Every kind of right and wrong line that the tests know, and the reports of short words.
pub fn samples(script: &mut Script) {
    script.begin("right patterns");
    for (line, _) in RIGHT_PATTERNS {
        ask_and_use(script, line.as_bytes(), 3);
    }
    script.begin("wrong patterns");
    for line in WRONG_PATTERNS {
        ask(script, line, 3);
    }
    script.call(&mut pattern_lent(b"a\xFF", 3), Call::Pattern);
    script.begin("words of the colleagues' pattern");
    let mut read = pattern_lent(COLLEAGUES.as_bytes(), 3);
    script.call(&mut read, Call::Pattern);
    let accepting = rules_of(COLLEAGUES.as_bytes(), 3).map_or(0, |rules| rules.accepting);
    let rules = Rules { states: 10, start: 0, accepting, ..read.rules };
    for roster in (1..=3).flat_map(|places| all_words(places, 3)) {
        let (places, rules) = (roster.len(), rules.clone());
        let problem = Problem { places, rules, masks: vec![7; places], limits: vec![0; places] };
        script.call(&mut Lent { roster, ..Lent::of(problem) }, Call::Report);
    }
}

/// Bytes, letters, depth, values and states at their most, and one more.
pub fn sizes(script: &mut Script) {
    script.begin("patterns of 32 letters and 33");
    for (values, letters) in [(1, 31), (1, 32), (1, 33), (16, 32), (16, 33)] {
        let letter = |place: usize| char::from(b'a' + (place % values) as u8);
        ask_and_use(script, (0..letters).map(letter).collect::<String>().as_bytes(), values);
    }
    script.begin("patterns of 256 bytes and 257");
    for tail in ["", "a", "aa", "a*", "ab*"] {
        let line = "(((((((a)))))))".repeat(17) + tail;
        ask_and_use(script, line.as_bytes(), 2);
    }
    ask(script, &"a".repeat(33_000), 2);
    script.begin("patterns of 64 states and 65");
    let one_more = format!("{PATTERN_OF_64}c");
    for (line, values) in [(PATTERN_OF_64, 2), (PATTERN_OF_65, 2), (&one_more, 3)] {
        ask_and_use(script, line.as_bytes(), values);
        ask_and_use(script, line.as_bytes(), 16);
    }
    script.begin("letters at and above V");
    let above = [17, 255, 256 + 3, 65_536 + 3, (1 << 32) + 3, usize::MAX];
    for values in [(0..=16).collect::<Vec<usize>>(), above.to_vec()].concat() {
        for letter in ["a", "b", "o", "p", "q", "c"] {
            ask(script, letter, values);
        }
    }
}

/// The colleagues' line broken off after each byte, and each of its bytes changed.
pub fn byte_by_byte(script: &mut Script) {
    script.begin("the colleagues' pattern broken off after each byte");
    for length in 0..=COLLEAGUES.len() {
        ask(script, &COLLEAGUES[..length], 3);
    }
    script.begin("the colleagues' pattern with one byte changed");
    for at in 0..COLLEAGUES.len() {
        for other in *b"()|*+?ad\n" {
            let mut lent = pattern_lent(COLLEAGUES.as_bytes(), 3);
            lent.input[at] = other;
            script.call(&mut lent, Call::Pattern);
        }
    }
}

/// Words that are no calls.
pub fn lines(script: &mut Script) {
    script.begin("the lines of patterns");
    for line in ["patterns", "Pattern", "pattern ", "pattern job", "pattern_job", "patternjobs"] {
        script.unknown(line);
    }
}

/// One change at a time and two faults at once, as of all other calls.
pub fn faults(script: &mut Script) {
    PATTERN_CALLS.into_iter().for_each(|call| faults_of(script, call));
    PATTERN_CALLS.into_iter().for_each(|call| pairs_of(script, call));
}

/// Some lines, each grown anew: nearly half of them right, the others damaged, or what is lent with
/// them.
pub fn case(random: &mut Random, script: &mut Script) {
    for _ in 0..random.from_to(2, 5) {
        let (mut text, values) = line(random);
        match random.below(10) {
            0 => ask_and_use(script, &text, values),
            1..=4 => script.call(&mut pattern_lent(&text, values), Call::Pattern),
            5..=8 => {
                let count = random.pick(&[1, 1, 1, 2, 3]);
                (0..count).for_each(|_| damage_line(random, &mut text, values));
                script.call(&mut pattern_lent(&text, values), Call::Pattern);
            }
            _ => {
                let (mut lent, mut call) = (pattern_lent(&text, values), Call::Pattern);
                damage(random, &mut lent, &mut call);
                if random.percent(20) {
                    lent.rules.values = random.pick(&[0, 1, 2, MOST_VALUES, MOST_VALUES + 1]);
                }
                script.call(&mut lent, call);
            }
        }
    }
}

#[cfg(test)]
mod tests {
    use crate::script::Script;
    use crate::scripts::Cases;

    #[test]
    fn random_patterns_meet_every_answer_and_many_states() {
        let mut cases = Cases::only("patterns", 3, 3_000).unwrap();
        let mut script = Script::default();
        while cases.add_next(&mut script) {}
        let begins = |begin: &str| script.printed().filter(|p| p.line.starts_with(begin)).count();
        for answer in [1, 2, 14, 15] {
            assert!(begins(&format!("pattern\t{answer}\t0\t0\t0\t0")) > 10, "answer {answer}");
        }
        for states in [2, 3, 9, 33, 63, 64] {
            assert!(begins(&format!("pattern\t0\t{states}\t")) > 3, "{states} states");
        }
        assert!(begins("write\t0\t") > 50 && begins("filter\t11\t") > 10);
    }
}
