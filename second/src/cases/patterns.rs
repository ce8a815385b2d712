//! Random patterns: right lines, and damage to them.

use crate::pattern::{rules_of, MOST_BYTES, MOST_DEPTH, MOST_LETTERS};
use crate::random::Random;
use crate::rules::{MOST_STATES, MOST_VALUES};

/// A right line, and a V that it is right for.
pub fn line(random: &mut Random) -> (Vec<u8>, usize) {
    loop {
        let (text, values) = match random.below(4) {
            0 => any_tree(random),
            1 => small_tree(random),
            2 => (many_states(random), 2),
            _ => (about_64_states(random), random.pick(&[3, 3, MOST_VALUES])),
        };
        if text.len() <= MOST_BYTES {
            return (text.into_bytes(), values);
        }
    }
}

/// Any number of letters and values.
fn any_tree(random: &mut Random) -> (String, usize) {
    let any = random.from_to(1, MOST_LETTERS);
    let letters = random.pick(&[any, any, MOST_LETTERS]);
    let values = random.pick(&[1, 2, 3, 4, 8, MOST_VALUES]);
    let depth = random.from_to(0, MOST_DEPTH);
    (Tree { random, values }.branches(letters, depth), values)
}

/// Few letters and values, so that short words say much about it.
fn small_tree(random: &mut Random) -> (String, usize) {
    let (letters, values) = (random.from_to(1, 9), random.from_to(1, 3));
    let depth = random.from_to(1, 4);
    (Tree { random, values }.branches(letters, depth), values)
}

/// After any beginning a letter, and then a few more: many sets of places, for every letter among
/// the last few could be the one. Of two values; one in ten has more than 64 states.
fn many_states(random: &mut Random) -> String {
    let starts = ["(a|b)*", "(a|b)*", "(a|b)+", "(b?a)*", "(a|ab)*", "(a|b|ba)*", "(aa|b)*"];
    let mut text = random.pick(&starts).to_owned() + random.pick(&["a", "b", "a", "b", ""]);
    for _ in 0..random.from_to(3, 6) {
        let other = random.pick(&["(a|bb)", "(b|ab)", "(a|b)?", "a?", "(aa|b)", "(a|b)+"]);
        text += random.pick(&["(a|b)", other]);
    }
    match random.below(8) {
        0 => format!("({text})+"),
        1 => format!("({text})*"),
        2 => format!("({text})?"),
        _ => text,
    }
}

/// As many letters behind such a line, of a value that it does not have, as make 63 to 65 states,
/// if so many are left.
fn about_64_states(random: &mut Random) -> String {
    let text = many_states(random);
    let letters = text.bytes().filter(u8::is_ascii_lowercase).count();
    let states = rules_of(text.as_bytes(), 2).map_or(MOST_STATES, |rules| rules.states);
    let wanted = (random.from_to(MOST_STATES - 1, MOST_STATES + 1)).saturating_sub(states);
    let more = wanted.min(MOST_LETTERS.saturating_sub(letters));
    format!("({text}){}", "c".repeat(more))
}

struct Tree<'a> {
    random: &'a mut Random,
    values: usize,
}

impl Tree<'_> {
    /// Branches with just so many letters, at least one, in which groups go so deep.
    fn branches(&mut self, letters: usize, depth: usize) -> String {
        let count = self.random.pick(&[1, 1, 2, 3]).min(letters);
        let mut left = letters;
        let mut texts = Vec::new();
        for further in (0..count).rev() {
            let part = if further == 0 { left } else { self.random.from_to(1, left - further) };
            texts.push(self.sequence(part, depth));
            left -= part;
        }
        texts.join("|")
    }

    fn sequence(&mut self, letters: usize, depth: usize) -> String {
        let (mut text, mut left) = (String::new(), letters);
        while left > 0 {
            let part =
                if depth > 0 && self.random.percent(40) { self.random.from_to(1, left) } else { 0 };
            if part > 0 {
                text += &format!("({})", self.branches(part, depth - 1));
            } else {
                text.push(char::from(b'a' + self.random.below(self.values) as u8));
            }
            left -= part.max(1);
            text += self.random.pick(&["", "", "", "", "", "*", "+", "?"]);
        }
        text
    }
}

/// One change that mostly makes a right line wrong.
pub fn damage_line(random: &mut Random, line: &mut Vec<u8>, values: usize) {
    let at = random.below(line.len().max(1));
    let (known, any) = (random.pick(b"()|*+?abcp"), random.number() as u8);
    let above = b'a' + values as u8;
    let byte = random.pick(&[known, known, known, any, above, b'q', b'\n', b' ']);
    match random.below(12) {
        0 | 1 => line.insert(at.min(line.len()), byte),
        2 | 3 if !line.is_empty() => drop(line.remove(at)),
        4 if !line.is_empty() => line[at] = byte,
        5 if at + 1 < line.len() => line.swap(at, at + 1),
        6 => double(random, line, |byte| b"*+?".contains(byte)),
        7 => double(random, line, |byte| b"()|".contains(byte)),
        // A group about the whole line, which is right unless it is too deep; too many letters.
        8 => *line = [b"(", line.as_slice(), b")"].concat(),
        9 => line.extend_from_within(..),
        10 => line.extend_from_within(..line.len().min(1)),
        _ => raise_letter(random, line, values),
    }
}

/// Some byte of a kind once more behind itself.
fn double(random: &mut Random, line: &mut Vec<u8>, is_one: impl Fn(&u8) -> bool) {
    let places: Vec<usize> = (0..line.len()).filter(|at| is_one(&line[*at])).collect();
    if !places.is_empty() {
        let at = random.pick(&places);
        line.insert(at, line[at]);
    }
}

/// Some letter becomes one at or above V, or the last below it.
fn raise_letter(random: &mut Random, line: &mut [u8], values: usize) {
    let places: Vec<usize> = (0..line.len()).filter(|at| line[*at].is_ascii_lowercase()).collect();
    if !places.is_empty() {
        let raised = random.pick(&[values - 1, values, values, values + 1, MOST_VALUES]);
        line[random.pick(&places)] = b'a' + raised as u8;
    }
}
