//! Damage to the numbers of a sheet: most of them out of range, some malformed, and at times
//! further faults in the same line or another one.

use crate::random::Random;
use crate::rules::{MOST_COST, MOST_STATES, MOST_VALUES};
use crate::sheet::{fields, lines, number};

/// The least and the most that a number can be.
type Ceiling = (usize, usize);

/// Spoils a number of the sheet that a text begins with, and at times more.
pub fn spoil(random: &mut Random, text: &mut Vec<u8>) {
    let end = sheet_end(text);
    let rest = text.split_off(end);
    let mut lines: Vec<Vec<u8>> = lines(text).iter().map(|line| line.text.to_vec()).collect();
    if !lines.is_empty() {
        spoil_lines(random, &mut lines);
    }
    *text = lines.iter().flat_map(|line| line.iter().chain(b"\n")).copied().collect();
    if rest.is_empty() && random.percent(20) {
        text.pop();
    }
    text.extend(rest);
}

/// A number, and up to three faults more in its line or another one.
fn spoil_lines(random: &mut Random, lines: &mut Vec<Vec<u8>>) {
    let (states, values) = counts(&lines[0]);
    let first = random.below(lines.len().min(8));
    let any = random.below(lines.len());
    let at = random.pick(&[0, first, first, any, any]);
    spoil_number(random, &mut lines[at], states, values);
    for _ in 0..random.pick(&[0, 0, 1, 2, 3]) {
        let other = random.below(lines.len());
        let at = random.pick(&[at, other]).min(lines.len() - 1);
        match random.below(3) {
            0 => spoil_number(random, &mut lines[at], states, values),
            1 => spoil_fields(random, &mut lines[at]),
            _ => spoil_order(random, lines, at),
        }
    }
}

/// Where the first empty line begins, or all ends.
fn sheet_end(text: &[u8]) -> usize {
    let empty = |at: &usize| text[*at] == b'\n' && (*at == 0 || text[at - 1] == b'\n');
    (0..text.len()).find(empty).unwrap_or(text.len())
}

/// Q and V of a size line, or the most that they can be.
fn counts(line: &[u8]) -> (usize, usize) {
    let all = fields(line);
    let count = |index: usize, most: usize| {
        let number = all.get(index).and_then(|field| number(field));
        number.and_then(|number| usize::try_from(number).ok()).map_or(most, |n| n.clamp(1, most))
    };
    (count(1, MOST_STATES), count(2, MOST_VALUES))
}

/// Another number in one field of a line.
fn spoil_number(random: &mut Random, line: &mut Vec<u8>, states: usize, values: usize) {
    let mut all: Vec<Vec<u8>> = fields(line).iter().map(|field| field.to_vec()).collect();
    let (state, value) = ((0, states - 1), (0, values - 1));
    let ceilings: &[Ceiling] = match all[0].as_slice() {
        b"size" => &[(1, MOST_STATES), (1, MOST_VALUES), state],
        b"final" => &[state],
        b"arc" => &[state, value, state, (0, usize::from(MOST_COST))],
        _ => &[],
    };
    let count = ceilings.len().min(all.len() - 1);
    if count > 0 {
        let index = random.below(count);
        all[index + 1] = another(random, &all[index + 1], ceilings[index]).into_bytes();
    }
    *line = all.join(&b'\t');
}

/// Mostly a number out of range, else one that is malformed or at an end of its range.
fn another(random: &mut Random, old: &[u8], (least, most): Ceiling) -> String {
    let right = number(old).unwrap_or(0).min(most as u64) as u128;
    let outside = outside(random, right, (least, most));
    match random.below(10) {
        0 => malformed(random, &right.to_string()),
        1 => malformed(random, &outside),
        2 => random.pick(&[least, most]).to_string(),
        _ => outside,
    }
}

fn outside(random: &mut Random, right: u128, (least, most): Ceiling) -> String {
    let more = most as u128;
    match random.below(8) {
        0..=2 if least > 0 => "0".to_owned(),
        0 | 1 => (more + 1).to_string(),
        2 => (more + 2 + random.below(10 * most + 10) as u128).to_string(),
        3 | 4 => long(random),
        5 => {
            let edges = [256, 65_535, 65_536, (1 << 32) - 1, 1 << 32, (1 << 64) - 1, 1 << 64];
            random.pick(&edges).max(more + 1).to_string()
        }
        // Right again if cut to 8, 16, 32 or 64 bits.
        _ => {
            let unit = 1_u128 << random.pick(&[8, 16, 32, 64]);
            (right + (more / unit + 1) * unit).to_string()
        }
    }
}

/// Ten digits or more, seldom ten thousand.
fn long(random: &mut Random) -> String {
    let many = random.from_to(41, 300);
    let digits = random.pick(&[10, 11, 20, 21, 40, many]);
    let digits = if random.percent(1) { 10_000 } else { digits };
    let rest = (1..digits).map(|_| char::from(b'0' + random.below(10) as u8));
    let rest: String = rest.collect();
    random.from_to(1, 9).to_string() + &rest
}

fn malformed(random: &mut Random, digits: &str) -> String {
    match random.below(6) {
        0 => String::new(),
        1 | 2 => random.pick(&["0", "00", "+", "-", " ", "x"]).to_owned() + digits,
        _ => digits.to_owned() + random.pick(&["x", " ", "\r", "\0", "-", "."]),
    }
}

/// A field too many or too few, or another first field.
fn spoil_fields(random: &mut Random, line: &mut Vec<u8>) {
    let mut all: Vec<Vec<u8>> = fields(line).iter().map(|field| field.to_vec()).collect();
    match random.below(5) {
        0 | 1 => all.push(random.pick(&["", "0", "99", "x"]).as_bytes().to_vec()),
        2 | 3 => all.truncate(random.from_to(1, all.len())),
        _ => all[0] = random.pick(&["size", "final", "arc", "Arc", ""]).as_bytes().to_vec(),
    }
    *line = all.join(&b'\t');
}

/// Lines the other way round, a line twice, or nothing behind a line.
fn spoil_order(random: &mut Random, lines: &mut Vec<Vec<u8>>, at: usize) {
    let other = random.below(lines.len());
    match random.below(5) {
        0 if at > 0 => lines.swap(at, at - 1),
        1 => lines.swap(at, other),
        2 => lines.insert(other, lines[at].clone()),
        _ => lines.truncate(at + 1),
    }
}
