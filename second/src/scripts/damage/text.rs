//! Damage to texts: sheets and jobs.

use crate::random::Random;
use crate::sheet;

/// Beginnings of a further line.
const TAILS: [&[u8]; 6] = [b"\n", b"\r\n", b"?", b"arc", b"final\t0", b"keep\t0\t1"];

/// Where some line of a text begins and ends, its line feed included; half of the time one of
/// the first, since arc lines are by far the most.
fn line_bounds(random: &mut Random, text: &[u8]) -> (usize, usize) {
    let ends = (0..text.len()).filter(|at| text[*at] == b'\n').map(|at| at + 1);
    let ends: Vec<usize> = ends.collect();
    match ends.len() {
        0 => (0, text.len()),
        count => {
            let first = random.below(count.min(8));
            let any = random.below(count);
            let index = random.pick(&[first, any]);
            (if index == 0 { 0 } else { ends[index - 1] }, ends[index])
        }
    }
}

/// One change that mostly makes a right text wrong.
pub fn damage(random: &mut Random, text: &mut Vec<u8>) {
    let at = random.below(text.len() + 1);
    let (start, end) = line_bounds(random, text);
    match random.below(18) {
        0 => text.truncate(at),
        1 => text.truncate(text.len().saturating_sub(1)),
        2 => text.insert(at, random_byte(random)),
        3 => change_byte(random, text, at),
        4 => drop(text.drain(at..(at + 1).min(text.len()))),
        // A line too few, which may still be right, a line twice, and a line moved to the end.
        5 => drop(text.drain(start..end)),
        6 => drop(text.splice(start..start, text[start..end].to_vec())),
        7 => text.extend_from_within(start..end),
        8 | 9 => text[start..].rotate_left(end - start),
        10 | 11 => splice_line(random, text, start),
        12..=14 => change_field(random, text, start, end),
        15 => text.insert(end.saturating_sub(1), b'\r'),
        // "a sheet text ... may have any length", also more than any right sheet.
        16 => text.extend_from_within(..),
        _ => text.extend_from_slice(random.pick(&TAILS)),
    }
}

fn random_byte(random: &mut Random) -> u8 {
    let known = random.pick(b"\t\n0123456789sizefnalrc\r -+\0\xFF/:`{");
    let any = random.number() as u8;
    random.pick(&[known, known, known, any])
}

fn change_byte(random: &mut Random, text: &mut [u8], at: usize) {
    if at < text.len() {
        text[at] = random_byte(random);
    }
}

/// A whole line of a sheet or job, right or wrong, put before another or at the end.
fn splice_line(random: &mut Random, text: &mut Vec<u8>, start: usize) {
    let at = random.pick(&[start, text.len()]);
    let [a, b, c, d] = std::array::from_fn(|_| random_number(random));
    let line = match random.below(7) {
        0 => format!("final\t{a}\n"),
        1 => format!("size\t{a}\t{b}\t{c}\n"),
        2 => format!("days\t{a}\n"),
        3 => format!("keep\t{a}\t{b}\n"),
        4 => format!("limit\t{a}\t{b}\n"),
        5 => "\n".to_owned(),
        _ => format!("arc\t{a}\t{b}\t{c}\t{d}\n"),
    };
    text.splice(at..at, line.into_bytes());
}

fn random_number(random: &mut Random) -> u64 {
    let tiny = random.below(4) as u64;
    let small = random.below(20) as u64;
    let edge =
        random.pick(&[63, 64, 65, 16, 17, 255, 256, 1_000, 1_001, 65_536, 1 << 32, u64::MAX]);
    random.pick(&[tiny, tiny, small, edge])
}

/// One field of a line written anew: another number, or another form of one.
fn change_field(random: &mut Random, text: &mut Vec<u8>, start: usize, end: usize) {
    let tabs: Vec<usize> = (start..end).filter(|at| text[*at] == b'\t').collect();
    if tabs.is_empty() {
        return;
    }
    let begin = random.pick(&tabs) + 1;
    let parts = |byte: &u8| *byte == b'\t' || *byte == b'\n';
    let length = text[begin..].iter().position(parts).unwrap_or(text.len() - begin);
    let old = text[begin..begin + length].escape_ascii().to_string();
    let field = match random.below(8) {
        0 | 1 => format!("{}{old}", random.pick(&["0", "00", "+", "-", " "])),
        2 => "9".repeat(random.from_to(1, 40)),
        3 => String::new(),
        // A number that is right again if cut to 8, 16, 32 or 64 bits.
        4 => wrapped(random, &text[begin..begin + length]),
        5 => format!("{old}{}", random.pick(&["\t", "\t0", " ", "x", "\0"])),
        _ => random_number(random).to_string(),
    };
    text.splice(begin..begin + length, field.into_bytes());
}

fn wrapped(random: &mut Random, field: &[u8]) -> String {
    let number = u128::from(sheet::number(field).unwrap_or(0));
    (number + (1_u128 << random.pick(&[8, 16, 32, 64]))).to_string()
}
