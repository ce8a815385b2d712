//! The pattern program of request 7: input bytes to output bytes. "Standard input has one line, V,
//! a tab and the pattern; it prints the sheet's text, or `pattern` (15), `states` (14) or `values`
//! (1)."

use crate::answer::Answer;
use crate::pattern::rules_of;
use crate::rules::MOST_VALUES;
use crate::sheet::{number_up_to, sheet_of};

/// One line feed at the very end is no part of the pattern, and may be missing.
pub fn run(input: &[u8]) -> Vec<u8> {
    let line = input.strip_suffix(b"\n").unwrap_or(input);
    let Some((values, pattern)) = parted(line) else {
        return b"values\n".to_vec();
    };
    match rules_of(pattern, values) {
        Ok(rules) => sheet_of(&rules).into_bytes(),
        Err(Answer::States) => b"states\n".to_vec(),
        Err(_) => b"pattern\n".to_vec(),
    }
}

/// V, if it is in its range, and what stands behind its tab.
fn parted(line: &[u8]) -> Option<(usize, &[u8])> {
    let tab = line.iter().position(|byte| *byte == b'\t')?;
    let values = number_up_to(&line[..tab], MOST_VALUES as u64).filter(|values| *values >= 1)?;
    Some((values as usize, &line[tab + 1..]))
}

#[cfg(test)]
mod tests {
    use super::*;
    use crate::samples::{COLLEAGUES, PATTERN_OF_65};

    fn print(input: &str) -> String {
        String::from_utf8(run(input.as_bytes())).unwrap()
    }

    #[test]
    fn the_sheet_of_a_pattern() {
        let sheet = "size\t3\t2\t0\nfinal\t2\narc\t0\t0\t1\t0\narc\t1\t1\t2\t0\n";
        assert_eq!(print("2\tab\n"), sheet);
        assert_eq!(print("2\tab"), sheet);
        assert!(print(&format!("3\t{COLLEAGUES}\n")).starts_with("size\t10\t3\t0\n"));
    }

    #[test]
    fn one_line_feed_is_no_part_of_the_pattern_and_any_other_is() {
        for input in ["2\tab\n\n", "2\tab\r\n", "2\ta\nb\n", "2\t\n", "2\t", "2\tab\t\n"] {
            assert_eq!(print(input), "pattern\n", "{input:?}");
        }
    }

    #[test]
    fn values_come_first() {
        for values in ["", "0", "17", "03", "+3", "-3", " 3", "3 ", "x", "18446744073709551619"] {
            for pattern in ["ab", "", "a**", PATTERN_OF_65] {
                assert_eq!(print(&format!("{values}\t{pattern}\n")), "values\n", "{values:?}");
            }
        }
        for input in ["", "\n", "3", "3\n", "3 ab\n", "\t3\tab\n", "3\n\tab\n", "ab"] {
            assert_eq!(print(input), "values\n", "{input:?}");
        }
    }

    #[test]
    fn wrong_lines_and_too_many_states() {
        assert_eq!(print("2\tabc\n"), "pattern\n");
        assert_eq!(print(&format!("2\t{PATTERN_OF_65}\n")), "states\n");
        assert_eq!(print(&format!("2\t{PATTERN_OF_65}|\n")), "pattern\n");
        assert_eq!(print(&format!("1\t{}\n", "a".repeat(3_000_000))), "pattern\n");
    }
}
