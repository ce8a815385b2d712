use super::*;
use crate::samples::{
    NUMBERS, OUT_OF_ORDER, RIGHT_SHEETS, TESTED, WRONG_LATER_LINES, WRONG_SIZE_LINES,
};
use crate::worked::{w, W};

fn wrong(text: &str) -> (usize, Fault) {
    let Wrong { line, fault } = parse(text.as_bytes()).expect_err(text);
    (line, fault)
}

/// The line and the answer that the reader gives for a wrong sheet.
fn refused(text: &str) -> (usize, u32) {
    let (answer, carried) = read_sheet(text.as_bytes(), &mut [7; TABLE], &mut [7; TABLE]);
    assert_eq!(carried, Carried { line: carried.line, ..Carried::default() }, "{text:?}");
    (carried.line, answer.number())
}

fn is_right(text: &str) -> bool {
    parse(text.as_bytes()).is_ok()
}

#[test]
fn w_is_read_into_the_first_places_only() {
    let (mut targets, mut costs) = ([77; TABLE], [7_777; TABLE]);
    let (answer, carried) = read_sheet(W.as_bytes(), &mut targets, &mut costs);
    assert_eq!(answer, Answer::Done);
    let expected = Carried { line: 0, states: 6, values: 3, start: 0, accepting: 0b11_1101 };
    assert_eq!(carried, expected);
    assert_eq!(targets[..18], w().targets[..18]);
    assert_eq!(costs[..18], w().costs[..18]);
    assert!(targets[18..].iter().all(|target| *target == 77));
    assert!(costs[18..].iter().all(|cost| *cost == 7_777));
}

#[test]
fn w_is_written_byte_for_byte() {
    let mut buffer = [b'?'; 400];
    assert_eq!(write_sheet(&w(), &mut buffer), (Answer::Done, W.len()));
    assert_eq!(&buffer[..W.len()], W.as_bytes());
    assert!(buffer[W.len()..].iter().all(|byte| *byte == b'?'));
}

#[test]
fn a_buffer_of_the_exact_length_is_enough_and_one_less_gets_6() {
    let mut exact = vec![0; W.len()];
    assert_eq!(write_sheet(&w(), &mut exact), (Answer::Done, W.len()));
    let mut short = vec![b'?'; W.len() - 1];
    assert_eq!(write_sheet(&w(), &mut short), (Answer::Room, 0));
    assert!(short.iter().all(|byte| *byte == b'?'));
}

#[test]
fn the_writer_refuses_by_1_2_3_before_6() {
    let answer = |rules: &Rules| write_sheet(rules, &mut []);
    assert_eq!(answer(&Rules { values: 17, ..w() }), (Answer::Sizes, 0));
    assert_eq!(answer(&Rules { costs: vec![0; 1_025], ..w() }), (Answer::Lengths, 0));
    assert_eq!(answer(&Rules { accepting: 64, ..w() }), (Answer::Tables, 0));
    assert_eq!(answer(&w()), (Answer::Room, 0));
}

#[test]
fn the_reader_refuses_wrong_tables_with_0_for_its_line() {
    let (mut targets, mut costs) = ([7; TABLE], [7; TABLE - 1]);
    let refused = read_sheet(b"wrong", &mut targets, &mut costs);
    assert_eq!(refused, (Answer::Lengths, Carried::default()));
    assert_eq!((targets, costs), ([7; TABLE], [7; TABLE - 1]));
}

#[test]
fn a_wrong_sheet_leaves_the_tables() {
    for (line, answer) in [("arc\t5\t2\t6\t0\n", Answer::Outside), ("arc\t5\n", Answer::Sheet)] {
        let (mut targets, mut costs) = ([7; TABLE], [7; TABLE]);
        let text = W.to_owned() + line;
        let refused = read_sheet(text.as_bytes(), &mut targets, &mut costs);
        assert_eq!(refused, (answer, Carried { line: 19, ..Carried::default() }));
        assert_eq!((targets, costs), ([7; TABLE], [7; TABLE]));
    }
}

#[test]
fn no_final_line_and_no_arc_line_is_lawful() {
    for text in RIGHT_SHEETS {
        assert!(is_right(text), "{text:?}");
    }
}

#[test]
fn wrong_size_lines() {
    for (text, answer) in WRONG_SIZE_LINES {
        assert_eq!(refused(text), (1, *answer), "{text:?}");
    }
}

#[test]
fn wrong_later_lines_by_form_range_order_and_line_feed() {
    for (line, answer) in WRONG_LATER_LINES {
        assert_eq!(refused(&format!("size\t6\t3\t0\n{line}")), (2, *answer), "{line:?}");
    }
}

#[test]
fn order_is_rising_without_repetition() {
    for (text, line, answer) in OUT_OF_ORDER {
        assert_eq!(refused(text), (*line, *answer), "{text:?}");
    }
}

#[test]
fn of_two_faults_of_a_line_the_one_that_is_tested_first_decides() {
    for tested in TESTED {
        let right = tested.right.split_last_chunk::<2>().unwrap();
        let (fields, [line_before, line_feed]) = right;
        let text = format!("{}{line_before}{}{line_feed}", tested.before, fields.concat());
        assert!(is_right(&text), "{text:?}");
        for (text, line, answer) in tested.faulty() {
            assert_eq!(refused(&text), (line, answer), "{text:?}");
        }
    }
}

/// The paper's four ways to be wrong, of which the answers tell only one from the others.
#[test]
fn a_line_is_wrong_by_its_first_fault() {
    let w = |line: &str| wrong(&format!("{W}{line}"));
    assert_eq!(w("arc\t5\t2\t6\t0\n"), (19, Fault::Range));
    assert_eq!(w("arc\t5\t2\t0\n"), (19, Fault::Form));
    assert_eq!(w("arc\t5\t1\t0\t0\n"), (19, Fault::Order));
    assert_eq!(w("arc\t5\t1\t0\t0"), (19, Fault::Order));
    assert_eq!(w("arc\t5\t1\t0\t0\t0"), (19, Fault::Form));
    assert_eq!(w("arc\t5\t1\t0\t1001"), (19, Fault::Range));
    assert_eq!(w("arc\t5\t2\t0\t0"), (19, Fault::LineFeed));
    assert_eq!(w("final\t1\n"), (19, Fault::Order));
    assert_eq!(wrong(""), (1, Fault::Form));
    assert_eq!(wrong("size\t6\t3\t0"), (1, Fault::LineFeed));
}

/// "of the form but above its ceiling, whatever its digit count".
#[test]
fn a_number_of_any_length_is_out_of_range_and_not_malformed() {
    for digits in [4, 9, 10, 11, 19, 20, 21, 39, 40, 100, 10_000] {
        for first in ["1", "9"] {
            let number = first.to_owned() + &"0".repeat(digits - 1);
            let cost = |number: &str| refused(&format!("size\t6\t3\t0\narc\t0\t0\t0\t{number}\n"));
            if number != "1000" {
                assert_eq!(cost(&number), (2, 13), "{number}");
            }
            assert_eq!(cost(&format!("{number}x")), (2, 5));
            assert_eq!(cost(&format!("0{number}")), (2, 5));
            assert_eq!(refused(&format!("size\t{number}\t3\t0\n")), (1, 13));
            assert_eq!(refused(&format!("size\t6\t{number}\t0\n")), (1, 13));
            assert_eq!(refused(&format!("size\t6\t3\t{number}\n")), (1, 13));
        }
    }
}

#[test]
fn the_ceilings_and_one_more() {
    for (text, most) in NUMBERS {
        let with = |number: u128| text.replace('@', &number.to_string());
        assert!(is_right(&with(*most)), "{text:?}");
        assert_eq!(refused(&with(most + 1)), (text.matches('\n').count(), 13), "{text:?}");
    }
}

#[test]
fn every_beginning_of_w_is_wrong_where_it_breaks_off() {
    for length in 0..W.len() {
        let text = &W[..length];
        match text.strip_suffix('\n') {
            Some(_) => assert!(is_right(text)),
            // Broken off within a line, no number of W is out of range.
            None => assert_eq!(refused(text), (text.matches('\n').count() + 1, 5)),
        }
    }
}

#[test]
fn the_longest_right_sheet_has_18212_bytes() {
    let rules = Rules {
        states: 64,
        values: 16,
        start: 63,
        targets: vec![63; TABLE],
        costs: vec![1_000; TABLE],
        accepting: u64::MAX,
    };
    let text = sheet_of(&rules);
    assert_eq!(text.len(), 18_212);
    assert_eq!(parse(text.as_bytes()), Ok(rules));
}
