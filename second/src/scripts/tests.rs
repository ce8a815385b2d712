use super::edges::{CALLS, MENDING_CALLS, PATTERN_CALLS};
use super::order::refusals;
use super::*;
use crate::samples::TESTED;
use crate::script::{Call, CameTo};
use crate::words::all_words;
use crate::worked::{DRAWN_CASES, FIRST_CASES, KEPT_CASES, MENDED_CASES};
use std::collections::BTreeSet;
use std::sync::OnceLock;

/// "Checks run in the order 1, 2, 3, 4, 5, 12, 7, 8, 9, 10, 6, 11." Of request 7's own answers 15
/// comes before 14, both behind 1 and 2; no call has them with any other. "In 01's check order 13
/// stands with 5" (request 6).
const ORDER: [u32; 15] = [1, 2, 3, 4, 5, 13, 15, 14, 12, 7, 8, 9, 10, 6, 11];

/// Every call.
fn all_calls() -> impl Iterator<Item = Call> {
    CALLS.into_iter().chain(MENDING_CALLS).chain(PATTERN_CALLS)
}

/// The fixed cases alone, written once for all tests.
fn fixed() -> &'static Script {
    static FIXED_CASES: OnceLock<Script> = OnceLock::new();
    FIXED_CASES.get_or_init(|| written(1, 0))
}

fn written(seed: u64, wanted: usize) -> Script {
    let (mut script, mut cases) = (Script::default(), Cases::new(seed, wanted));
    while cases.add_next(&mut script) {}
    script
}

/// The lines that the cases of this name print.
fn printed_by(script: &Script, name: &str) -> Vec<String> {
    let cases = script.cases().iter().filter(|case| case.name == name);
    cases.flat_map(|case| &case.printed).map(|printed| printed.line.clone()).collect()
}

/// The answers of the calls in the cases of this name.
fn answers_by(script: &Script, name: &str) -> Vec<u32> {
    let number = |line: &String| line.split('\t').nth(1).and_then(|field| field.parse().ok());
    printed_by(script, name).iter().filter_map(number).collect()
}

fn fields<T: ToString>(numbers: &[T]) -> String {
    numbers.iter().map(|number| format!("\t{}", number.to_string())).collect()
}

#[test]
fn every_call_meets_every_answer_that_it_can_give_and_no_other() {
    let script = fixed();
    let calls = script.printed().filter_map(|printed| printed.call.clone());
    let met: BTreeSet<(&str, CameTo)> = calls.collect();
    let mut expected: BTreeSet<(&str, CameTo)> = BTreeSet::new();
    for (name, done) in [("job", "kept"), ("mendjob", "changes")] {
        let words = [done, "none", "long", "sheet", "range", "job"];
        expected.extend(words.map(|word| (name, CameTo::Word(word.to_owned()))));
    }
    let words = ["size", "values", "pattern", "states"];
    expected.extend(words.map(|word| ("patternjob", CameTo::Word(word.to_owned()))));
    let is_job = |call: &Call| matches!(call, Call::Job | Call::MendJob | Call::PatternJob);
    for call in all_calls().filter(|call| !is_job(call)) {
        let answers = refusals(call).iter().chain(&[0]);
        expected.extend(answers.map(|answer| (call.name(), CameTo::Answer(*answer))));
    }
    assert_eq!(met, expected);
}

#[test]
fn of_two_faults_the_one_that_is_checked_first_is_answered() {
    let script = fixed();
    for call in all_calls() {
        let refusals = refusals(call);
        let in_order = ORDER.iter().filter(|answer| refusals.contains(answer));
        assert!(in_order.eq(refusals), "{call:?}");
        let earlier = (0..refusals.len()).flat_map(|later| &refusals[..=later]);
        let expected: Vec<u32> = earlier.copied().collect();
        let name = format!("two faults in {}", call.name());
        assert_eq!(answers_by(script, &name), expected, "{call:?}");
    }
}

#[test]
fn of_two_faults_of_a_line_the_one_that_is_tested_first_is_answered() {
    let lines = printed_by(fixed(), "two faults in a line of a sheet");
    let faulty = TESTED.iter().flat_map(|tested| tested.faulty());
    let read = faulty.map(|(_, line, answer)| format!("read\t{answer}\t{line}\t0\t0\t0\t0"));
    assert_eq!(lines, read.collect::<Vec<_>>());
}

#[test]
fn k1_to_k12_print_what_the_paper_says() {
    let script = fixed();
    for worked in KEPT_CASES {
        let numbers = [worked.answer, worked.least];
        let line = format!("filter{}\tkept{}", fields(&numbers), fields(worked.kept));
        assert_eq!(printed_by(script, worked.name), [line]);
    }
    for worked in FIRST_CASES {
        let line = format!("first\t0\troster{}", fields(worked.roster));
        assert_eq!(printed_by(script, worked.name), [line]);
    }
}

#[test]
fn rosters_drawn_on_w_get_what_the_request_says() {
    let lines = printed_by(fixed(), "drawn rosters on W");
    let rosters: Vec<Vec<u8>> = (1..=3).flat_map(|places| all_words(places, 3)).collect();
    assert_eq!(lines.len(), rosters.len());
    for (roster, report) in DRAWN_CASES {
        let index = rosters.iter().position(|other| other == roster).unwrap();
        assert_eq!(lines[index], format!("report\t0\t{report}"), "{roster:?}");
    }
    let whole = lines[3 + 9..].iter().filter(|line| *line == "report\t0\t0").count();
    assert_eq!(whole, 8);
}

#[test]
fn rosters_mended_on_w_print_what_was_worked_by_hand() {
    let lines = printed_by(fixed(), "rosters mended on W");
    let mends: Vec<&String> = lines.iter().filter(|line| line.starts_with("mend\t")).collect();
    assert_eq!(mends.len(), MENDED_CASES.len());
    for (line, worked) in mends.into_iter().zip(MENDED_CASES) {
        let expected = match worked.found {
            Some((made, roster)) => format!("mend\t0\t{made}\troster{}", fields(&roster)),
            None => "mend\t11\t0".to_owned(),
        };
        assert_eq!(*line, expected);
    }
}

#[test]
fn the_work_table_is_fixed_by_7_and_not_by_k() {
    let answers = answers_by(fixed(), "a work table for fewer changes");
    assert_eq!(answers, [2, 2, 2, 2, 2, 2, 2, 0, 2]);
}

/// Every proposal in these cases is checked with its number of changes, and with one more.
#[test]
fn the_checker_says_yes_to_every_proposal_and_no_to_one_change_more() {
    let mut proposals = 0;
    for name in ["rosters mended on W", "every roster mended on W", "rosters mended as K1 to K10"] {
        let mut lines = printed_by(fixed(), name).into_iter();
        while let Some(line) = lines.next() {
            assert!(line.starts_with("mend\t"), "{line}");
            if line.starts_with("mend\t0\t") {
                let says = [lines.next(), lines.next()].map(Option::unwrap);
                assert_eq!(says, ["check\t0\t1", "check\t0\t0"]);
                proposals += 1;
            }
        }
    }
    assert!(proposals > 50, "{proposals}");
}

#[test]
fn random_mends_meet_every_answer_and_every_number_of_changes() {
    let mut cases = Cases::only("mends", 3, 6_000).unwrap();
    let mut script = Script::default();
    while cases.add_next(&mut script) {}
    let begins = |begin: &str| script.printed().filter(|p| p.line.starts_with(begin)).count();
    for answer in [1, 2, 3, 4, 7, 11] {
        assert!(begins(&format!("mend\t{answer}\t0")) > 10, "mend, answer {answer}");
    }
    for made in 0..=7 {
        assert!(begins(&format!("mend\t0\t{made}\t")) > 5, "{made} changes");
    }
    for answer in [1, 2, 3, 4, 7] {
        assert!(begins(&format!("check\t{answer}\t0")) > 10, "check, answer {answer}");
    }
    assert!(begins("check\t0\t0") > 500 && begins("check\t0\t1") > 500);
}

#[test]
fn random_jobs_meet_every_word() {
    for (kind, name, done) in [("jobs", "job", "kept"), ("mendjobs", "mendjob", "changes")] {
        let mut cases = Cases::only(kind, 6, 3_000).unwrap();
        let mut script = Script::default();
        while cases.add_next(&mut script) {}
        for word in [done, "none", "sheet", "range", "job"] {
            let call = Some((name, CameTo::Word(word.to_owned())));
            let met = script.printed().filter(|printed| printed.call == call).count();
            assert!(met > 100, "{name}: {word} in {met} calls");
        }
    }
}

#[test]
fn where_no_word_is_accepted_every_roster_gets_11() {
    let answers = answers_by(fixed(), "rosters where no word is accepted");
    assert_eq!(answers, [[11; 9].as_slice(), &[11, 0, 11, 0, 11, 0]].concat());
}

#[test]
fn the_session_walk_shows_what_the_paper_says() {
    let lines = printed_by(fixed(), "the session walk on W");
    let shown: Vec<&str> = lines.iter().filter_map(|line| line.strip_prefix("show\t")).collect();
    let (opened, limited) = ("0\t2\t7\t7\t7", "0\t2\t4\t1\t1");
    let kept = "0\t2\t5\t1\t5";
    let none = "11\t0\t0\t0\t0";
    let expected = [opened, opened, kept, limited, limited, none, limited, opened, opened];
    assert_eq!(shown, expected);
    assert_eq!(lines[lines.len() - 2], "back\t10");
}

#[test]
fn the_same_seed_gives_the_same_script_and_another_seed_another() {
    let wanted = fixed().calls() + 200;
    let script = written(7, wanted);
    assert_eq!(script.cases(), written(7, wanted).cases());
    assert_ne!(script.cases(), written(8, wanted).cases());
    assert!(script.calls() >= wanted);
}

#[test]
fn scripts_begin_with_the_same_cases_however_long_they_are() {
    let (short, long) = (written(3, fixed().calls() + 50), written(3, fixed().calls() + 300));
    assert_eq!(short.cases(), &long.cases()[..short.cases().len()]);
}

#[test]
fn memory_that_is_not_well_formed_gets_12_and_that_of_another_session_is_taken() {
    for call in ["keep", "limit", "mark", "back"] {
        let wrong = answers_by(fixed(), &format!("{call} upon memory that is not well-formed"));
        assert!(wrong.len() > 40 && wrong.iter().all(|answer| *answer == 12), "{call} {wrong:?}");
        let right = answers_by(fixed(), &format!("{call} upon the memory of another session"));
        assert_eq!(right, [0; 9], "{call}");
    }
}

#[test]
fn full_lists_take_no_more() {
    let decisions = answers_by(fixed(), "512 decisions, and more");
    let (taken, after) = decisions.split_at(514);
    assert_eq!(taken, [0; 514]);
    assert_eq!(after, [8, 8, 7, 7, 7, 0, 12, 0, 8, 0, 10, 0]);
    let marks = answers_by(fixed(), "64 marks, and more");
    assert_eq!(marks[..73], [0; 73]);
    assert_eq!(marks[73..76], [9, 0, 12]);
    assert_eq!(marks[76..], [vec![0; 64], vec![10, 0]].concat());
}

/// The lines that a script shows, as numbers.
fn shown(lines: &[String]) -> Vec<Vec<u32>> {
    let shown = lines.iter().filter_map(|line| line.strip_prefix("show\t"));
    shown.map(|line| line.split('\t').map(|field| field.parse().unwrap()).collect()).collect()
}

#[test]
fn on_w_it_does_not_matter_who_decided_first() {
    let shown = shown(&printed_by(fixed(), "who decided first, on W"));
    // exe and exx are left; without mask 6 and limit 4 ddx too; with e alone at the last place exe.
    let expected = [[0, 2, 2, 4, 6], [0, 2, 2, 4, 6], [0, 2, 3, 5, 6], [0, 4, 2, 4, 2]];
    assert_eq!(shown, expected);
}

#[test]
fn other_memories_show_the_same_and_those_of_more_decisions_no_more() {
    let (mut other_memory, mut no_roster, mut fewer_kept, mut dearer) = (0, 0, 0, 0);
    for case in 0..500 {
        let mut script = Script::default();
        script.begin("shuffled");
        shuffles::case(&mut Random::for_case(5, case), &mut script);
        let lines = printed_by(&script, "shuffled");
        let [first, second, third] = &shown(&lines)[..] else {
            panic!("case {case} shows another number of memories");
        };
        assert_eq!(first, second, "case {case}");
        let mut kept = third[2..].iter().zip(&first[2..]);
        assert!(kept.all(|(third, first)| third & !first == 0), "case {case}");
        assert!(third[0] == 11 || (first[0] == 0 && third[1] >= first[1]), "case {case}");

        // The line before a memory is shown has the checksum of all of it.
        let sums: Vec<&[String]> = lines.split(|line| line.starts_with("show")).collect();
        other_memory += usize::from(sums[0].last() != sums[1].last());
        no_roster += usize::from(first[0] == 11);
        fewer_kept += usize::from(third[0] == 0 && third[2..] != first[2..]);
        dearer += usize::from(third[0] == 0 && third[1] > first[1]);
    }
    let met = [other_memory, no_roster, fewer_kept, dearer];
    assert!(met.iter().zip([400, 50, 50, 10]).all(|(met, least)| *met >= least), "{met:?}");
}
