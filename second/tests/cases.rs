//! Every case of the paper, the self checks with a fixed seed, and the program's bad uses.

use second::learner::{learn, Answer, MAX_ROUNDS, TABLE_AREA};
use second::machine::MAX_STATES;
use second::sheets::PROOF_SHEET_AREA;
use second::{cases, generator, self_check};
use std::process::Command;

#[test]
fn every_case_of_the_paper_is_right() {
    for case in cases::all() {
        assert!(
            case.is_right,
            "{}: expected {}, found {}",
            case.name, case.expected, case.found
        );
    }
}

#[test]
fn generated_machines_pass_the_self_checks() {
    let totals = self_check::run(2024, 360).expect("nothing wrong");
    for answers in totals.by_kind {
        assert_eq!(answers.machines, 40);
        assert!(answers.done > 0);
    }
}

/// Rings of 48 states with one odd output: the longest words the paper makes room for.
#[test]
fn rings_reach_the_longest_counterexample() {
    let mut table = vec![0; TABLE_AREA];
    let mut sheet = vec![0; PROOF_SHEET_AREA];
    let mut longest = 0;
    for odd in 0..MAX_STATES {
        let ring = generator::great_ring(1, odd);
        for r in 0..=MAX_ROUNDS {
            let answer = learn(&ring.words, 48, 1, 48, r, &mut table, &mut sheet);
            if let Answer::Open { bytes, .. } = answer {
                longest = longest.max(bytes - 3);
            }
        }
    }
    assert_eq!(longest, 94);
}

fn second(arguments: &[&str]) -> (bool, String, String) {
    let output = Command::new(env!("CARGO_BIN_EXE_second"))
        .args(arguments)
        .output()
        .expect("the program starts");
    let text = |bytes: Vec<u8>| String::from_utf8(bytes).expect("text");
    (
        output.status.success(),
        text(output.stdout),
        text(output.stderr),
    )
}

#[test]
fn the_program_runs_its_cases() {
    let (success, printed, _) = second(&["cases"]);
    assert!(success);
    assert!(printed.ends_with(" cases, 0 wrong\n"));
    assert!(second(&["--help"]).0);
}

/// Every program that is found here answers nothing, or something else.
#[test]
fn a_program_that_answers_otherwise_is_found_out() {
    for program in ["true", "cat"] {
        let (success, printed, _) = second(&["compare", "sheets", "1", "1", program]);
        assert!(!success && printed.contains("WRONG  there is no answer to "));
    }
    let (_, printed, _) = second(&["compare", "sheets", "1", "1", "cat"]);
    assert!(printed.contains("DIFFERS"));
    let (success, printed, _) = second(&["soak", "1", "60", "true"]);
    assert!(!success && printed.ends_with(": seeds 1 to 1, 0 cases, 0 differ\n"));
}

/// The comparison, the soak and OpenFst's sizes with this program's own answers.
#[test]
fn the_program_agrees_with_itself() {
    let program = env!("CARGO_BIN_EXE_second");
    let (success, printed, _) = second(&["compare", "all", "3", "9", program, "answers"]);
    assert!(
        success && printed.ends_with(" cases, 0 differ\n"),
        "{printed}"
    );
    let (success, printed, _) = second(&["soak", "3", "0", program, "answers"]);
    assert!(
        success && printed.ends_with(" cases, 0 differ\n"),
        "{printed}"
    );
    let directory = env!("CARGO_TARGET_TMPDIR");
    let (success, printed, _) = second(&["openfst", "3", "9", directory, program, "answers"]);
    assert!(success);
    assert_eq!(printed.lines().count(), 9);
}

#[test]
fn bad_use_gives_one_line_and_fails() {
    let bad_uses: [&[&str]; 13] = [
        &[],
        &["unknown"],
        &["cases", "more"],
        &["random", "1"],
        &["random", "1", "many"],
        &["random", "-1", "5"],
        &["compare", "all", "1", "1"],
        &["compare", "all", "1", "many", "cat"],
        &["compare", "none", "1", "1", "cat"],
        &["compare", "all", "1", "1", "./no such program"],
        &["soak", "1", "1"],
        &["openfst", "1", "1", "."],
        &["openfst", "1", "1", ".", "true"],
    ];
    for arguments in bad_uses {
        let (success, printed, complaint) = second(arguments);
        assert!(!success && printed.is_empty());
        assert_eq!(complaint.lines().count(), 1, "{arguments:?}");
    }
}
