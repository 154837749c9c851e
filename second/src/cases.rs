//! The cases of the paper's "M1, by hand", those marked P and those marked Run, with a few more about
//! what is left in the areas and about the order of refusals.

use crate::checker;
use crate::learner::{self, Answer, TABLE_AREA};
use crate::machine::{self, WORD_AREA};
use crate::program;
use crate::refusal;
use crate::sheets::{self, Counts, MACHINE_SHEET_AREA, PROOF_SHEET_AREA};
use std::fmt::Debug;

/// One case with what was expected and what was found.
pub struct Case {
    pub name: &'static str,
    pub is_right: bool,
    pub expected: String,
    pub found: String,
}

const M1: &str = "MH 04 02 MR 00 01 00 00 MR 00 02 00 01 MR 01 00 00 02 MR 01 03 00 00";
const M1_PROOF: &str = "PH 03 02 04 03 MR 00 01 00 00 MR 00 02 00 01 MR 01 00 00 02 \
     AW 00 AW 01 00 AW 02 00 00 CW 01 00 CW 01 01 CW 02 00 00 SM 00 01 02 FF";
const M1_PRINTED: &str = "model 3 2 1 21\n0 0 0 1\n0 1 0 0\n1 0 0 2\n1 1 0 1\n2 0 1 0\n2 1 0 2\n";

/// The byte every area is filled with before a case, to see what stays untouched.
const UNTOUCHED: u8 = 0xA5;

/// Bytes from the paper's notation: marks as text, numbers in hex.
fn bytes(notation: &str) -> Vec<u8> {
    let mut result = Vec::new();
    for token in notation.split_whitespace() {
        match u8::from_str_radix(token, 16) {
            Ok(number) => result.push(number),
            Err(_) => result.extend(token.as_bytes()),
        }
    }
    result
}

/// M1's machine sheet.
pub(crate) fn m1() -> Vec<u8> {
    bytes(M1)
}

/// M1's proof sheet.
pub(crate) fn m1_proof() -> Vec<u8> {
    bytes(M1_PROOF)
}

/// The M1 proof sheet with one piece of it, which must stand there, written otherwise.
fn proof_with(piece: &str, otherwise: &str) -> Vec<u8> {
    assert_eq!(M1_PROOF.matches(piece).count(), 1, "one {piece}");
    bytes(&M1_PROOF.replace(piece, otherwise))
}

/// Everything a run of the learner gives and leaves.
#[derive(Debug, PartialEq)]
struct Learnt {
    answer: Answer,
    table: Vec<u8>,
    sheet: Vec<u8>,
}

fn learn_into(notation: &str, l: usize, r: usize, table: usize, sheet: usize) -> Learnt {
    let mut words = [0; WORD_AREA];
    let (n, k) = sheets::read_machine_sheet(&bytes(notation), &mut words).expect("a good sheet");
    learn_words(&words[..n * k], (n, k), (l, r), (table, sheet))
}

fn learn_words(
    words: &[u16],
    (n, k): (usize, usize),
    (l, r): (usize, usize),
    (table, sheet): (usize, usize),
) -> Learnt {
    let mut table = vec![UNTOUCHED; table];
    let mut sheet = vec![UNTOUCHED; sheet];
    let answer = learner::learn(words, n, k, l, r, &mut table, &mut sheet);
    Learnt {
        answer,
        table,
        sheet,
    }
}

fn learn(notation: &str, l: usize, r: usize) -> Learnt {
    learn_into(notation, l, r, TABLE_AREA + 3, PROOF_SHEET_AREA + 3)
}

/// An area of the usual length as it looks when only the bytes at its start were set.
fn area(start: &[u8], length: usize) -> Vec<u8> {
    let mut area = vec![UNTOUCHED; length];
    area[..start.len()].copy_from_slice(start);
    area
}

/// A table area of the usual length that holds the given rows of cells and is zero elsewhere.
fn table_area(rows: &[&[u8]]) -> Vec<u8> {
    let mut start = vec![0; TABLE_AREA];
    for (number, cells) in rows.iter().enumerate() {
        start[number * 59..][..cells.len()].copy_from_slice(cells);
    }
    area(&start, TABLE_AREA + 3)
}

fn sheet_area(start: &[u8]) -> Vec<u8> {
    area(start, PROOF_SHEET_AREA + 3)
}

fn read_machine(sheet: &[u8]) -> Result<(usize, usize), u8> {
    sheets::read_machine_sheet(sheet, &mut [0; WORD_AREA])
}

fn check_m1(proof: &[u8]) -> Result<(), u8> {
    let mut words = [0; WORD_AREA];
    let (n, k) = sheets::read_machine_sheet(&bytes(M1), &mut words).expect("M1 is a good sheet");
    checker::check(&words[..n * k], n, k, proof)
}

fn case<T: Debug + PartialEq>(name: &'static str, expected: T, found: T) -> Case {
    Case {
        name,
        is_right: expected == found,
        expected: format!("{expected:?}"),
        found: format!("{found:?}"),
    }
}

/// Every case, in the order of the paper.
pub fn all() -> Vec<Case> {
    let mut cases = learner_cases();
    cases.extend(machine_sheet_cases());
    cases.extend(checker_cases());
    cases.extend(run_cases());
    cases.extend(program_cases());
    cases.extend(order_cases());
    cases
}

fn m1_done(l: usize, r: usize) -> Case {
    // By hand: S is the empty word, 0 and 00; the columns are 0, 1 and 00.
    let rows: [&[u8]; 7] = [
        &[0, 0, 0],
        &[0, 0, 1],
        &[0, 0, 0],
        &[1, 0, 0],
        &[0, 0, 1],
        &[0, 0, 0],
        &[1, 0, 0],
    ];
    let expected = Learnt {
        answer: Answer::Done {
            states: 3,
            rounds: 1,
            cells: 21,
            bytes: 55,
        },
        table: table_area(&rows),
        sheet: sheet_area(&bytes(M1_PROOF)),
    };
    let name = if l == 3 {
        "P M1, R = 47, L = 3: done"
    } else {
        "P M1 done: its proof sheet of 55 bytes, 3 states, 1 round, 21 cells"
    };
    case(name, expected, learn(M1, l, r))
}

fn learner_cases() -> Vec<Case> {
    let open = Learnt {
        answer: Answer::Open {
            states: 1,
            rounds: 0,
            cells: 6,
            bytes: 6,
        },
        table: table_area(&[]),
        sheet: sheet_area(&bytes("CX 03 00 00 00")),
    };
    let refused = Learnt {
        answer: Answer::Refused(refusal::TOO_MANY_STATES),
        table: table_area(&[]),
        sheet: sheet_area(&[]),
    };
    let one_state = Learnt {
        answer: Answer::Done {
            states: 1,
            rounds: 0,
            cells: 2,
            bytes: 20,
        },
        table: table_area(&[&[7], &[7]]),
        sheet: sheet_area(&bytes("PH 01 01 01 01 MR 07 00 AW 00 CW 01 00 SM 00")),
    };
    vec![
        m1_done(48, 47),
        case(
            "P M1, R = 0, L = 1: open, CX 03 00 00 00",
            open,
            learn(M1, 1, 0),
        ),
        case("P M1, R = 47, L = 2: 10", refused, learn(M1, 2, 47)),
        m1_done(3, 47),
        case(
            "P MH 01 01 MR 07 00: one state, 0 rounds, 2 cells",
            one_state,
            learn("MH 01 01 MR 07 00", 48, 47),
        ),
    ]
}

fn machine_sheet_cases() -> Vec<Case> {
    let m1 = bytes(M1);
    let mut high_next = m1.clone();
    *high_next.last_mut().expect("M1 is not empty") = 4;
    let a_byte_more = [&m1[..], &[0]].concat();
    vec![
        case("M1 has 28 bytes", 28, m1.len()),
        case("P empty sheet: 1", Err(1), read_machine(&[])),
        case(
            "P empty sheet, read as a proof sheet: 1",
            Err(1),
            sheets::read_proof_sheet(&[]),
        ),
        case("P MH 00 01: 3", Err(3), read_machine(&bytes("MH 00 01"))),
        case("P MH 31 01: 3", Err(3), read_machine(&bytes("MH 31 01"))),
        case(
            "P MH 30 01 alone: 1",
            Err(1),
            read_machine(&bytes("MH 30 01")),
        ),
        case(
            "P M1 with its last byte 04: 4",
            Err(4),
            read_machine(&high_next),
        ),
        case(
            "P M1 with a byte more: 5",
            Err(5),
            read_machine(&a_byte_more),
        ),
        case("M1 read and written again", Ok(m1.clone()), rewritten(&m1)),
    ]
}

/// A machine sheet read and written again; the part of the area that was set.
fn rewritten(sheet: &[u8]) -> Result<Vec<u8>, u8> {
    let mut words = [0; WORD_AREA];
    let (n, k) = sheets::read_machine_sheet(sheet, &mut words)?;
    let mut area = vec![UNTOUCHED; MACHINE_SHEET_AREA];
    let length = sheets::write_machine_sheet(&words[..n * k], n, k, &mut area)?;
    Ok(area[..length].to_vec())
}

/// M1's proof sheet and copies written otherwise, each with what the checker says to it.
pub(crate) fn checked_sheets() -> Vec<(&'static str, Result<(), u8>, Vec<u8>)> {
    let without = |column: &str| {
        let shorter = M1_PROOF.replace("PH 03 02 04 03", "PH 03 02 04 02");
        bytes(&shorter.replace(column, " "))
    };
    let with_map = |map: &str| proof_with("SM 00 01 02 FF", map);
    let another_n = M1_PROOF.replace("PH 03 02 04", "PH 03 02 03");
    vec![
        ("P the M1 proof sheet is accepted", Ok(()), bytes(M1_PROOF)),
        (
            "P without the CW for letter 1 (c = 2): accepted",
            Ok(()),
            without("CW 01 01 "),
        ),
        (
            "P without the CW of two letters: 13",
            Err(13),
            without("CW 02 00 00 "),
        ),
        (
            "P with AW 01 00 for state 2: 12",
            Err(12),
            proof_with("AW 02 00 00", "AW 01 00"),
        ),
        (
            "P with SM 00 01 02 02: 14",
            Err(14),
            with_map("SM 00 01 02 02"),
        ),
        (
            "With SM FF FF FF FF, no model state for the start: 14",
            Err(14),
            with_map("SM FF FF FF FF"),
        ),
        (
            "With SM 00 01 FF FF, none for a state that is reached: 14",
            Err(14),
            with_map("SM 00 01 FF FF"),
        ),
        (
            "With another n: 11",
            Err(11),
            bytes(&another_n.replace(" FF", "")),
        ),
    ]
}

fn checker_cases() -> Vec<Case> {
    let proof = bytes(M1_PROOF);
    let mut cases = vec![case("The M1 proof sheet has 55 bytes", 55, proof.len())];
    for (name, due, sheet) in checked_sheets() {
        cases.push(case(name, due, check_m1(&sheet)));
    }
    cases.extend([
        case(
            "The M1 proof sheet read: m, k, n, c",
            Ok(Counts {
                m: 3,
                k: 2,
                n: 4,
                c: 3,
            }),
            sheets::read_proof_sheet(&proof),
        ),
        case(
            "The AW record of state 2",
            bytes("AW 02 00 00"),
            sheets::aw_record(&proof, 2).to_vec(),
        ),
        case(
            "The AW record of state 3: the empty part",
            vec![],
            sheets::aw_record(&proof, 3).to_vec(),
        ),
    ]);
    cases
}

/// A refusal of the learner that changes no lent byte.
fn refused_untouched(name: &'static str, number: u8, found: Learnt) -> Case {
    let expected = Learnt {
        answer: Answer::Refused(number),
        table: vec![UNTOUCHED; found.table.len()],
        sheet: vec![UNTOUCHED; found.sheet.len()],
    };
    case(name, expected, found)
}

fn run_cases() -> Vec<Case> {
    let with_table = |length: usize| learn_into(M1, 48, 47, length, PROOF_SHEET_AREA);
    let with_sheet = |length: usize| learn_into(M1, 48, 47, TABLE_AREA, length);
    let is_done = |learnt: Learnt| matches!(learnt.answer, Answer::Done { .. });
    vec![
        refused_untouched("Run L = 0: 7", 7, learn(M1, 0, 47)),
        refused_untouched("Run L = 49: 7", 7, learn(M1, 49, 47)),
        refused_untouched("Run R = 48: 7", 7, learn(M1, 48, 48)),
        refused_untouched("Run table area 34,042: 8", 8, with_table(34_042)),
        case(
            "Run table area 34,043: none",
            true,
            is_done(with_table(34_043)),
        ),
        refused_untouched("Sheet area 9,367: 9", 9, with_sheet(9_367)),
        case("Sheet area 9,368: none", true, is_done(with_sheet(9_368))),
    ]
}

fn program_cases() -> Vec<Case> {
    let mut high_next = bytes(M1);
    *high_next.last_mut().expect("M1 is not empty") = 4;
    vec![
        case(
            "The program prints M1",
            M1_PRINTED.to_string(),
            program::learn_text(&bytes(M1)),
        ),
        case(
            "The program prints refused 4",
            "refused 4\n".to_string(),
            program::learn_text(&high_next),
        ),
    ]
}

/// "Learner: 7, machine, 8, 9, 10. Question: machine, then 6."
fn order_cases() -> Vec<Case> {
    let bad = [machine::transition(0, 1)];
    let good = [machine::transition(0, 0)];
    let one = (1, 1);
    vec![
        refused_untouched(
            "Order: 7 before the machine",
            7,
            learn_words(&bad, one, (0, 0), (0, 0)),
        ),
        refused_untouched(
            "Order: the machine before 8",
            4,
            learn_words(&bad, one, (1, 0), (0, 0)),
        ),
        refused_untouched(
            "Order: 8 before 9",
            8,
            learn_words(&good, one, (1, 0), (0, 0)),
        ),
        case(
            "Order: the machine before the empty question",
            Err(4),
            machine::question(&bad, 1, 1, &[]),
        ),
        case(
            "The empty question: 6",
            Err(6),
            machine::question(&good, 1, 1, &[]),
        ),
    ]
}
