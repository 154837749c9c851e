//! The cases of sheets and questions: every small damage of M1's sheets, the paper's limits, and random
//! damages of the sheets of generated machines.

use super::case::{Case, Lent};
use super::lent::{bad_machines, damaged, every_small_damage, m1, machine_sheet, proof_sheet};
use super::limits;
use crate::cases;
use crate::generator::Rng;
use crate::machine::OwnedMachine;

/// Word areas about the 576 words that the reader asks for.
pub const WORD_AREAS: [u16; 5] = [0, 575, 576, 577, 600];
/// Sheet areas about the 1,252 bytes that the writer asks for.
pub const SHEET_AREAS: [u16; 5] = [0, 1_251, 1_252, 1_253, 2_000];
/// How often each sheet of a generated machine is damaged.
const DAMAGES: usize = 12;

/// The cases that no seed changes.
pub fn fixed(give: &mut dyn FnMut(Case)) {
    let mut turn = 0;
    every_small_damage(&cases::m1(), |sheet| {
        turn += 1;
        for area in [575, 576, 600] {
            give(Case::read_machine(sheet.clone(), area, turn as u8));
        }
    });
    every_small_damage(&cases::m1_proof(), |sheet| {
        turn += 1;
        give(Case::aw_record(sheet.clone(), turn % 4));
        give(Case::read_proof(sheet));
    });
    limits::make(give);
    // Often enough that every refusal comes up.
    let mut rng = Rng::new(0);
    for _ in 0..8 {
        question_cases(&m1(), &mut rng, give);
    }
}

/// The cases of one generated machine.
pub fn generated(machine: &OwnedMachine, rng: &mut Rng, give: &mut dyn FnMut(Case)) {
    machine_sheet_cases(machine, rng, give);
    writer_cases(machine, rng, give);
    proof_sheet_cases(machine, rng, give);
    question_cases(machine, rng, give);
}

fn machine_sheet_cases(machine: &OwnedMachine, rng: &mut Rng, give: &mut dyn FnMut(Case)) {
    let sheet = machine_sheet(machine);
    for area in WORD_AREAS {
        give(Case::read_machine(sheet.clone(), area, rng.byte()));
    }
    for _ in 0..DAMAGES {
        let damaged = damaged(&sheet, rng);
        give(Case::read_machine(
            damaged,
            rng.choose(&WORD_AREAS),
            rng.byte(),
        ));
    }
}

/// Good words, then words and counts that are not.
fn writer_cases(machine: &OwnedMachine, rng: &mut Rng, give: &mut dyn FnMut(Case)) {
    for area in SHEET_AREAS {
        give(Case::write_machine(&Lent::of(machine), area, rng.byte()));
    }
    for bad in bad_machines(machine, rng) {
        give(Case::write_machine(
            &bad,
            rng.choose(&SHEET_AREAS),
            rng.byte(),
        ));
    }
}

fn proof_sheet_cases(machine: &OwnedMachine, rng: &mut Rng, give: &mut dyn FnMut(Case)) {
    let sheet = proof_sheet(machine);
    let m = u16::from(sheet[2]);
    give(Case::read_proof(sheet.clone()));
    for state in [0, m / 2, m - 1, m, u16::MAX] {
        give(Case::aw_record(sheet.clone(), state));
    }
    for _ in 0..DAMAGES {
        let damaged = damaged(&sheet, rng);
        let state = rng.below(usize::from(m) + 2) as u16;
        give(Case::aw_record(damaged.clone(), state));
        give(Case::read_proof(damaged));
    }
}

fn question_cases(machine: &OwnedMachine, rng: &mut Rng, give: &mut dyn FnMut(Case)) {
    let good = Lent::of(machine);
    for length in [0, 1, 2, rng.below(100), 1_000] {
        let word = rng.letters(length, machine.k);
        give(Case::question(&good, word));
        // Here a letter is k, once in a while.
        let word = rng.letters(length, machine.k + 1);
        give(Case::question(&good, word));
    }
    for bad in bad_machines(machine, rng) {
        let length = rng.below(3);
        let word = rng.letters(length, machine.k);
        give(Case::question(&bad, word));
    }
}
