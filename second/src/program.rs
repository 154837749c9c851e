//! The paper's program `learn`: a machine sheet in, the printed model or one refusal line out.

use crate::learner::{self, Answer};
use crate::machine::{MAX_STATES, WORD_AREA};
use crate::sheets;
use std::fmt::Write;

/// One byte past the longest machine sheet, so that a longer input still shows bytes left over.
pub const INPUT_BYTES: usize = sheets::MACHINE_SHEET_AREA + 1;

/// What the program prints for a machine sheet, with L = 48 and R = 47.
pub fn learn_text(sheet: &[u8]) -> String {
    let mut words = [0; WORD_AREA];
    let (n, k) = match sheets::read_machine_sheet(sheet, &mut words) {
        Ok(counts) => counts,
        Err(number) => return refusal_text(number),
    };
    let mut table = vec![0; learner::TABLE_AREA];
    let mut proof = vec![0; sheets::PROOF_SHEET_AREA];
    let answer = learner::learn(
        &words[..n * k],
        n,
        k,
        MAX_STATES,
        learner::MAX_ROUNDS,
        &mut table,
        &mut proof,
    );
    match answer {
        Answer::Done {
            states,
            rounds,
            cells,
            bytes,
        } => format!("model {states} {k} {rounds} {cells}\n") + &transitions_text(&proof[..bytes]),
        Answer::Open { .. } => unreachable!("each round adds a state, so 47 rounds are enough"),
        Answer::Refused(number) => refusal_text(number),
    }
}

fn refusal_text(number: u8) -> String {
    format!("refused {number}\n")
}

/// One line for each transition of the model: state, letter, output, next.
fn transitions_text(proof: &[u8]) -> String {
    let proof = sheets::parse_proof_sheet(proof).expect("the learner's own sheet can be read");
    let model = proof.model.lend();
    let mut text = String::new();
    for state in 0..model.states() {
        for letter in model.alphabet() {
            let (output, next) = (model.output(state, letter), model.next(state, letter));
            writeln!(text, "{state} {letter} {output} {next}").expect("a string takes every line");
        }
    }
    text
}
