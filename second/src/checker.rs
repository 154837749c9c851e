//! The paper's checker of proof sheets: machine, sheet, then refusals 11 to 14 in order.

use crate::machine::Machine;
use crate::refusal;
use crate::sheets::{self, ProofSheet};

/// Accepts a proof sheet for a lent machine, or gives the refusal number.
pub fn check(words: &[u16], n: usize, k: usize, sheet: &[u8]) -> Result<(), u8> {
    let machine = Machine::lent(words, n, k)?;
    let proof = sheets::parse_proof_sheet(sheet)?;
    if proof.counts.n != n || proof.counts.k != k {
        return Err(refusal::OTHER_COUNTS);
    }
    if !reaching_words_lead_to_their_states(&proof) {
        return Err(refusal::REACHING_WORD);
    }
    if !states_are_told_apart(&proof) {
        return Err(refusal::NOT_TOLD_APART);
    }
    if !state_map_holds(machine, &proof) {
        return Err(refusal::STATE_MAP);
    }
    Ok(())
}

fn reaching_words_lead_to_their_states(proof: &ProofSheet<'_>) -> bool {
    let model = proof.model.lend();
    proof
        .reaching_words
        .iter()
        .enumerate()
        .all(|(state, word)| model.state_after(word) == state)
}

fn states_are_told_apart(proof: &ProofSheet<'_>) -> bool {
    (0..proof.counts.m).all(|right| (0..right).all(|left| some_column_differs(proof, left, right)))
}

fn some_column_differs(proof: &ProofSheet<'_>, left: usize, right: usize) -> bool {
    let model = proof.model.lend();
    proof
        .columns
        .iter()
        .any(|column| model.last_output_from(left, column) != model.last_output_from(right, column))
}

fn state_map_holds(machine: Machine<'_>, proof: &ProofSheet<'_>) -> bool {
    proof.state_map[0] == 0
        && (0..machine.states()).all(|state| map_holds_at(machine, proof, state))
}

/// A state marked 255 is asked nothing itself; it still fails a mapped state that leads to it.
fn map_holds_at(machine: Machine<'_>, proof: &ProofSheet<'_>, state: usize) -> bool {
    let image = proof.state_map[state];
    if image == sheets::NO_STATE {
        return true;
    }
    let model = proof.model.lend();
    let image = usize::from(image);
    machine.alphabet().all(|letter| {
        let next_image = usize::from(proof.state_map[machine.next(state, letter)]);
        machine.output(state, letter) == model.output(image, letter)
            && next_image == model.next(image, letter)
    })
}
