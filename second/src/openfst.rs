//! Generated machines for OpenFst, a third opinion on the size of the smallest model: their text form, and the
//! sizes that the proved program gives.

use crate::compare::case::{number_at, Case, Lent, Outcome};
use crate::compare::exchange;
use crate::generator::{self, Rng};
use crate::learner::TABLE_AREA;
use crate::machine::{Machine, OwnedMachine};
use crate::sheets::PROOF_SHEET_AREA;
use std::fmt::Write;

/// The machines that a seed fixes, the kinds taking turns.
pub fn machines(seed: u64, count: usize) -> Vec<OwnedMachine> {
    let mut rng = Rng::new(seed);
    (0..count)
        .map(|number| generator::in_turn(number, &mut rng))
        .collect()
}

/// A machine as a transducer in OpenFst's text form: a line for each transition with state, next state, letter
/// and output, then every state as final. The first line's state is the start. Label 0 would be no label, so
/// letters and outputs begin at 1.
pub fn text(machine: Machine<'_>) -> String {
    let mut text = String::new();
    for state in 0..machine.states() {
        for letter in machine.alphabet() {
            let next = machine.next(state, letter);
            let output = u16::from(machine.output(state, letter));
            writeln!(text, "{state} {next} {} {}", letter + 1, output + 1)
                .expect("a string takes every line");
        }
    }
    for state in 0..machine.states() {
        writeln!(text, "{state}").expect("a string takes every line");
    }
    text
}

/// The states of each machine's model, as a program that answers cases learns it without a limit.
pub fn sizes(machines: &[OwnedMachine], program: &[&str]) -> Result<Vec<usize>, String> {
    let mut sizes = Vec::new();
    let mut wrong = None;
    let areas = [TABLE_AREA as u16, PROOF_SHEET_AREA as u16];
    let make = |give: &mut dyn FnMut(Case)| {
        for machine in machines {
            give(Case::learn(&Lent::of(machine), (48, 47), areas, 0));
        }
    };
    let started = exchange::start(program)?;
    started.answer(make, &mut |case, answer| match case.outcome(&answer) {
        Outcome::Done => sizes.push(usize::from(number_at(&answer, 0))),
        other => wrong = Some(format!("{other} instead of done: {case:?}")),
    })?;
    wrong.map_or(Ok(sizes), Err)
}

#[cfg(test)]
mod tests {
    use super::*;

    #[test]
    fn the_start_comes_first_and_no_label_is_zero() {
        let machine = OwnedMachine::build(2, 1, |state, _| (255 * state as u8, 1 - state));
        assert_eq!(text(machine.lend()), "0 1 1 1\n1 0 1 256\n0\n1\n");
    }
}
