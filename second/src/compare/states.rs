//! The cases of two states: all pairs of M1 and of the longest words, random pairs of generated machines, and all that is refused.

use super::case::{Case, Lent};
use super::lent::{bad_machines, m1};
use crate::generator::Rng;
use crate::machine::{OwnedMachine, MAX_STATES};

/// Areas about the 47 bytes that a word asks for.
const AREAS: [u16; 5] = [0, 46, 47, 48, 100];
/// How many pairs of each generated machine are asked.
const PAIRS: usize = 12;

/// The cases that no seed changes.
pub fn fixed(give: &mut dyn FnMut(Case)) {
    every_pair(&m1(), give);
    for k in [1, 12] {
        every_pair(&counter(k), give);
    }
    // Often enough that every refusal comes up.
    let mut rng = Rng::new(0);
    for _ in 0..8 {
        generated(&m1(), &mut rng, give);
    }
}

/// The states count to the last, which alone puts out 1: words of every length up to 47, the last letter's only.
fn counter(k: usize) -> OwnedMachine {
    let last = MAX_STATES - 1;
    OwnedMachine::build(MAX_STATES, k, |state, letter| {
        let counts = usize::from(letter) + 1 == k;
        let output = u8::from(counts && state == last);
        (output, (state + usize::from(counts)).min(last))
    })
}

/// With the two states next to the last, which are not there.
fn every_pair(machine: &OwnedMachine, give: &mut dyn FnMut(Case)) {
    let lent = Lent::of(machine);
    for s in 0..lent.n + 2 {
        for t in 0..lent.n + 2 {
            give(Case::why_apart(&lent, (s, t), 47 + s % 2, t as u8));
        }
    }
}

/// The cases of one generated machine.
pub fn generated(machine: &OwnedMachine, rng: &mut Rng, give: &mut dyn FnMut(Case)) {
    let good = Lent::of(machine);
    for _ in 0..PAIRS {
        let states = (state(&good, rng), state(&good, rng));
        give(Case::why_apart(&good, states, 47, rng.byte()));
        give(Case::why_apart(
            &good,
            states,
            rng.choose(&AREAS),
            rng.byte(),
        ));
    }
    for bad in bad_machines(machine, rng) {
        let states = (state(&good, rng), state(&good, rng));
        give(Case::why_apart(
            &bad,
            states,
            rng.choose(&AREAS),
            rng.byte(),
        ));
    }
}

/// A state, or now and then a number that is none.
fn state(machine: &Lent, rng: &mut Rng) -> u16 {
    if rng.once_in(12) {
        return rng.choose(&[machine.n, u16::MAX]);
    }
    rng.below(usize::from(machine.n)) as u16
}
