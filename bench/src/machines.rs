//! The measured machines: of each size a random one, and a ring, which takes the most rounds.

use second::generator::Rng;
use second::learner::{self, Answer};
use second::machine::{OwnedMachine, MAX_STATES};
use second::sheets;

pub const STATES: [usize; 6] = [4, 8, 16, 24, 32, 48];
pub const LETTERS: [usize; 4] = [2, 4, 8, 12];

#[derive(Clone, Copy, Debug, PartialEq, Eq)]
pub enum Kind {
    Random,
    Ring,
}

impl Kind {
    pub const ALL: [Kind; 2] = [Kind::Random, Kind::Ring];

    pub fn name(self) -> &'static str {
        match self {
            Kind::Random => "random",
            Kind::Ring => "ring",
        }
    }

    pub fn machine(self, n: usize, k: usize) -> OwnedMachine {
        match self {
            Kind::Random => random(n, k),
            Kind::Ring => ring(n, k),
        }
    }
}

/// Two outputs and next states by chance; drawn again until the smallest model has n states.
fn random(n: usize, k: usize) -> OwnedMachine {
    let mut rng = Rng::new((n * k) as u64);
    loop {
        let machine = reachable(n, k, &mut rng);
        if model_states(&machine) == n {
            return machine;
        }
    }
}

/// Each state but the start is led to from a lower one: by chance alone, few machines of two letters reach all.
fn reachable(n: usize, k: usize, rng: &mut Rng) -> OwnedMachine {
    let mut next: Vec<Option<usize>> = vec![None; n * k];
    for state in 1..n {
        let free: Vec<usize> = (0..state * k).filter(|&at| next[at].is_none()).collect();
        next[rng.choose(&free)] = Some(state);
    }
    OwnedMachine::build(n, k, |state, letter| {
        let next = next[state * k + usize::from(letter)];
        (rng.below(2) as u8, next.unwrap_or_else(|| rng.below(n)))
    })
}

fn model_states(machine: &OwnedMachine) -> usize {
    let mut table = vec![0; learner::TABLE_AREA];
    let mut sheet = vec![0; sheets::PROOF_SHEET_AREA];
    let answer = learner::learn(
        &machine.words,
        machine.n,
        machine.k,
        MAX_STATES,
        learner::MAX_ROUNDS,
        &mut table,
        &mut sheet,
    );
    match answer {
        Answer::Done { states, .. } => states,
        _ => 0,
    }
}

/// Letter 0 goes round, the others stay; only the last state shows on 0 that it is the last.
fn ring(n: usize, k: usize) -> OwnedMachine {
    OwnedMachine::build(n, k, |state, letter| {
        let goes = letter == 0;
        let next = if goes { (state + 1) % n } else { state };
        (u8::from(goes && state == n - 1), next)
    })
}
