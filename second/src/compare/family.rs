//! The families of cases, one file each, and which cases a run has.

use super::case::{Case, Operation};
use super::{checking, learning, reading, states};
use crate::generator::{self, Rng};
use crate::machine::OwnedMachine;

#[derive(Clone, Copy, Debug, PartialEq, Eq)]
pub enum Family {
    Sheets,
    Learner,
    Checker,
    States,
}

impl Family {
    pub const ALL: [Family; 4] = [
        Family::Sheets,
        Family::Learner,
        Family::Checker,
        Family::States,
    ];

    pub fn name(self) -> &'static str {
        match self {
            Family::Sheets => "sheets",
            Family::Learner => "learner",
            Family::Checker => "checker",
            Family::States => "states",
        }
    }

    /// The operations that the family's cases call.
    pub fn operations(self) -> &'static [Operation] {
        match self {
            Family::Sheets => &[
                Operation::ReadMachine,
                Operation::WriteMachine,
                Operation::ReadProof,
                Operation::AwRecord,
                Operation::Question,
            ],
            Family::Learner => &[Operation::Learn],
            Family::Checker => &[Operation::Check],
            Family::States => &[Operation::WhyApart],
        }
    }

    fn fixed(self, give: &mut dyn FnMut(Case)) {
        match self {
            Family::Sheets => reading::fixed(give),
            Family::Learner => learning::fixed(give),
            Family::Checker => checking::fixed(give),
            Family::States => states::fixed(give),
        }
    }

    fn generated(self, machine: &OwnedMachine, rng: &mut Rng, give: &mut dyn FnMut(Case)) {
        match self {
            Family::Sheets => reading::generated(machine, rng, give),
            Family::Learner => learning::generated(machine, rng, give),
            Family::Checker => checking::generated(machine, rng, give),
            Family::States => states::generated(machine, rng, give),
        }
    }
}

/// The cases of one run: for each family those that no seed changes, if they are wanted, and those of so many
/// machines, which the seed fixes.
#[derive(Clone, Debug)]
pub struct Plan {
    pub families: Vec<Family>,
    pub has_fixed: bool,
    pub seed: u64,
    pub count: usize,
}

impl Plan {
    pub fn make(&self, give: &mut dyn FnMut(Case)) {
        for family in &self.families {
            if self.has_fixed {
                family.fixed(give);
            }
            let mut rng = Rng::new(self.seed);
            for number in 0..self.count {
                let machine = generator::in_turn(number, &mut rng);
                family.generated(&machine, &mut rng, give);
            }
        }
    }
}
