//! The learner's cases: machines of every kind, at limits inside their ranges, at their ends and beyond,
//! in areas that are exact, longer, too short and empty.

use super::case::{Case, Lent};
use super::lent::{bad_machines, m1, proof_sheet};
use crate::generator::{self, Rng};
use crate::learner::MAX_ROUNDS;
use crate::machine::{OwnedMachine, MAX_LETTERS, MAX_STATES};
use crate::sheets::{self, Counts};

/// Areas that the learner takes, exact and longer.
const TABLE_AREAS: [u16; 3] = [34_043, 34_044, 36_000];
const SHEET_AREAS: [u16; 3] = [9_368, 9_369, 10_000];
/// Areas that it refuses.
const SHORT_TABLE_AREAS: [u16; 3] = [0, 1, 34_042];
const SHORT_SHEET_AREAS: [u16; 3] = [0, 1, 9_367];

const EXACT_AREAS: [u16; 2] = [TABLE_AREAS[0], SHEET_AREAS[0]];
/// The limits under which every machine is learnt to the end.
const NO_LIMIT: (u16, u16) = (MAX_STATES as u16, MAX_ROUNDS as u16);

/// The cases that no seed changes.
pub fn fixed(give: &mut dyn FnMut(Case)) {
    let one_state = OwnedMachine::build(1, 1, |_, _| (7, 0));
    for machine in [m1(), one_state] {
        every_limit(&Lent::of(&machine), give);
        every_area(&Lent::of(&machine), give);
    }
    every_order(give);
    for number in 0..3 {
        every_round(&Lent::of(&generator::several_changes(number)), give);
    }
    for machine in largest() {
        every_round(&Lent::of(&machine), give);
        let too_few = (MAX_STATES as u16 - 1, MAX_ROUNDS as u16);
        give(Case::learn(&Lent::of(&machine), too_few, EXACT_AREAS, 3));
    }
}

fn every_limit(machine: &Lent, give: &mut dyn FnMut(Case)) {
    for l in [0, 1, 2, 3, 4, 47, 48, 49, u16::MAX] {
        for r in [0, 1, 2, 46, 47, 48, u16::MAX] {
            let seed = l.wrapping_mul(7).wrapping_add(r) as u8;
            give(Case::learn(machine, (l, r), EXACT_AREAS, seed));
        }
    }
}

fn every_area(machine: &Lent, give: &mut dyn FnMut(Case)) {
    for table in [TABLE_AREAS, SHORT_TABLE_AREAS].concat() {
        for sheet in [SHEET_AREAS, SHORT_SHEET_AREAS].concat() {
            give(Case::learn(machine, NO_LIMIT, [table, sheet], table as u8));
        }
    }
}

/// "Learner: 7, machine, 8, 9, 10": everything wrong together with everything else.
fn every_order(give: &mut dyn FnMut(Case)) {
    let mut rng = Rng::new(0);
    let good = Lent::of(&m1());
    let machines = [vec![good], bad_machines(&m1(), &mut rng)].concat();
    for machine in machines {
        for limits in [NO_LIMIT, (2, 47), (0, 47), (48, 48)] {
            for table in [TABLE_AREAS[0], SHORT_TABLE_AREAS[2]] {
                for sheet in [SHEET_AREAS[0], SHORT_SHEET_AREAS[2]] {
                    give(Case::learn(&machine, limits, [table, sheet], rng.byte()));
                }
            }
        }
    }
}

fn every_round(machine: &Lent, give: &mut dyn FnMut(Case)) {
    for r in [0, 1, 2, 3, 4, 5, 24, 45, 46, 47] {
        give(Case::learn(machine, (48, r), EXACT_AREAS, r as u8));
    }
}

/// Machines of 48 states, many of 12 letters.
fn largest() -> Vec<OwnedMachine> {
    let mut rng = Rng::new(48);
    let random = OwnedMachine::build(MAX_STATES, MAX_LETTERS, |_, _| {
        (u8::from(rng.once_in(16)), rng.below(MAX_STATES))
    });
    let odd_states = [0, 1, 24, 46, 47];
    let rings = odd_states.map(|odd| [1, MAX_LETTERS].map(|k| generator::great_ring(k, odd)));
    [rings.concat(), vec![random]].concat()
}

/// The cases of one generated machine.
pub fn generated(machine: &OwnedMachine, rng: &mut Rng, give: &mut dyn FnMut(Case)) {
    let good = Lent::of(machine);
    for limits in limits_about(machine, rng) {
        let areas = [rng.choose(&TABLE_AREAS), rng.choose(&SHEET_AREAS)];
        give(Case::learn(&good, limits, areas, rng.byte()));
    }
    let limits = bad_limits(rng);
    give(Case::learn(&good, limits, any_areas(rng), rng.byte()));
    for areas in short_areas(rng) {
        give(Case::learn(&good, NO_LIMIT, areas, rng.byte()));
    }
    let bad = bad_machines(machine, rng);
    let bad = rng.choose(&bad);
    give(Case::learn(&bad, NO_LIMIT, any_areas(rng), rng.byte()));
}

/// Limits without effect, limits about the model's size and below the rounds needed, and random ones.
fn limits_about(machine: &OwnedMachine, rng: &mut Rng) -> [(u16, u16); 8] {
    let Counts { m, k, c, .. } = sheets::read_proof_sheet(&proof_sheet(machine))
        .expect("the learner's own sheet can be read");
    let (size, needed) = (m as u16, c - k);
    let mut below = |bound: usize| rng.below(bound) as u16;
    [
        NO_LIMIT,
        (size, NO_LIMIT.1),
        (size - 1, NO_LIMIT.1),
        (size + 1, NO_LIMIT.1),
        (1 + below(MAX_STATES), 0),
        (1 + below(MAX_STATES), below(MAX_ROUNDS + 1)),
        (NO_LIMIT.0, below(needed + 1)),
        (1 + below(m), below(needed + 1)),
    ]
}

fn bad_limits(rng: &mut Rng) -> (u16, u16) {
    let l = rng.choose(&[0, 49, 256, 256 + 48, u16::MAX]);
    let r = rng.choose(&[48, 49, 256, u16::MAX]);
    rng.choose(&[(l, NO_LIMIT.1), (NO_LIMIT.0, r), (l, r)])
}

/// A short area beside a good one, and any two.
fn short_areas(rng: &mut Rng) -> [[u16; 2]; 3] {
    [
        [rng.choose(&SHORT_TABLE_AREAS), rng.choose(&SHEET_AREAS)],
        [rng.choose(&TABLE_AREAS), rng.choose(&SHORT_SHEET_AREAS)],
        any_areas(rng),
    ]
}

fn any_areas(rng: &mut Rng) -> [u16; 2] {
    [
        rng.choose(&[TABLE_AREAS, SHORT_TABLE_AREAS].concat()),
        rng.choose(&[SHEET_AREAS, SHORT_SHEET_AREAS].concat()),
    ]
}

#[cfg(test)]
mod tests {
    use super::*;
    use crate::compare::case::number_at;

    /// 577 rows of 58 cells. The paper has room for a column more, but no machine takes 47 rounds: a state with
    /// another one-letter output joins S in the same closing as the word before it.
    #[test]
    fn some_machine_fills_the_table() {
        let fills = |machine: &OwnedMachine| {
            let answer = Case::learn(&Lent::of(machine), NO_LIMIT, EXACT_AREAS, 0).answer();
            [0, 1, 2].map(|place| number_at(&answer, place)) == [48, 46, 577 * 58]
        };
        assert!(largest().iter().any(fills));
    }
}
