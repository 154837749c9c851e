//! Another way to the paper's smallest model (reachable states, partition refinement) and product
//! searches for equality and least difference; all of it only serves to check the learner.

use crate::machine::{Machine, OwnedMachine};
use crate::sheets::NO_STATE;
use crate::words::{compare, joined};
use std::collections::{BTreeSet, HashMap};

/// The smallest model numbered by least words, with these words and the map from the machine's states.
pub struct Smallest {
    pub model: OwnedMachine,
    pub reaching_words: Vec<Vec<u8>>,
    pub state_map: Vec<u8>,
}

/// The least word to each state, or none for an unreachable one. Words are bettered until nothing
/// changes, so that only the order itself decides and not the way of searching.
fn least_words(machine: Machine<'_>) -> Vec<Option<Vec<u8>>> {
    let mut least: Vec<Option<Vec<u8>>> = vec![None; machine.states()];
    least[0] = Some(Vec::new());
    let mut changed = true;
    while changed {
        changed = false;
        for state in 0..machine.states() {
            for letter in machine.alphabet() {
                let Some(word) = &least[state] else { continue };
                let candidate = joined(word, &[letter]);
                let next = machine.next(state, letter);
                if is_better(&candidate, &least[next]) {
                    least[next] = Some(candidate);
                    changed = true;
                }
            }
        }
    }
    least
}

fn is_better(candidate: &[u8], present: &Option<Vec<u8>>) -> bool {
    match present {
        None => true,
        Some(word) => compare(candidate, word).is_lt(),
    }
}

/// The class of each state: two states share one exactly when they answer every word alike.
fn classes(machine: Machine<'_>) -> Vec<usize> {
    let mut class = vec![0; machine.states()];
    let mut count = 1;
    loop {
        let finer = refined(machine, &class);
        let finer_count = 1 + finer.iter().max().copied().unwrap_or(0);
        if finer_count == count {
            return class;
        }
        (class, count) = (finer, finer_count);
    }
}

/// Splits each class by the outputs and by the classes of the next states.
fn refined(machine: Machine<'_>, class: &[usize]) -> Vec<usize> {
    let mut numbers = HashMap::new();
    let mut finer = Vec::new();
    for state in 0..machine.states() {
        let steps: Vec<(u8, usize)> = machine
            .alphabet()
            .map(|letter| {
                let next = machine.next(state, letter);
                (machine.output(state, letter), class[next])
            })
            .collect();
        let fresh = numbers.len();
        finer.push(*numbers.entry((class[state], steps)).or_insert(fresh));
    }
    finer
}

/// The smallest model of a machine.
pub fn smallest(machine: Machine<'_>) -> Smallest {
    let words = least_words(machine);
    let class = classes(machine);
    let chosen = least_states(&words, &class);
    let number_of = |state: usize| {
        chosen
            .iter()
            .position(|&(other, _)| class[other] == class[state])
            .expect("a reachable state's class has a least state")
    };
    let model = OwnedMachine::build(chosen.len(), machine.letters(), |number, letter| {
        let state = chosen[number].0;
        let next = number_of(machine.next(state, letter));
        (machine.output(state, letter), next)
    });
    let state_map = words
        .iter()
        .enumerate()
        .map(|(state, word)| match word {
            Some(_) => number_of(state) as u8,
            None => NO_STATE,
        })
        .collect();
    let reaching_words = chosen.iter().map(|(_, word)| word.clone()).collect();
    Smallest {
        model,
        reaching_words,
        state_map,
    }
}

/// Whether a model answers every word as the machine does, with the fewest states.
pub fn is_smallest_model(model: Machine<'_>, machine: Machine<'_>) -> bool {
    equal(model, machine) && model.states() == size(machine)
}

/// How many states a smallest model has: the classes with a reachable state.
pub fn size(machine: Machine<'_>) -> usize {
    let class = classes(machine);
    let mut met = BTreeSet::from([0]);
    let mut waiting = vec![0];
    while let Some(state) = waiting.pop() {
        let nexts = machine.alphabet().map(|letter| machine.next(state, letter));
        waiting.extend(nexts.filter(|&next| met.insert(next)));
    }
    let classes: BTreeSet<usize> = met.into_iter().map(|state| class[state]).collect();
    classes.len()
}

/// For each class with a reachable state the state of least word, in the order of these words.
fn least_states(words: &[Option<Vec<u8>>], class: &[usize]) -> Vec<(usize, Vec<u8>)> {
    let mut reached: Vec<(usize, Vec<u8>)> = words
        .iter()
        .enumerate()
        .filter_map(|(state, word)| word.clone().map(|word| (state, word)))
        .collect();
    reached.sort_by(|left, right| compare(&left.1, &right.1));
    let mut met = BTreeSet::new();
    reached.retain(|&(state, _)| met.insert(class[state]));
    reached
}

/// Whether two machines answer every word alike.
pub fn equal(left: Machine<'_>, right: Machine<'_>) -> bool {
    left.letters() == right.letters() && equal_from(left, right, (0, 0))
}

/// Whether two machines over the same letters answer every word alike from the given states: looks at every
/// pair of states met together.
pub fn equal_from(left: Machine<'_>, right: Machine<'_>, pair: (usize, usize)) -> bool {
    let mut is_met = vec![vec![false; right.states()]; left.states()];
    is_met[pair.0][pair.1] = true;
    let mut waiting = vec![pair];
    while let Some((of_left, of_right)) = waiting.pop() {
        for letter in left.alphabet() {
            if left.output(of_left, letter) != right.output(of_right, letter) {
                return false;
            }
            let pair = (left.next(of_left, letter), right.next(of_right, letter));
            if !is_met[pair.0][pair.1] {
                is_met[pair.0][pair.1] = true;
                waiting.push(pair);
            }
        }
    }
    true
}

/// The least word two machines over the same letters answer differently, or none. Found from behind:
/// each pair of states learns how many letters its nearest difference takes, then the start goes there
/// by the lowest letter that comes nearer.
pub fn least_difference(left: Machine<'_>, right: Machine<'_>) -> Option<Vec<u8>> {
    let distance = distances(left, right);
    let mut remaining = distance[0][0]?;
    let mut pair = (0, 0);
    let mut word = Vec::new();
    while remaining > 1 {
        let nearer = |letter: &u8| {
            let (of_left, of_right) = next_pair(left, right, pair, *letter);
            distance[of_left][of_right] == Some(remaining - 1)
        };
        let letter = left.alphabet().find(nearer)?;
        word.push(letter);
        pair = next_pair(left, right, pair, letter);
        remaining -= 1;
    }
    word.push(
        left.alphabet()
            .find(|&letter| outputs_differ(left, right, pair, letter))?,
    );
    Some(word)
}

fn next_pair(
    left: Machine<'_>,
    right: Machine<'_>,
    pair: (usize, usize),
    letter: u8,
) -> (usize, usize) {
    (left.next(pair.0, letter), right.next(pair.1, letter))
}

fn outputs_differ(left: Machine<'_>, right: Machine<'_>, pair: (usize, usize), letter: u8) -> bool {
    left.output(pair.0, letter) != right.output(pair.1, letter)
}

/// For each pair of states the letters of the shortest word they answer differently, if there is one.
fn distances(left: Machine<'_>, right: Machine<'_>) -> Vec<Vec<Option<usize>>> {
    let mut distance = vec![vec![None; right.states()]; left.states()];
    let mut length = 0;
    let mut changed = true;
    while changed {
        changed = false;
        length += 1;
        for of_left in 0..left.states() {
            for of_right in 0..right.states() {
                let pair = (of_left, of_right);
                let differs_now = |letter: u8| {
                    let (next_left, next_right) = next_pair(left, right, pair, letter);
                    if length == 1 {
                        outputs_differ(left, right, pair, letter)
                    } else {
                        distance[next_left][next_right] == Some(length - 1)
                    }
                };
                if distance[of_left][of_right].is_none() && left.alphabet().any(differs_now) {
                    distance[of_left][of_right] = Some(length);
                    changed = true;
                }
            }
        }
    }
    distance
}

#[cfg(test)]
mod tests {
    use super::*;
    use crate::machine::transition;

    #[test]
    fn unreachable_states_do_not_count() {
        let words = [transition(5, 0), transition(6, 0)];
        let machine = Machine::lent(&words, 2, 1).unwrap();
        let smallest = smallest(machine);
        assert_eq!(smallest.model.words, [5]);
        assert_eq!(smallest.state_map, [0, NO_STATE]);
        assert!(equal(machine, smallest.model.lend()));
    }

    #[test]
    fn a_late_difference_keeps_states_apart() {
        let words = [transition(0, 1), transition(0, 2), transition(1, 0)];
        let machine = Machine::lent(&words, 3, 1).unwrap();
        let other = [transition(0, 1), transition(0, 2), transition(2, 0)];
        assert_eq!(smallest(machine).model.words, words);
        let other = Machine::lent(&other, 3, 1).unwrap();
        assert!(!equal(machine, other));
        assert_eq!(least_difference(machine, other), Some(vec![0, 0, 0]));
        assert_eq!(least_difference(machine, machine), None);
    }
}
