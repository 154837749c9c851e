//! Why two states of a machine are apart: the least word that they answer differently, by breadth first search over pairs of states.

use crate::machine::Machine;
use crate::refusal;
use crate::words;
use std::collections::{BTreeSet, VecDeque};

/// The area that the word is put into.
pub const WORD_BYTES: usize = 47;

/// The word's length, and its last output from each of the two states.
#[derive(Clone, Copy, Debug, PartialEq, Eq)]
pub struct Told {
    pub length: usize,
    pub first: u8,
    pub second: u8,
}

/// Machine first, then a state not below n, then the area. None where no word tells the two apart.
pub fn why_apart(
    words: &[u16],
    n: usize,
    k: usize,
    (s, t): (usize, usize),
    area: &mut [u8],
) -> Result<Option<Told>, u8> {
    let machine = Machine::lent(words, n, k)?;
    if s >= n || t >= n {
        return Err(refusal::NO_SUCH_STATE);
    }
    if area.len() < WORD_BYTES {
        return Err(refusal::SHEET_AREA);
    }
    Ok(least_word(&machine, s, t).map(|word| {
        area[..word.len()].copy_from_slice(&word);
        Told {
            length: word.len(),
            first: machine.last_output_from(s, &word),
            second: machine.last_output_from(t, &word),
        }
    }))
}

/// Words wait in the paper's order, each with the pair that it leads to first; so the first difference is the least.
fn least_word(machine: &Machine, s: usize, t: usize) -> Option<Vec<u8>> {
    let mut met = BTreeSet::from([(s, t)]);
    let mut waiting = VecDeque::from([(s, t, Vec::new())]);
    while let Some((s, t, word)) = waiting.pop_front() {
        for letter in machine.alphabet() {
            let longer = words::joined(&word, &[letter]);
            if machine.output(s, letter) != machine.output(t, letter) {
                return Some(longer);
            }
            let (s, t) = (machine.next(s, letter), machine.next(t, letter));
            if met.insert((s, t)) {
                waiting.push_back((s, t, longer));
            }
        }
    }
    None
}

#[cfg(test)]
mod tests {
    use super::*;
    use crate::generator::{self, Rng};
    use crate::machine::{transition, OwnedMachine};

    const M1: [u16; 8] = [256, 0, 512, 256, 1, 512, 769, 0];

    fn told(length: usize, first: u8, second: u8) -> Option<Told> {
        Some(Told {
            length,
            first,
            second,
        })
    }

    #[test]
    fn m1_by_hand() {
        let cases = [
            ((0, 2), told(1, 0, 1), &[0][..]),
            ((0, 1), told(2, 0, 1), &[0, 0]),
            ((3, 2), told(2, 1, 0), &[0, 0]),
            ((2, 2), None, &[]),
        ];
        for (states, answer, word) in cases {
            let mut area = [9; 48];
            assert_eq!(why_apart(&M1, 4, 2, states, &mut area), Ok(answer));
            assert_eq!(area[..word.len()], *word);
            assert!(area[word.len()..].iter().all(|&byte| byte == 9));
        }
    }

    #[test]
    fn refusals_keep_their_order_and_write_nothing() {
        let mut area = [9; 46];
        let cases = [
            (&M1[..7], (4, 4), 1),
            (&M1[..], (4, 0), 4),
            (&M1, (0, usize::MAX), 4),
            (&M1, (0, 2), 9),
            (&M1, (2, 2), 9),
        ];
        for (words, states, number) in cases {
            assert_eq!(why_apart(words, 4, 2, states, &mut area), Err(number));
        }
        assert_eq!(area, [9; 46]);
    }

    /// A counter: the states 0 and 1 of 48 need every one of the 47 bytes.
    #[test]
    fn the_longest_word_fills_the_area() {
        let words: Vec<u16> = (0..48)
            .map(|state| transition(u8::from(state == 47), (state + 1).min(47)))
            .collect();
        let mut area = [9; 47];
        assert_eq!(
            why_apart(&words, 48, 1, (0, 1), &mut area),
            Ok(told(47, 0, 1))
        );
        assert_eq!(area, [0; 47]);
    }

    /// Every word of fewer letters than there are states, one after the other.
    #[test]
    fn every_word_tried_in_order_agrees() {
        let mut rng = Rng::new(5);
        let mut none = 0;
        for _ in 0..300 {
            let (n, k) = (1 + rng.below(4), 1 + rng.below(2));
            let machine = OwnedMachine::build(n, k, |_, _| (rng.below(2) as u8, rng.below(n)));
            for (s, t) in (0..n).flat_map(|s| (0..n).map(move |t| (s, t))) {
                let mut area = [9; 47];
                let found = why_apart(&machine.words, n, k, (s, t), &mut area);
                let tried = by_trial(&machine, s, t);
                none += usize::from(tried.is_none() && s != t);
                let length = tried.as_ref().map(Vec::len);
                assert_eq!(found.map(|told| told.map(|told| told.length)), Ok(length));
                assert_eq!(area[..length.unwrap_or(0)], tried.unwrap_or_default());
            }
        }
        assert!(none > 9);
    }

    fn by_trial(machine: &OwnedMachine, s: usize, t: usize) -> Option<Vec<u8>> {
        let lent = machine.lend();
        let mut word = vec![0];
        while word.len() < machine.n {
            if lent.last_output_from(s, &word) != lent.last_output_from(t, &word) {
                return Some(word);
            }
            word = words::following(&word, machine.k);
        }
        None
    }

    #[test]
    fn generated_machines_have_both_answers() {
        let mut rng = Rng::new(1);
        let mut met = [false; 2];
        for number in 0..60 {
            let OwnedMachine { n, k, words } = generator::in_turn(number, &mut rng);
            let states = (rng.below(n), rng.below(n));
            let told = why_apart(&words, n, k, states, &mut [0; 47]).expect("a good machine");
            met[usize::from(told.is_some())] = true;
        }
        assert_eq!(met, [true; 2]);
    }
}
