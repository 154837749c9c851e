//! The paper's "The machine": lent 16-bit words, their check, running a word, and the question.

use crate::refusal;

pub const MAX_STATES: usize = 48;
pub const MAX_LETTERS: usize = 12;
/// The word area a reader asks for: room for the largest machine.
pub const WORD_AREA: usize = MAX_STATES * MAX_LETTERS;

/// A lent machine that has passed its check, so that every step of a run is safe.
#[derive(Clone, Copy, Debug)]
pub struct Machine<'a> {
    words: &'a [u16],
    n: usize,
    k: usize,
}

/// A machine with words of its own: conjectures, models and generated machines.
#[derive(Clone, Debug, PartialEq, Eq)]
pub struct OwnedMachine {
    pub n: usize,
    pub k: usize,
    pub words: Vec<u16>,
}

/// The 16-bit word of one transition: 256 times the next state plus the output.
pub fn transition(output: u8, next: usize) -> u16 {
    256 * next as u16 + u16::from(output)
}

/// The check of lent words: 3, then 1 or 5, then 4. The product n·k is formed only after 3.
pub fn check(words: &[u16], n: usize, k: usize) -> Result<(), u8> {
    if !(1..=MAX_STATES).contains(&n) || !(1..=MAX_LETTERS).contains(&k) {
        return Err(refusal::COUNT_OUT_OF_RANGE);
    }
    if words.len() < n * k {
        return Err(refusal::ENDS_EARLY);
    }
    if words.len() > n * k {
        return Err(refusal::LEFT_OVER);
    }
    if words.iter().any(|&word| next_of(word) >= n) {
        return Err(refusal::NO_SUCH_STATE);
    }
    Ok(())
}

/// The question as a caller puts it: machine first, then 6 for the empty word or a letter not below k.
pub fn question(words: &[u16], n: usize, k: usize, word: &[u8]) -> Result<u8, u8> {
    let machine = Machine::lent(words, n, k)?;
    if word.is_empty() || word.iter().any(|&letter| usize::from(letter) >= k) {
        return Err(refusal::LENGTH_OR_LETTER);
    }
    Ok(machine.ask(word))
}

fn next_of(word: u16) -> usize {
    usize::from(word >> 8)
}

fn output_of(word: u16) -> u8 {
    (word & 0xFF) as u8
}

impl<'a> Machine<'a> {
    /// Takes lent words after their check.
    pub fn lent(words: &'a [u16], n: usize, k: usize) -> Result<Self, u8> {
        check(words, n, k)?;
        Ok(Machine { words, n, k })
    }

    pub fn states(&self) -> usize {
        self.n
    }

    pub fn letters(&self) -> usize {
        self.k
    }

    pub fn words(&self) -> &'a [u16] {
        self.words
    }

    pub fn next(&self, state: usize, letter: u8) -> usize {
        next_of(self.word_at(state, letter))
    }

    pub fn output(&self, state: usize, letter: u8) -> u8 {
        output_of(self.word_at(state, letter))
    }

    /// The letters in order, in the type they have inside words.
    pub fn alphabet(&self) -> std::ops::Range<u8> {
        0..self.k as u8
    }

    /// The state a word leads to from the start.
    pub fn state_after(&self, word: &[u8]) -> usize {
        word.iter()
            .fold(0, |state, &letter| self.next(state, letter))
    }

    /// The last output of a word from the given state; the word has at least one letter.
    pub fn last_output_from(&self, state: usize, word: &[u8]) -> u8 {
        let (&last, before) = word.split_last().expect("the empty word puts no question");
        let state = before
            .iter()
            .fold(state, |state, &letter| self.next(state, letter));
        self.output(state, last)
    }

    /// The answer to a word: the output at each letter.
    pub fn run(&self, word: &[u8]) -> Vec<u8> {
        let mut state = 0;
        let mut outputs = Vec::new();
        for &letter in word {
            outputs.push(self.output(state, letter));
            state = self.next(state, letter);
        }
        outputs
    }

    /// A question whose word is known to be good.
    pub fn ask(&self, word: &[u8]) -> u8 {
        self.last_output_from(0, word)
    }

    fn word_at(&self, state: usize, letter: u8) -> u16 {
        self.words[state * self.k + usize::from(letter)]
    }
}

impl OwnedMachine {
    /// Builds a machine from what each state does on each letter, as (output, next).
    pub fn build(n: usize, k: usize, mut step: impl FnMut(usize, u8) -> (u8, usize)) -> Self {
        let mut words = Vec::with_capacity(n * k);
        for state in 0..n {
            for letter in 0..k as u8 {
                let (output, next) = step(state, letter);
                words.push(transition(output, next));
            }
        }
        OwnedMachine { n, k, words }
    }

    pub fn lend(&self) -> Machine<'_> {
        Machine::lent(&self.words, self.n, self.k).expect("an own machine is always in range")
    }
}

#[cfg(test)]
mod tests {
    use super::*;

    #[test]
    fn the_check_keeps_its_order() {
        let bad_next = [transition(0, 1)];
        assert_eq!(check(&bad_next, 0, 1), Err(3));
        assert_eq!(check(&bad_next, 1, 13), Err(3));
        assert_eq!(check(&bad_next, usize::MAX, usize::MAX), Err(3));
        assert_eq!(check(&bad_next, 1, 2), Err(1));
        assert_eq!(check(&[256, 256], 1, 1), Err(5));
        assert_eq!(check(&bad_next, 1, 1), Err(4));
        assert_eq!(check(&[255], 1, 1), Ok(()));
    }

    #[test]
    fn the_question_asks_the_machine_first() {
        assert_eq!(question(&[256], 1, 1, &[]), Err(4));
        assert_eq!(question(&[7], 1, 1, &[]), Err(6));
        assert_eq!(question(&[7], 1, 1, &[0, 1]), Err(6));
        assert_eq!(question(&[7], 1, 1, &[0, 0]), Ok(7));
    }
}
