//! The paper's "Table, rounds and stop": rules 1 to 6 at every L and R, and what the learner leaves
//! in the table area and the sheet area.

use crate::machine::{Machine, OwnedMachine, MAX_STATES};
use crate::refusal;
use crate::sheets::{self, MAX_COLUMNS};
use crate::words::joined;
use std::collections::VecDeque;

pub const MAX_ROUNDS: usize = 47;
pub const MAX_ROWS: usize = 577;
pub const TABLE_AREA: usize = MAX_ROWS * MAX_COLUMNS;

/// Done and Open each give the words in S, the rounds past, the cells, and the bytes written to the
/// sheet area.
#[derive(Clone, Copy, Debug, PartialEq, Eq)]
pub enum Answer {
    Done {
        states: usize,
        rounds: usize,
        cells: usize,
        bytes: usize,
    },
    Open {
        states: usize,
        rounds: usize,
        cells: usize,
        bytes: usize,
    },
    Refused(u8),
}

/// Learns the lent machine with state limit `l` and at most `r` rounds.
pub fn learn(
    words: &[u16],
    n: usize,
    k: usize,
    l: usize,
    r: usize,
    table: &mut [u8],
    sheet: &mut [u8],
) -> Answer {
    if !limits_in_range(l, r) {
        return Answer::Refused(refusal::LIMIT_OUT_OF_RANGE);
    }
    let machine = match Machine::lent(words, n, k) {
        Ok(machine) => machine,
        Err(number) => return Answer::Refused(number),
    };
    if table.len() < TABLE_AREA {
        return Answer::Refused(refusal::TABLE_OR_WORD_AREA);
    }
    if sheet.len() < sheets::PROOF_SHEET_AREA {
        return Answer::Refused(refusal::SHEET_AREA);
    }
    learn_machine(machine, l, r, table, sheet)
}

fn limits_in_range(l: usize, r: usize) -> bool {
    (1..=MAX_STATES).contains(&l) && r <= MAX_ROUNDS
}

/// The rounds, once nothing but 10 can be refused any more.
fn learn_machine(
    machine: Machine<'_>,
    l: usize,
    r: usize,
    table_area: &mut [u8],
    sheet_area: &mut [u8],
) -> Answer {
    // The table sees the machine only through this question.
    let question = |word: &[u8]| machine.ask(word);
    let mut table = Table::start(machine.letters(), &question);
    let mut rounds = 0;
    loop {
        table.close();
        if table.states() > l {
            table_area[..TABLE_AREA].fill(0);
            return Answer::Refused(refusal::TOO_MANY_STATES);
        }
        let conjecture = table.conjecture();
        match least_counterexample(machine, conjecture.lend()) {
            None => {
                table.leave_cells(table_area);
                let proof = finished_sheet(machine, conjecture.lend(), &table.columns);
                return Answer::Done {
                    states: table.states(),
                    rounds,
                    cells: table.cells(),
                    bytes: put(sheet_area, &proof),
                };
            }
            Some(counterexample) if rounds == r => {
                table.leave_cells(table_area);
                return Answer::Open {
                    states: table.states(),
                    rounds,
                    cells: table.cells(),
                    bytes: put(sheet_area, &sheets::open_sheet(&counterexample)),
                };
            }
            Some(counterexample) => {
                let column = table.telling_suffix(conjecture.lend(), &counterexample);
                table.add_column(column);
                rounds += 1;
            }
        }
    }
}

/// Sets the bytes at the start of an area, leaves the rest, and gives their number.
fn put(area: &mut [u8], bytes: &[u8]) -> usize {
    area[..bytes.len()].copy_from_slice(bytes);
    bytes.len()
}

struct Row {
    word: Vec<u8>,
    cells: Vec<u8>,
}

/// Rules 1 to 4 and 6. The words of S are rows themselves, so S is kept as row numbers.
struct Table<'a> {
    question: &'a dyn Fn(&[u8]) -> u8,
    k: usize,
    rows: Vec<Row>,
    s: Vec<usize>,
    columns: Vec<Vec<u8>>,
}

impl<'a> Table<'a> {
    /// Rule 1: S is the empty word alone, the columns are the one-letter words.
    fn start(k: usize, question: &'a dyn Fn(&[u8]) -> u8) -> Self {
        let mut table = Table {
            question,
            k,
            rows: Vec::new(),
            s: Vec::new(),
            columns: (0..k as u8).map(|letter| vec![letter]).collect(),
        };
        table.add_row(Vec::new());
        table.append_to_s(0);
        table
    }

    fn states(&self) -> usize {
        self.s.len()
    }

    fn cells(&self) -> usize {
        self.rows.len() * self.columns.len()
    }

    fn word_of(&self, state: usize) -> &[u8] {
        &self.rows[self.s[state]].word
    }

    fn add_row(&mut self, word: Vec<u8>) {
        let cells = self
            .columns
            .iter()
            .map(|column| (self.question)(&joined(&word, column)))
            .collect();
        self.rows.push(Row { word, cells });
    }

    /// Rule 2: the word's k rows come right after those of the words before it in S.
    fn append_to_s(&mut self, row: usize) {
        self.s.push(row);
        for letter in 0..self.k as u8 {
            self.add_row(joined(&self.rows[row].word, &[letter]));
        }
    }

    /// The word of S, by its place in S, that has the same cells as the row.
    fn state_like(&self, row: usize) -> Option<usize> {
        self.s
            .iter()
            .position(|&of_s| self.rows[of_s].cells == self.rows[row].cells)
    }

    /// Rule 3: after each word appended to S the search begins again at row 1.
    fn close(&mut self) {
        while let Some(row) = (1..self.rows.len()).find(|&row| self.state_like(row).is_none()) {
            self.append_to_s(row);
        }
    }

    /// Rule 4, for a closed table.
    fn conjecture(&self) -> OwnedMachine {
        OwnedMachine::build(self.states(), self.k, |state, letter| {
            let row = 1 + state * self.k + usize::from(letter);
            let next = self.state_like(row).expect("the table is closed");
            ((self.question)(&self.rows[row].word), next)
        })
    }

    /// Rule 6: the suffix by which the counterexample tells two words of S with equal rows apart.
    /// The answers at 0 to m-1 are asked; at m nothing would be kept of the counterexample.
    fn telling_suffix(&self, conjecture: Machine<'_>, counterexample: &[u8]) -> Vec<u8> {
        let answer = |i: usize| {
            let (start, rest) = counterexample.split_at(i);
            let state = conjecture.state_after(start);
            (self.question)(&joined(self.word_of(state), rest))
        };
        let i = (0..counterexample.len() - 1)
            .find(|&i| answer(i) != answer(i + 1))
            .expect("the first answer is the machine's, the last one the conjecture's");
        counterexample[i + 1..].to_vec()
    }

    fn add_column(&mut self, column: Vec<u8>) {
        for row in &mut self.rows {
            row.cells.push((self.question)(&joined(&row.word, &column)));
        }
        self.columns.push(column);
    }

    /// The cells in the table area, the other bytes of its first 34,043 zero.
    fn leave_cells(&self, area: &mut [u8]) {
        area[..TABLE_AREA].fill(0);
        for (number, row) in self.rows.iter().enumerate() {
            // The distance from one row to the next is the same whatever k is.
            put(&mut area[number * MAX_COLUMNS..], &row.cells);
        }
    }
}

/// Rule 5: breadth first over pairs of states. Pairs are met in the order of their least words, so the
/// first difference found ends the least counterexample.
fn least_counterexample(machine: Machine<'_>, conjecture: Machine<'_>) -> Option<Vec<u8>> {
    let mut seen = vec![vec![false; conjecture.states()]; machine.states()];
    let mut queue = VecDeque::from([(0, 0, Vec::new())]);
    seen[0][0] = true;
    while let Some((of_machine, of_conjecture, word)) = queue.pop_front() {
        for letter in machine.alphabet() {
            let longer = joined(&word, &[letter]);
            if machine.output(of_machine, letter) != conjecture.output(of_conjecture, letter) {
                return Some(longer);
            }
            let next = machine.next(of_machine, letter);
            let image = conjecture.next(of_conjecture, letter);
            if !seen[next][image] {
                seen[next][image] = true;
                queue.push_back((next, image, longer));
            }
        }
    }
    None
}

/// The reachable states, each with its least word, in the order of these words.
fn reached_in_order(machine: Machine<'_>) -> Vec<(usize, Vec<u8>)> {
    let mut reached = vec![(0, Vec::new())];
    let mut seen = vec![false; machine.states()];
    seen[0] = true;
    let mut at = 0;
    while at < reached.len() {
        let (state, word) = reached[at].clone();
        for letter in machine.alphabet() {
            let next = machine.next(state, letter);
            if !seen[next] {
                seen[next] = true;
                reached.push((next, joined(&word, &[letter])));
            }
        }
        at += 1;
    }
    reached
}

/// The proof sheet at Done: the conjecture numbered anew by least words instead of S's order.
pub(crate) fn finished_sheet(
    machine: Machine<'_>,
    conjecture: Machine<'_>,
    columns: &[Vec<u8>],
) -> Vec<u8> {
    let (old_numbers, reaching_words): (Vec<usize>, Vec<Vec<u8>>) =
        reached_in_order(conjecture).into_iter().unzip();
    let model = renumbered(conjecture, &old_numbers);
    let state_map = state_map(machine, model.lend());
    sheets::proof_sheet(model.lend(), &reaching_words, columns, &state_map)
}

/// The machine whose state i is the old state at place i of the list; the list holds every reachable state.
fn renumbered(machine: Machine<'_>, old_numbers: &[usize]) -> OwnedMachine {
    let mut new_numbers = vec![0; machine.states()];
    for (new, &old) in old_numbers.iter().enumerate() {
        new_numbers[old] = new;
    }
    OwnedMachine::build(old_numbers.len(), machine.letters(), |state, letter| {
        let old = old_numbers[state];
        let next = new_numbers[machine.next(old, letter)];
        (machine.output(old, letter), next)
    })
}

/// The model state of each reachable machine state, 255 for the others.
fn state_map(machine: Machine<'_>, model: Machine<'_>) -> Vec<u8> {
    let mut map = vec![sheets::NO_STATE; machine.states()];
    for (state, word) in reached_in_order(machine) {
        map[state] = model.state_after(&word) as u8;
    }
    map
}

#[cfg(test)]
mod tests {
    use super::*;
    use crate::generator::{self, Kind, Rng};
    use crate::words::{compare, following};
    use std::cmp::Ordering;

    /// Tries all words in order. Two machines of a and b states that differ do so within a + b letters.
    fn least_by_trying(left: Machine<'_>, right: Machine<'_>) -> Option<Vec<u8>> {
        let mut word = vec![0];
        while word.len() <= left.states() + right.states() {
            if left.run(&word) != right.run(&word) {
                return Some(word);
            }
            word = following(&word, left.letters());
        }
        None
    }

    fn rows_follow_rule_2(table: &Table<'_>, machine: Machine<'_>) {
        assert_eq!(table.rows.len(), 1 + table.states() * table.k);
        assert_eq!(table.rows[0].word, []);
        for state in 0..table.states() {
            for letter in machine.alphabet() {
                let row = &table.rows[1 + state * table.k + usize::from(letter)];
                assert_eq!(row.word, joined(table.word_of(state), &[letter]));
            }
        }
        for row in &table.rows {
            for (cell, column) in row.cells.iter().zip(&table.columns) {
                assert_eq!(*cell, machine.ask(&joined(&row.word, column)));
            }
            assert_eq!(row.cells.len(), table.columns.len());
        }
    }

    fn counterexample_follows_rule_5(
        machine: Machine<'_>,
        conjecture: Machine<'_>,
        word: &Option<Vec<u8>>,
    ) {
        assert_eq!(*word, least_by_trying(machine, conjecture));
        if let Some(word) = word {
            assert!(word.len() >= 2);
            let before = &word[..word.len() - 1];
            assert_eq!(machine.run(before), conjecture.run(before));
        }
    }

    /// Learns step by step and looks at table, conjecture and counterexample after each closing.
    fn watch(machine: Machine<'_>) {
        let question = |word: &[u8]| machine.ask(word);
        let mut table = Table::start(machine.letters(), &question);
        let mut states_before = 0;
        loop {
            table.close();
            assert!(table.states() > states_before, "a round adds a state");
            states_before = table.states();
            rows_follow_rule_2(&table, machine);
            let conjecture = table.conjecture();
            for state in 0..table.states() {
                assert_eq!(conjecture.lend().state_after(table.word_of(state)), state);
            }
            let counterexample = least_counterexample(machine, conjecture.lend());
            counterexample_follows_rule_5(machine, conjecture.lend(), &counterexample);
            let Some(counterexample) = counterexample else {
                return;
            };
            let column = table.telling_suffix(conjecture.lend(), &counterexample);
            assert!(!column.is_empty() && !table.columns.contains(&column));
            table.add_column(column);
        }
    }

    /// Every machine of n states and k letters with outputs 0 and 1.
    fn watch_all(n: usize, k: usize) {
        let choices = 2 * n;
        for code in 0..choices.pow((n * k) as u32) {
            let mut rest = code;
            let machine = OwnedMachine::build(n, k, |_, _| {
                let choice = rest % choices;
                rest /= choices;
                ((choice % 2) as u8, choice / 2)
            });
            watch(machine.lend());
        }
    }

    #[test]
    fn every_small_machine_follows_the_rules() {
        watch_all(1, 1);
        watch_all(1, 3);
        watch_all(2, 1);
        watch_all(2, 2);
        watch_all(3, 1);
        watch_all(4, 1);
    }

    #[test]
    fn tiny_machines_follow_the_rules() {
        let mut rng = Rng::new(11);
        for _ in 0..500 {
            watch(generator::machine(Kind::Tiny, &mut rng).lend());
        }
    }

    /// The greatest number of changes among the answers of rule 6 in any round.
    fn most_changes(machine: Machine<'_>) -> usize {
        let question = |word: &[u8]| machine.ask(word);
        let mut table = Table::start(machine.letters(), &question);
        let mut most = 0;
        loop {
            table.close();
            let conjecture = table.conjecture();
            let Some(word) = least_counterexample(machine, conjecture.lend()) else {
                return most;
            };
            let answer = |i: usize| {
                let state = conjecture.lend().state_after(&word[..i]);
                machine.ask(&joined(table.word_of(state), &word[i..]))
            };
            let changes = (1..word.len()).filter(|&i| answer(i - 1) != answer(i));
            most = most.max(changes.count());
            let column = table.telling_suffix(conjecture.lend(), &word);
            table.add_column(column);
        }
    }

    #[test]
    fn the_least_change_matters_in_some_machines() {
        for number in 0..3 {
            assert!(most_changes(generator::several_changes(number).lend()) > 1);
        }
    }

    #[test]
    fn reached_states_come_by_rising_words() {
        let mut rng = Rng::new(12);
        for kind in Kind::ALL {
            let machine = generator::machine(kind, &mut rng);
            let reached = reached_in_order(machine.lend());
            for pair in reached.windows(2) {
                assert_eq!(compare(&pair[0].1, &pair[1].1), Ordering::Less);
            }
            for (state, word) in reached {
                assert_eq!(machine.lend().state_after(&word), state);
            }
        }
    }
}
