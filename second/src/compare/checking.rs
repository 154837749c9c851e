//! The checker's cases: the learner's sheets, sheets changed part by part, sheets of other machines, and
//! damaged bytes.

use super::case::{Case, Lent};
use super::lent::{bad_machines, damaged, every_small_damage, m1, proof_sheet};
use crate::cases;
use crate::generator::{self, Kind, Rng};
use crate::learner;
use crate::machine::{transition, OwnedMachine, MAX_LETTERS, MAX_STATES};
use crate::minimise;
use crate::sheets::{self, MAX_COLUMNS, NO_STATE};

/// How often the bytes of a generated machine's sheets are damaged.
const DAMAGES: usize = 12;
/// How many sheets have several changes.
const MIXED: usize = 6;
const LONGEST_REACHING_WORD: usize = *sheets::REACHING_LENGTHS.end();
const LONGEST_COLUMN: usize = *sheets::COLUMN_LENGTHS.end();

/// The cases that no seed changes: the paper's sheets about M1, every small damage of its proof sheet, bad
/// machines together with good and bad sheets, and the longest sheet.
pub fn fixed(give: &mut dyn FnMut(Case)) {
    let machine = Lent::of(&m1());
    for (_, _, sheet) in cases::checked_sheets() {
        give(Case::check(&machine, sheet));
    }
    every_small_damage(&cases::m1_proof(), |sheet| {
        give(Case::check(&machine, sheet))
    });
    let mut rng = Rng::new(0);
    for bad in bad_machines(&m1(), &mut rng) {
        give(Case::check(&bad, cases::m1_proof()));
        give(Case::check(&bad, Vec::new()));
    }
    let (machine, longest) = longest();
    for _ in 0..4 {
        changed_sheets(&machine, &longest, &mut rng, give);
    }
}

/// The cases of one generated machine.
pub fn generated(machine: &OwnedMachine, rng: &mut Rng, give: &mut dyn FnMut(Case)) {
    let lent = Lent::of(machine);
    let learnt = Parts::of(&proof_sheet(machine));
    changed_sheets(machine, &learnt, rng, give);
    for other in other_machines(machine, rng) {
        give(Case::check(&Lent::of(&other), learnt.sheet()));
        give(Case::check(&lent, proof_sheet(&other)));
    }
    let bad = bad_machines(machine, rng);
    give(Case::check(&rng.choose(&bad), learnt.sheet()));
    let sheet = damaged(&learnt.sheet(), rng);
    give(Case::check(&rng.choose(&bad), sheet));
}

/// A good sheet itself, then changed part by part and byte by byte.
fn changed_sheets(machine: &OwnedMachine, good: &Parts, rng: &mut Rng, give: &mut dyn FnMut(Case)) {
    let lent = Lent::of(machine);
    give(Case::check(&lent, good.sheet()));
    for change in CHANGES {
        give(Case::check(&lent, change(good, machine, rng).sheet()));
    }
    for _ in 0..MIXED {
        give(Case::check(&lent, mixed(good, machine, rng).sheet()));
    }
    for _ in 0..DAMAGES {
        let sheet = if rng.once_in(2) {
            good.sheet()
        } else {
            mixed(good, machine, rng).sheet()
        };
        give(Case::check(&lent, damaged(&sheet, rng)));
    }
}

/// The longest proof sheet that there is, 9,368 bytes, with its machine: most states, letters and columns, and
/// every word as long as may be. State 47 of the ring is odd, so t letters 0 tell the state 48 - t from all
/// others; letter 1 stays, and fills the words up. Only the last column tells state 1 from 0.
fn longest() -> (OwnedMachine, Parts) {
    let machine = generator::great_ring(MAX_LETTERS, MAX_STATES - 1);
    let filled = |zeros: usize, length: usize| [vec![1; length - zeros], vec![0; zeros]].concat();
    let states = 0..MAX_STATES;
    let reaching_words = states
        .clone()
        .map(|state| filled(state, LONGEST_REACHING_WORD));
    // 47 columns are enough, so the first one stands there several times.
    let spare = MAX_COLUMNS - (MAX_STATES - 1);
    let columns = (0..MAX_COLUMNS).map(|column| {
        let zeros = (column + 1).saturating_sub(spare).max(1);
        filled(zeros, LONGEST_COLUMN)
    });
    let parts = Parts {
        model: machine.clone(),
        reaching_words: reaching_words.collect(),
        columns: columns.collect(),
        state_map: states.map(|state| state as u8).collect(),
    };
    (machine, parts)
}

/// A proof sheet's parts, to be changed and written again.
#[derive(Clone, Debug)]
struct Parts {
    model: OwnedMachine,
    reaching_words: Vec<Vec<u8>>,
    columns: Vec<Vec<u8>>,
    state_map: Vec<u8>,
}

impl Parts {
    fn of(sheet: &[u8]) -> Parts {
        let proof = sheets::parse_proof_sheet(sheet).expect("a sheet that can be read");
        let owned = |words: &[&[u8]]| words.iter().map(|word| word.to_vec()).collect();
        Parts {
            reaching_words: owned(&proof.reaching_words),
            columns: owned(&proof.columns),
            state_map: proof.state_map.to_vec(),
            model: proof.model,
        }
    }

    fn sheet(&self) -> Vec<u8> {
        sheets::proof_sheet(
            self.model.lend(),
            &self.reaching_words,
            &self.columns,
            &self.state_map,
        )
    }
}

/// A change of a sheet for the given machine.
type Change = fn(&Parts, &OwnedMachine, &mut Rng) -> Parts;

const CHANGES: [Change; 13] = [
    renumbered,
    with_another_start,
    with_a_column_dropped,
    with_columns_dropped,
    with_a_column_duplicated,
    with_columns_permuted,
    with_other_columns,
    with_longer_reaching_words,
    with_another_reaching_word,
    with_another_map,
    with_unreachable_states_mapped,
    with_another_transition,
    with_equal_states,
];

/// Two to four changes, one after the other.
fn mixed(parts: &Parts, machine: &OwnedMachine, rng: &mut Rng) -> Parts {
    let mut changed = parts.clone();
    for _ in 0..2 + rng.below(3) {
        changed = rng.choose(&CHANGES)(&changed, machine, rng);
    }
    changed
}

/// The model's states under other numbers; the start keeps its number, so that the sheet stays good.
fn renumbered(parts: &Parts, _: &OwnedMachine, rng: &mut Rng) -> Parts {
    let mut old_of: Vec<usize> = (0..parts.model.n).collect();
    rng.shuffle(&mut old_of[1..]);
    under_numbers(parts, &old_of)
}

/// As before, and the start's number goes to any state.
fn with_another_start(parts: &Parts, _: &OwnedMachine, rng: &mut Rng) -> Parts {
    let mut old_of: Vec<usize> = (0..parts.model.n).collect();
    rng.shuffle(&mut old_of);
    under_numbers(parts, &old_of)
}

fn under_numbers(parts: &Parts, old_of: &[usize]) -> Parts {
    let mut new_of = vec![NO_STATE; 256];
    for (new, &old) in old_of.iter().enumerate() {
        new_of[old] = new as u8;
    }
    let model = parts.model.lend();
    let words = old_of.iter().map(|&old| parts.reaching_words[old].clone());
    let images = parts.state_map.iter();
    Parts {
        model: OwnedMachine::build(old_of.len(), parts.model.k, |state, letter| {
            let next = model.next(old_of[state], letter);
            let output = model.output(old_of[state], letter);
            (output, usize::from(new_of[next]))
        }),
        reaching_words: words.collect(),
        columns: parts.columns.clone(),
        state_map: images.map(|&old| new_of[usize::from(old)]).collect(),
    }
}

fn with_a_column_dropped(parts: &Parts, _: &OwnedMachine, rng: &mut Rng) -> Parts {
    let mut changed = parts.clone();
    if !changed.columns.is_empty() {
        changed.columns.remove(rng.below(parts.columns.len()));
    }
    changed
}

/// A random part of the columns stays, often none at all.
fn with_columns_dropped(parts: &Parts, _: &OwnedMachine, rng: &mut Rng) -> Parts {
    let mut changed = parts.clone();
    let rarity = rng.choose(&[1, 2, 4]);
    changed.columns.retain(|_| !rng.once_in(rarity));
    changed
}

fn with_a_column_duplicated(parts: &Parts, _: &OwnedMachine, rng: &mut Rng) -> Parts {
    let mut changed = parts.clone();
    let count = changed.columns.len();
    if (1..MAX_COLUMNS).contains(&count) {
        let column = rng.choose(&changed.columns);
        changed.columns.insert(rng.below(count + 1), column);
    }
    changed
}

fn with_columns_permuted(parts: &Parts, _: &OwnedMachine, rng: &mut Rng) -> Parts {
    let mut changed = parts.clone();
    rng.shuffle(&mut changed.columns);
    changed
}

/// Random columns, short ones and the longest.
fn with_other_columns(parts: &Parts, _: &OwnedMachine, rng: &mut Rng) -> Parts {
    let mut changed = parts.clone();
    let longest = rng.choose(&[2, 8, LONGEST_COLUMN]);
    let count = rng.below(MAX_COLUMNS + 1);
    changed.columns = (0..count)
        .map(|_| {
            let length = 1 + rng.below(longest);
            rng.letters(length, parts.model.k)
        })
        .collect();
    changed
}

/// Random words stand for whichever states they lead to, so that most are longer than the least.
fn with_longer_reaching_words(parts: &Parts, _: &OwnedMachine, rng: &mut Rng) -> Parts {
    let mut changed = parts.clone();
    let model = parts.model.lend();
    for _ in 0..parts.model.n {
        let length = rng.below(LONGEST_REACHING_WORD + 1);
        let word = rng.letters(length, parts.model.k);
        let state = model.state_after(&word);
        changed.reaching_words[state] = word;
    }
    changed
}

fn with_another_reaching_word(parts: &Parts, _: &OwnedMachine, rng: &mut Rng) -> Parts {
    let mut changed = parts.clone();
    let length = rng.below(LONGEST_REACHING_WORD + 1);
    let word = rng.letters(length, parts.model.k);
    changed.reaching_words[rng.below(parts.model.n)] = word;
    changed
}

/// One state has any other image, or none.
fn with_another_map(parts: &Parts, _: &OwnedMachine, rng: &mut Rng) -> Parts {
    let mut changed = parts.clone();
    let image = if rng.once_in(2) {
        NO_STATE
    } else {
        rng.below(parts.model.n) as u8
    };
    changed.state_map[rng.below(parts.state_map.len())] = image;
    changed
}

/// Each unreachable state that has an equal one in the model gets it as its image: the sheet stays good.
fn with_unreachable_states_mapped(parts: &Parts, machine: &OwnedMachine, _: &mut Rng) -> Parts {
    let mut changed = parts.clone();
    let (machine, model) = (machine.lend(), parts.model.lend());
    for (state, image) in changed.state_map.iter_mut().enumerate() {
        let is_equal = |&other: &usize| minimise::equal_from(machine, model, (state, other));
        if let (NO_STATE, Some(equal)) = (*image, (0..parts.model.n).find(is_equal)) {
            *image = equal as u8;
        }
    }
    changed
}

fn with_another_transition(parts: &Parts, _: &OwnedMachine, rng: &mut Rng) -> Parts {
    Parts {
        model: with_word_changed(&parts.model, rng),
        ..parts.clone()
    }
}

/// The sheet of a learner that takes the machine itself for its model: equal states are not told apart.
fn with_equal_states(parts: &Parts, machine: &OwnedMachine, _: &mut Rng) -> Parts {
    let (machine, columns) = (machine.lend(), &parts.columns);
    Parts::of(&learner::finished_sheet(machine, machine, columns))
}

/// A copy that has one transition with another output or another next state.
fn with_word_changed(machine: &OwnedMachine, rng: &mut Rng) -> OwnedMachine {
    let mut changed = machine.clone();
    let place = rng.below(changed.words.len());
    let [output, next] = changed.words[place].to_le_bytes();
    changed.words[place] = if rng.once_in(2) {
        transition(output.wrapping_add(1 + rng.below(255) as u8), next.into())
    } else {
        transition(output, rng.below(machine.n))
    };
    changed
}

/// Machines that are nearly the same, that have the same counts, and any.
fn other_machines(machine: &OwnedMachine, rng: &mut Rng) -> [OwnedMachine; 3] {
    let OwnedMachine { n, k, .. } = *machine;
    [
        with_word_changed(machine, rng),
        OwnedMachine::build(n, k, |_, _| (rng.below(2) as u8, rng.below(n))),
        generator::machine(rng.choose(&Kind::ALL), rng),
    ]
}

/// Whether the sheet of a case that was accepted holds a smallest model of the machine.
pub fn holds_smallest_model(case: &Case) -> bool {
    let [_, sheet] = &case.inputs;
    sheets::parse_proof_sheet(sheet)
        .is_ok_and(|proof| minimise::is_smallest_model(proof.model.lend(), case.machine().lend()))
}

#[cfg(test)]
mod tests {
    use super::*;
    use crate::checker;
    use crate::generator::Damage;

    /// The changes that keep a sheet good, on machines of every kind.
    #[test]
    fn some_changes_are_accepted() {
        let mut rng = Rng::new(5);
        let good: [Change; 5] = [
            renumbered,
            with_a_column_duplicated,
            with_columns_permuted,
            with_longer_reaching_words,
            with_unreachable_states_mapped,
        ];
        for number in 0..3 * Kind::ALL.len() {
            let machine = generator::in_turn(number, &mut rng);
            let learnt = Parts::of(&proof_sheet(&machine));
            assert_eq!(learnt.sheet(), proof_sheet(&machine));
            for change in good {
                let sheet = change(&learnt, &machine, &mut rng).sheet();
                let OwnedMachine { n, k, words } = &machine;
                assert_eq!(checker::check(words, *n, *k, &sheet), Ok(()));
                let case = Case::check(&Lent::of(&machine), sheet);
                assert!(holds_smallest_model(&case));
            }
        }
    }

    #[test]
    fn the_longest_sheet_needs_its_last_column() {
        let (machine, longest) = longest();
        let checked = |parts: &Parts| checker::check(&machine.words, 48, 12, &parts.sheet());
        assert_eq!(longest.sheet().len(), sheets::PROOF_SHEET_AREA);
        assert_eq!(checked(&longest), Ok(()));
        let mut shorter = longest.clone();
        shorter.columns.pop();
        assert_eq!(checked(&shorter), Err(13));
    }

    #[test]
    fn a_model_with_equal_states_is_not_taken_for_the_smallest() {
        let machine = OwnedMachine::build(2, 1, |state, _| (0, 1 - state));
        let learnt = Parts::of(&proof_sheet(&machine));
        let sheet = with_equal_states(&learnt, &machine, &mut Rng::new(1)).sheet();
        assert_eq!(checker::check(&machine.words, 2, 1, &sheet), Err(13));
        let cut = generator::damaged(Damage::Insert, &sheet, &mut Rng::new(1));
        for sheet in [sheet, cut] {
            let case = Case::check(&Lent::of(&machine), sheet);
            assert!(!holds_smallest_model(&case));
        }
    }
}
