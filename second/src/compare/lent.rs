//! What the cases lend: machines good and bad, their sheets, and damaged copies of both.

use super::case::Lent;
use crate::cases;
use crate::generator::{self, Damage, Rng};
use crate::learner::{self, Answer, MAX_ROUNDS, TABLE_AREA};
use crate::machine::{OwnedMachine, MAX_STATES, WORD_AREA};
use crate::sheets::{self, MACHINE_SHEET_AREA, PROOF_SHEET_AREA};

/// Values about the ranges of n and k, and the largest that a case can have.
const COUNTS: [u16; 8] = [0, 1, 12, 13, 48, 49, 256, u16::MAX];

/// The longest sheet that a case has room for beside 600 words, the most that it can lend.
const LONGEST_SHEET: usize = 16_384 - 2 * 600;

/// The paper's machine M1.
pub fn m1() -> OwnedMachine {
    let mut area = [0; WORD_AREA];
    let (n, k) = sheets::read_machine_sheet(&cases::m1(), &mut area).expect("M1 is a good sheet");
    OwnedMachine {
        n,
        k,
        words: area[..n * k].to_vec(),
    }
}

pub fn machine_sheet(machine: &OwnedMachine) -> Vec<u8> {
    let mut area = [0; MACHINE_SHEET_AREA];
    let written = sheets::write_machine_sheet(&machine.words, machine.n, machine.k, &mut area);
    area[..written.expect("a good machine")].to_vec()
}

/// The learner's proof sheet.
pub fn proof_sheet(machine: &OwnedMachine) -> Vec<u8> {
    let OwnedMachine { n, k, words } = machine;
    let mut table = vec![0; TABLE_AREA];
    let mut sheet = vec![0; PROOF_SHEET_AREA];
    let (l, r) = (MAX_STATES, MAX_ROUNDS);
    match learner::learn(words, *n, *k, l, r, &mut table, &mut sheet) {
        Answer::Done { bytes, .. } => sheet[..bytes].to_vec(),
        other => panic!("without a limit the learner ends with Done: {other:?}"),
    }
}

/// Words too few, too many, with a next state out of range, and good words under other counts.
pub fn bad_machines(machine: &OwnedMachine, rng: &mut Rng) -> Vec<Lent> {
    let Lent { words, n, k } = Lent::of(machine);
    let fewer = words[..rng.below(words.len())].to_vec();
    let more = [&words[..], &[rng.below(1 << 16) as u16]].concat();
    let mut other = words.clone();
    let next = rng.choose(&[n - 1, n, n + 1, 255]);
    other[rng.below(words.len())] = 256 * next + u16::from(rng.byte());
    let mut both = other.clone();
    both.pop();
    let machines = [
        (fewer, n, k),
        (more, n, k),
        (both, n, k),
        (words.clone(), k, n),
        (words.clone(), rng.choose(&COUNTS), k),
        (words, n, rng.choose(&COUNTS)),
        (other.clone(), n, rng.choose(&COUNTS)),
        (other, n, k),
    ];
    machines.map(|(words, n, k)| Lent { words, n, k }).to_vec()
}

/// The sheet itself; each byte with every other value; every part cut out; every byte put in everywhere.
pub fn every_small_damage(sheet: &[u8], mut give: impl FnMut(Vec<u8>)) {
    give(sheet.to_vec());
    for place in 0..sheet.len() {
        for other in (0..=u8::MAX).filter(|&other| other != sheet[place]) {
            let mut changed = sheet.to_vec();
            changed[place] = other;
            give(changed);
        }
        for end in place + 1..=sheet.len() {
            give([&sheet[..place], &sheet[end..]].concat());
        }
    }
    for place in 0..=sheet.len() {
        for more in 0..=u8::MAX {
            give([&sheet[..place], &[more], &sheet[place..]].concat());
        }
    }
}

/// A copy damaged once or several times.
pub fn damaged(sheet: &[u8], rng: &mut Rng) -> Vec<u8> {
    let mut copy = sheet.to_vec();
    for _ in 0..rng.choose(&[1, 1, 2, 3]) {
        copy = generator::damaged(rng.choose(&Damage::ALL), &copy, rng);
    }
    copy.truncate(LONGEST_SHEET);
    copy
}
