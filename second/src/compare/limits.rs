//! Sheets and words that are whole, with every count, length and value at the paper's limits and next to them.

use super::case::{Case, Lent};
use super::reading::{SHEET_AREAS, WORD_AREAS};
use crate::machine;

const STATES: [u8; 4] = [0, 1, 48, 49];
const LETTERS: [u8; 4] = [0, 1, 12, 13];
const COLUMNS: [u8; 4] = [0, 1, 59, 60];
const REACHING_LENGTHS: [u8; 3] = [0, 47, 48];
const COLUMN_LENGTHS: [u8; 4] = [0, 1, 93, 94];

/// Makes the cases of machine sheets, of lent words and of proof sheets.
pub fn make(give: &mut dyn FnMut(Case)) {
    for n in STATES {
        for k in LETTERS {
            for next in [0, n.saturating_sub(1), n] {
                machine_cases(n, k, next, give);
            }
            for m in STATES {
                proof_cases(m, k, n, give);
            }
        }
    }
}

fn machine_cases(n: u8, k: u8, next: u8, give: &mut dyn FnMut(Case)) {
    let mut sheet = [b"MH", &[n, k][..]].concat();
    sheet.extend(rows(n, k, next));
    with_neighbours(&sheet, |sheet| {
        for area in WORD_AREAS {
            give(Case::read_machine(sheet.to_vec(), area, n));
        }
    });
    // The longest word input that a case has room for is 600 words.
    let count = (usize::from(n) * usize::from(k)).min(599);
    let words = vec![machine::transition(k, usize::from(next)); count];
    with_neighbours(&words, |words| {
        let machine = Lent {
            words: words.to_vec(),
            n: u16::from(n),
            k: u16::from(k),
        };
        for area in SHEET_AREAS {
            give(Case::write_machine(&machine, area, n));
        }
    });
}

/// A list as it is, without its last place, and with a place more.
fn with_neighbours<T: Clone + Default>(list: &[T], mut give: impl FnMut(&[T])) {
    give(list);
    if let Some((_, before)) = list.split_last() {
        give(before);
    }
    give(&[list, &[T::default()]].concat());
}

fn rows(count: u8, k: u8, next: u8) -> Vec<u8> {
    let row = [b"MR".to_vec(), [7, next].repeat(usize::from(k))].concat();
    row.repeat(usize::from(count))
}

fn proof_cases(m: u8, k: u8, n: u8, give: &mut dyn FnMut(Case)) {
    for c in COLUMNS {
        for reaching in REACHING_LENGTHS {
            for column in COLUMN_LENGTHS {
                let sheet = proof_sheet([m, k, n, c], reaching, column);
                with_neighbours(&sheet, |sheet| {
                    give(Case::read_proof(sheet.to_vec()));
                    give(Case::aw_record(sheet.to_vec(), u16::from(n)));
                });
            }
        }
    }
}

/// A proof sheet whose records are all there, whatever its counts and lengths are.
fn proof_sheet([m, k, n, c]: [u8; 4], reaching: u8, column: u8) -> Vec<u8> {
    let word = |mark: &[u8; 2], length: u8| {
        let letters = vec![k.saturating_sub(1); usize::from(length)];
        [&mark[..], &[length], &letters].concat()
    };
    let map = (0..n).map(|state| {
        if state % 2 == 0 {
            m.wrapping_sub(1)
        } else {
            255
        }
    });
    [
        b"PH".to_vec(),
        vec![m, k, n, c],
        rows(m, k, m.saturating_sub(1)),
        word(b"AW", reaching).repeat(usize::from(m)),
        word(b"CW", column).repeat(usize::from(c)),
        b"SM".to_vec(),
        map.collect(),
    ]
    .concat()
}
