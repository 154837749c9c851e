//! The paper's "Sheets": reader and writer of machine sheets, reader of proof sheets, the AW record,
//! and the bytes the learner leaves at Done and Open.

use crate::machine::{self, Machine, OwnedMachine, MAX_LETTERS, MAX_STATES, WORD_AREA};
use crate::refusal;
use std::ops::RangeInclusive;

/// The area the machine writer asks for: the longest machine sheet.
pub const MACHINE_SHEET_AREA: usize = 1_252;
/// The area the learner asks for: the longest proof sheet.
pub const PROOF_SHEET_AREA: usize = 9_368;
/// The SM byte of a machine state without a model state.
pub const NO_STATE: u8 = 255;

const MACHINE_HEAD: &[u8; 2] = b"MH";
const MACHINE_ROW: &[u8; 2] = b"MR";
const PROOF_HEAD: &[u8; 2] = b"PH";
const REACHING_WORD: &[u8; 2] = b"AW";
const COLUMN_WORD: &[u8; 2] = b"CW";
const STATE_MAP: &[u8; 2] = b"SM";
const COUNTEREXAMPLE: &[u8; 2] = b"CX";

pub const MAX_COLUMNS: usize = 59;
pub const REACHING_LENGTHS: RangeInclusive<usize> = 0..=47;
pub const COLUMN_LENGTHS: RangeInclusive<usize> = 1..=93;

/// What reading a proof sheet gives: states of the model, letters, states of the machine, columns.
#[derive(Clone, Copy, Debug, PartialEq, Eq)]
pub struct Counts {
    pub m: usize,
    pub k: usize,
    pub n: usize,
    pub c: usize,
}

/// A proof sheet taken apart; words, map and records are parts of the lent sheet.
#[derive(Clone, Debug)]
pub struct ProofSheet<'a> {
    pub counts: Counts,
    pub model: OwnedMachine,
    pub reaching_words: Vec<&'a [u8]>,
    pub reaching_records: Vec<&'a [u8]>,
    pub columns: Vec<&'a [u8]>,
    pub state_map: &'a [u8],
}

/// Goes over a sheet from left to right.
struct Reader<'a> {
    sheet: &'a [u8],
    at: usize,
}

impl<'a> Reader<'a> {
    fn new(sheet: &'a [u8]) -> Self {
        Reader { sheet, at: 0 }
    }

    /// The next bytes, all of them present or none taken.
    fn take(&mut self, count: usize) -> Result<&'a [u8], u8> {
        let rest = &self.sheet[self.at..];
        if rest.len() < count {
            return Err(refusal::ENDS_EARLY);
        }
        self.at += count;
        Ok(&rest[..count])
    }

    fn mark(&mut self, due: &[u8; 2]) -> Result<(), u8> {
        if self.take(2)? != due {
            return Err(refusal::WRONG_MARK);
        }
        Ok(())
    }

    /// One MR record: the whole body is there before any next state is judged.
    fn machine_row(&mut self, states: usize, k: usize) -> Result<Vec<u16>, u8> {
        self.mark(MACHINE_ROW)?;
        let body = self.take(2 * k)?;
        let mut words = Vec::with_capacity(k);
        for pair in body.chunks_exact(2) {
            let (output, next) = (pair[0], usize::from(pair[1]));
            if next >= states {
                return Err(refusal::NO_SUCH_STATE);
            }
            words.push(machine::transition(output, next));
        }
        Ok(words)
    }

    fn machine_rows(&mut self, states: usize, k: usize) -> Result<OwnedMachine, u8> {
        let mut words = Vec::with_capacity(states * k);
        for _ in 0..states {
            words.extend(self.machine_row(states, k)?);
        }
        Ok(OwnedMachine {
            n: states,
            k,
            words,
        })
    }

    /// One AW or CW record: the length is judged before its letters are looked for.
    fn word(
        &mut self,
        due: &[u8; 2],
        lengths: RangeInclusive<usize>,
        k: usize,
    ) -> Result<&'a [u8], u8> {
        self.mark(due)?;
        let length = usize::from(self.take(1)?[0]);
        if !lengths.contains(&length) {
            return Err(refusal::LENGTH_OR_LETTER);
        }
        let letters = self.take(length)?;
        if letters.iter().any(|&letter| usize::from(letter) >= k) {
            return Err(refusal::LENGTH_OR_LETTER);
        }
        Ok(letters)
    }

    fn state_map(&mut self, n: usize, m: usize) -> Result<&'a [u8], u8> {
        self.mark(STATE_MAP)?;
        let map = self.take(n)?;
        if map
            .iter()
            .any(|&state| usize::from(state) >= m && state != NO_STATE)
        {
            return Err(refusal::NO_SUCH_STATE);
        }
        Ok(map)
    }

    fn end(&self) -> Result<(), u8> {
        if self.at < self.sheet.len() {
            return Err(refusal::LEFT_OVER);
        }
        Ok(())
    }
}

fn in_range(value: usize, range: RangeInclusive<usize>) -> Result<(), u8> {
    if !range.contains(&value) {
        return Err(refusal::COUNT_OUT_OF_RANGE);
    }
    Ok(())
}

/// Reads a machine sheet: the sheet is judged first, then the word area (8).
/// Gives n and k and sets the first n·k words only.
pub fn read_machine_sheet(sheet: &[u8], area: &mut [u16]) -> Result<(usize, usize), u8> {
    let machine = parse_machine_sheet(sheet)?;
    if area.len() < WORD_AREA {
        return Err(refusal::TABLE_OR_WORD_AREA);
    }
    area[..machine.words.len()].copy_from_slice(&machine.words);
    Ok((machine.n, machine.k))
}

fn parse_machine_sheet(sheet: &[u8]) -> Result<OwnedMachine, u8> {
    let mut reader = Reader::new(sheet);
    reader.mark(MACHINE_HEAD)?;
    let head = reader.take(2)?;
    let (n, k) = (usize::from(head[0]), usize::from(head[1]));
    in_range(n, 1..=MAX_STATES)?;
    in_range(k, 1..=MAX_LETTERS)?;
    let machine = reader.machine_rows(n, k)?;
    reader.end()?;
    Ok(machine)
}

/// Writes a machine sheet: the words are judged first, then the area (9).
/// Gives the sheet's length and sets that many bytes only.
pub fn write_machine_sheet(
    words: &[u16],
    n: usize,
    k: usize,
    area: &mut [u8],
) -> Result<usize, u8> {
    let machine = Machine::lent(words, n, k)?;
    if area.len() < MACHINE_SHEET_AREA {
        return Err(refusal::SHEET_AREA);
    }
    let mut sheet = MACHINE_HEAD.to_vec();
    sheet.extend([n as u8, k as u8]);
    append_machine_rows(&mut sheet, machine);
    area[..sheet.len()].copy_from_slice(&sheet);
    Ok(sheet.len())
}

/// Reads a proof sheet: gives m, k, n and c and writes nothing.
pub fn read_proof_sheet(sheet: &[u8]) -> Result<Counts, u8> {
    parse_proof_sheet(sheet).map(|proof| proof.counts)
}

/// Reads a proof sheet and hands out its parts.
pub fn parse_proof_sheet(sheet: &[u8]) -> Result<ProofSheet<'_>, u8> {
    let mut reader = Reader::new(sheet);
    let counts = proof_head(&mut reader)?;
    let Counts { m, k, n, c } = counts;
    let model = reader.machine_rows(m, k)?;
    let mut reaching_words = Vec::with_capacity(m);
    let mut reaching_records = Vec::with_capacity(m);
    for _ in 0..m {
        let from = reader.at;
        reaching_words.push(reader.word(REACHING_WORD, REACHING_LENGTHS, k)?);
        reaching_records.push(&sheet[from..reader.at]);
    }
    let mut columns = Vec::with_capacity(c);
    for _ in 0..c {
        columns.push(reader.word(COLUMN_WORD, COLUMN_LENGTHS, k)?);
    }
    let state_map = reader.state_map(n, m)?;
    reader.end()?;
    Ok(ProofSheet {
        counts,
        model,
        reaching_words,
        reaching_records,
        columns,
        state_map,
    })
}

fn proof_head(reader: &mut Reader<'_>) -> Result<Counts, u8> {
    reader.mark(PROOF_HEAD)?;
    let head = reader.take(4)?;
    let number = |place: usize| usize::from(head[place]);
    let (m, k, n, c) = (number(0), number(1), number(2), number(3));
    in_range(m, 1..=MAX_STATES)?;
    in_range(k, 1..=MAX_LETTERS)?;
    in_range(n, 1..=MAX_STATES)?;
    in_range(c, 0..=MAX_COLUMNS)?;
    Ok(Counts { m, k, n, c })
}

/// The AW record of a state, mark included, as a part of the lent sheet itself; the empty part for a
/// sheet that is refused when read, or a state not below m.
pub fn aw_record(sheet: &[u8], state: usize) -> &[u8] {
    parse_proof_sheet(sheet)
        .ok()
        .and_then(|proof| proof.reaching_records.get(state).copied())
        .unwrap_or(&sheet[..0])
}

/// The bytes of a proof sheet, for the learner alone: no caller writes one.
pub(crate) fn proof_sheet(
    model: Machine<'_>,
    reaching_words: &[Vec<u8>],
    columns: &[Vec<u8>],
    state_map: &[u8],
) -> Vec<u8> {
    let mut sheet = PROOF_HEAD.to_vec();
    let counts = [
        model.states(),
        model.letters(),
        state_map.len(),
        columns.len(),
    ];
    sheet.extend(counts.map(|count| count as u8));
    append_machine_rows(&mut sheet, model);
    for word in reaching_words {
        append_word(&mut sheet, REACHING_WORD, word);
    }
    for word in columns {
        append_word(&mut sheet, COLUMN_WORD, word);
    }
    sheet.extend(STATE_MAP);
    sheet.extend(state_map);
    sheet
}

/// The bytes the learner leaves at Open.
pub(crate) fn open_sheet(counterexample: &[u8]) -> Vec<u8> {
    let mut sheet = Vec::new();
    append_word(&mut sheet, COUNTEREXAMPLE, counterexample);
    sheet
}

fn append_machine_rows(sheet: &mut Vec<u8>, machine: Machine<'_>) {
    for state in 0..machine.states() {
        sheet.extend(MACHINE_ROW);
        for letter in machine.alphabet() {
            sheet.push(machine.output(state, letter));
            sheet.push(machine.next(state, letter) as u8);
        }
    }
}

fn append_word(sheet: &mut Vec<u8>, mark: &[u8; 2], word: &[u8]) {
    sheet.extend(mark);
    sheet.push(word.len() as u8);
    sheet.extend(word);
}

#[cfg(test)]
mod tests {
    use super::*;

    fn machine_refusal(sheet: &[u8]) -> Result<(usize, usize), u8> {
        read_machine_sheet(sheet, &mut [0; WORD_AREA])
    }

    #[test]
    fn machine_sheets_go_left_to_right() {
        assert_eq!(machine_refusal(b"X"), Err(1));
        assert_eq!(machine_refusal(b"MX"), Err(2));
        assert_eq!(machine_refusal(b"MH\x00"), Err(1));
        assert_eq!(machine_refusal(b"MH\x01\x0D"), Err(3));
        assert_eq!(machine_refusal(b"MH\x01\x01X"), Err(1));
        assert_eq!(machine_refusal(b"MH\x01\x01MX"), Err(2));
        assert_eq!(machine_refusal(b"MH\x01\x02MR\x00\x01\x00"), Err(1));
        assert_eq!(machine_refusal(b"MH\x01\x01MR\x00\x01\x00"), Err(4));
        assert_eq!(machine_refusal(b"MH\x01\x01MR\x00\x00\x00"), Err(5));
        assert_eq!(machine_refusal(b"MH\x01\x01MR\xFF\x00"), Ok((1, 1)));
    }

    #[test]
    fn the_reader_judges_the_sheet_before_the_word_area() {
        let mut small = [9; WORD_AREA - 1];
        assert_eq!(read_machine_sheet(b"", &mut small), Err(1));
        assert_eq!(
            read_machine_sheet(b"MH\x01\x01MR\x00\x00", &mut small),
            Err(8)
        );
        assert_eq!(small, [9; WORD_AREA - 1]);
    }

    #[test]
    fn the_writer_judges_the_words_before_the_area() {
        let mut small = [9; MACHINE_SHEET_AREA - 1];
        assert_eq!(write_machine_sheet(&[256], 1, 1, &mut small), Err(4));
        assert_eq!(write_machine_sheet(&[0], 1, 1, &mut small), Err(9));
        assert_eq!(small, [9; MACHINE_SHEET_AREA - 1]);
    }

    #[test]
    fn words_give_length_before_letters() {
        let head = b"PH\x01\x01\x01\x01MR\x00\x00";
        let refused = |tail: &[u8]| read_proof_sheet(&[&head[..], tail].concat()).err();
        assert_eq!(refused(b""), Some(1));
        assert_eq!(refused(b"CW"), Some(2));
        assert_eq!(refused(b"AW"), Some(1));
        assert_eq!(refused(b"AW\x30"), Some(6));
        assert_eq!(refused(b"AW\x02\x01"), Some(1));
        assert_eq!(refused(b"AW\x01\x01"), Some(6));
        assert_eq!(refused(b"AW\x00CW\x00"), Some(6));
        assert_eq!(refused(b"AW\x00CW\x5E"), Some(6));
        assert_eq!(refused(b"AW\x00CW\x01\x00SM"), Some(1));
        assert_eq!(refused(b"AW\x00CW\x01\x00SM\x01"), Some(4));
        assert_eq!(refused(b"AW\x00CW\x01\x00SM\xFE"), Some(4));
        assert_eq!(refused(b"AW\x00CW\x01\x00SM\xFF"), None);
        assert_eq!(refused(b"AW\x00CW\x01\x00SM\xFF\x00"), Some(5));
    }

    #[test]
    fn the_record_is_a_part_of_the_lent_sheet() {
        let sheet = b"PH\x01\x01\x01\x00MR\x00\x00AW\x01\x00SM\x00".as_slice();
        assert_eq!(aw_record(sheet, 0), b"AW\x01\x00");
        assert_eq!(aw_record(sheet, 0).as_ptr(), sheet[10..].as_ptr());
        assert_eq!(aw_record(sheet, 1), b"");
        assert_eq!(aw_record(&sheet[..16], 0), b"");
    }
}
