//! The proved operations, as include/trachuliem.h declares them, with the same answers as the second program's.

use second::learner::Answer;
use second::sheets::Counts;

#[repr(C)]
struct Size {
    refusal: u8,
    n: usize,
    k: usize,
}

#[repr(C)]
struct Outcome {
    kind: u8,
    refusal: u8,
    states: usize,
    rounds: usize,
    cells: usize,
    bytes: usize,
}

#[repr(C)]
struct ProofCounts {
    refusal: u8,
    m: usize,
    k: usize,
    n: usize,
    c: usize,
}

extern "C" {
    fn trachuliem_learn(
        words: *const u16,
        words_length: usize,
        n: usize,
        k: usize,
        limit: usize,
        most: usize,
        table: *mut u8,
        table_length: usize,
        sheet: *mut u8,
        sheet_length: usize,
    ) -> Outcome;
    fn trachuliem_check_proof(
        words: *const u16,
        words_length: usize,
        n: usize,
        k: usize,
        sheet: *const u8,
        sheet_length: usize,
    ) -> u8;
    fn trachuliem_read_machine(
        sheet: *const u8,
        sheet_length: usize,
        area: *mut u16,
        area_length: usize,
    ) -> Size;
    fn trachuliem_read_proof(sheet: *const u8, sheet_length: usize) -> ProofCounts;
}

pub fn learn(
    words: &[u16],
    n: usize,
    k: usize,
    l: usize,
    r: usize,
    table: &mut [u8],
    sheet: &mut [u8],
) -> Answer {
    // SAFETY: each pointer and length is a slice's, and the two areas are lent alone.
    let outcome = unsafe {
        trachuliem_learn(
            words.as_ptr(),
            words.len(),
            n,
            k,
            l,
            r,
            table.as_mut_ptr(),
            table.len(),
            sheet.as_mut_ptr(),
            sheet.len(),
        )
    };
    let Outcome {
        states,
        rounds,
        cells,
        bytes,
        ..
    } = outcome;
    match outcome.kind {
        0 => Answer::Refused(outcome.refusal),
        1 => Answer::Done {
            states,
            rounds,
            cells,
            bytes,
        },
        _ => Answer::Open {
            states,
            rounds,
            cells,
            bytes,
        },
    }
}

pub fn check(words: &[u16], n: usize, k: usize, sheet: &[u8]) -> Result<(), u8> {
    // SAFETY: each pointer and length is a slice's.
    let refusal = unsafe {
        trachuliem_check_proof(
            words.as_ptr(),
            words.len(),
            n,
            k,
            sheet.as_ptr(),
            sheet.len(),
        )
    };
    given(refusal, ())
}

pub fn read_machine(sheet: &[u8], area: &mut [u16]) -> Result<(usize, usize), u8> {
    // SAFETY: each pointer and length is a slice's, and the area is lent alone.
    let size = unsafe {
        trachuliem_read_machine(sheet.as_ptr(), sheet.len(), area.as_mut_ptr(), area.len())
    };
    given(size.refusal, (size.n, size.k))
}

pub fn read_proof(sheet: &[u8]) -> Result<Counts, u8> {
    // SAFETY: pointer and length are a slice's.
    let counts = unsafe { trachuliem_read_proof(sheet.as_ptr(), sheet.len()) };
    let ProofCounts { m, k, n, c, .. } = counts;
    given(counts.refusal, Counts { m, k, n, c })
}

fn given<T>(refusal: u8, value: T) -> Result<T, u8> {
    if refusal == 0 {
        Ok(value)
    } else {
        Err(refusal)
    }
}
