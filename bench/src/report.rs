//! What was measured, and the page that shows it.

use crate::counting;
use crate::machines::{Kind, LETTERS, STATES};
use crate::subject::{Operation, Side, Subject};
use crate::timing;
use std::collections::HashMap;
use std::fmt::Write;

/// Passes over all machines, so that what else the computer does at one time weighs little.
const PASSES: usize = 5;

/// What one machine costs, by operation; each pair is ours and the second program's.
pub struct Row {
    pub kind: Kind,
    pub n: usize,
    pub k: usize,
    rounds: usize,
    cells: usize,
    /// The median of the passes.
    pub nanoseconds: [[f64; 2]; 3],
    /// How much more the slowest pass took than the quickest, in percent.
    spread: [[f64; 2]; 3],
    instructions: [[Option<f64>; 2]; 3],
}

pub fn measure(counts: &HashMap<String, f64>) -> Vec<Row> {
    let mut subjects = Vec::new();
    for kind in Kind::ALL {
        for k in LETTERS {
            subjects.extend(STATES.map(|n| Subject::new(kind, n, k)));
        }
    }
    let passes: Vec<Vec<[[f64; 2]; 3]>> = (0..PASSES)
        .map(|_| subjects.iter_mut().map(pass).collect())
        .collect();
    let rows = subjects.iter().enumerate();
    rows.map(|(number, subject)| {
        let of_subject: Vec<[[f64; 2]; 3]> = passes.iter().map(|pass| pass[number]).collect();
        row(subject, &of_subject, counts)
    })
    .collect()
}

fn pass(subject: &mut Subject) -> [[f64; 2]; 3] {
    Operation::ALL.map(|operation| timing::nanoseconds(subject, operation))
}

fn row(subject: &Subject, passes: &[[[f64; 2]; 3]], counts: &HashMap<String, f64>) -> Row {
    let sorted = |operation: usize, side: usize| {
        let mut times: Vec<f64> = passes.iter().map(|pass| pass[operation][side]).collect();
        times.sort_by(f64::total_cmp);
        times
    };
    let counted = |operation, side| counts.get(&counting::label(subject, operation, side));
    Row {
        kind: subject.kind,
        n: subject.machine.n,
        k: subject.machine.k,
        rounds: subject.rounds,
        cells: subject.cells,
        nanoseconds: [0, 1, 2]
            .map(|operation| [0, 1].map(|side| sorted(operation, side)[PASSES / 2])),
        spread: [0, 1, 2].map(|operation| {
            [0, 1].map(|side| {
                let times = sorted(operation, side);
                100.0 * (times[PASSES - 1] / times[0] - 1.0)
            })
        }),
        instructions: Operation::ALL
            .map(|operation| Side::ALL.map(|side| counted(operation, side).copied())),
    }
}

const HEAD: &str = "\
# Benchmark

    scripts/benchmark

measures the proved operations and the second program's on the same machines, in one run, and writes this page and `benchmark.svg`. Every
number here is from that run.

- **Machines**: of each size a *random* one (two outputs, its smallest model has n states) and a *ring* (letter 0 goes round, the others
  stay, one state shows itself), which takes n - 2 rounds and has long counterexamples.
- **Learning** is with L = 48 and R = 47, always Done. **Checking** is of the proof sheet that learning left, which is accepted.
  **Reading** is of the machine sheet, and then of that proof sheet. Before anything is measured, both sides' answers and the bytes of every area
  are held against each other.
- **Ours** is the archive for C (`rt lib`), called as `include/trachuliem.h` declares it. **Second** is the library of `second/`, in
  the same program. Both are optimised by LLVM (second: cargo's release profile) for any x86-64.
- Both follow the rules step by step and answer every question by running its whole word from the start; neither keeps the state at the end of
  a row. Ours works in the lent areas and in arrays on the stack, closing goes on from the row found last, and rows are compared byte by
  byte. Second was written for clarity: it makes a new word on the heap for each question, begins closing again at row 1, compares rows by
  the C library's `memcmp`, and reads a sheet into lists.
";

const STACK: &str = "
## Stack

Bytes below the caller's frame, for a machine of 48 states and 12 letters (the ring or a random one, whichever takes more), found by
painting a thread's stack before the call (`bench/stack.c`). The lent areas are the caller's and do not count.

| operation | bytes |
|---|---|
";

pub fn page(rows: &[Row], stack: &str, setting: &str) -> String {
    let mut page = HEAD.to_string();
    let _ = write!(
        page,
        "- Run on {setting}.\n\n![cost against size](benchmark.svg)\n"
    );
    let _ = write!(page, "\n## Time\n\n{}\n", time_words(rows));
    table(&mut page, rows, |row, operation, side| {
        significant(row.nanoseconds[operation][side] / 1e3)
    });
    page.push_str("\n## Instructions\n\n");
    if rows.iter().all(|row| row.instructions[0][0].is_none()) {
        page.push_str("Not counted in this run: Valgrind could not be had.\n");
    } else {
        page.push_str("Thousands of instructions of one call, counted by Valgrind's callgrind; second's include those of its allocations.\n\n");
        table(&mut page, rows, |row, operation, side| {
            row.instructions[operation][side]
                .map_or_else(|| "-".to_string(), |count| significant(count / 1e3))
        });
    }
    page.push_str(STACK);
    for (operation, bytes) in stack.lines().filter_map(|line| line.split_once(' ')) {
        let _ = writeln!(page, "| `trachuliem_{operation}` | {bytes} |");
    }
    page
}

/// How the times were taken, and how far the passes lay apart.
fn time_words(rows: &[Row]) -> String {
    let spreads = rows.iter().flat_map(|row| row.spread.iter().flatten());
    let mut spreads: Vec<f64> = spreads.copied().collect();
    spreads.sort_by(f64::total_cmp);
    let (half, most) = (spreads[spreads.len() / 2], spreads[spreads.len() - 1]);
    format!(
        "Microseconds of one call. A pass takes the median of 15 to 2,000 calls, both sides in turn, every area cleared before each; shown is the\n\
         median of {PASSES} passes over all machines. Between a cost's slowest and quickest pass lay {half:.0} % or less for half of the costs, and at most\n\
         {most:.0} %. Calls of over 100 microseconds are timed by the processor time of the thread, shorter ones by the clock.\n"
    )
}

/// A line for each machine, and for each operation ours, second and how many times ours second is.
fn table(page: &mut String, rows: &[Row], cell: impl Fn(&Row, usize, usize) -> String) {
    page.push_str("| machine | n | k | rounds | cells |");
    for operation in Operation::ALL {
        let _ = write!(page, " {}: ours | second |", operation.name());
    }
    page.push_str("\n|---|---|---|---|---|---|---|---|---|---|---|\n");
    for row in rows {
        let (
            kind,
            Row {
                n,
                k,
                rounds,
                cells,
                ..
            },
        ) = (row.kind.name(), row);
        let _ = write!(page, "| {kind} | {n} | {k} | {rounds} | {cells} |");
        for operation in 0..Operation::ALL.len() {
            let (ours, second) = (cell(row, operation, 0), cell(row, operation, 1));
            let _ = write!(page, " {ours} | {second} |");
        }
        page.push('\n');
    }
}

/// Three figures that count.
fn significant(value: f64) -> String {
    let places = (2.0 - value.abs().max(1e-3).log10().floor()).clamp(0.0, 5.0);
    format!("{value:.0$}", places as usize)
}
