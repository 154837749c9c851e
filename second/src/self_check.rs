//! Self checks over generated machines: the learner against the minimiser, the table it leaves against
//! rules 1 to 6, its sheets against reader and checker, damaged sheets against their refusals.

use crate::checker;
use crate::generator::{self, Damage, Kind, Rng};
use crate::learner::{self, Answer, MAX_ROUNDS, TABLE_AREA};
use crate::machine::{self, Machine, OwnedMachine, MAX_STATES, WORD_AREA};
use crate::minimise::{self, Smallest};
use crate::refusal;
use crate::sheets::{self, Counts, ProofSheet, MACHINE_SHEET_AREA, MAX_COLUMNS, PROOF_SHEET_AREA};
use crate::words::joined;
use std::collections::BTreeSet;

/// Answers of the learner over all machines of one kind.
#[derive(Clone, Copy, Debug, Default)]
pub struct Answers {
    pub machines: usize,
    pub done: usize,
    pub open: usize,
    pub refused: usize,
}

/// What a whole run of self checks met.
#[derive(Clone, Debug)]
pub struct Totals {
    pub by_kind: [Answers; Kind::ALL.len()],
    /// The greatest number of rounds at Done, longest counterexample at Open, longest column at Done.
    pub most_rounds: usize,
    pub longest_counterexample: usize,
    pub longest_column: usize,
    /// Damaged machine sheets by reader's answer, damaged proof sheets and proof sheets of the machine
    /// before by checker's answer; place 0 counts those that were read or accepted.
    pub damaged_machine_sheets: [usize; 15],
    pub damaged_proof_sheets: [usize; 15],
    pub other_proof_sheets: [usize; 15],
}

/// Runs the self checks over so many machines, the kinds taking turns; the first wrong thing ends it.
pub fn run(seed: u64, count: usize) -> Result<Totals, String> {
    let mut rng = Rng::new(seed);
    let mut totals = Totals {
        by_kind: Default::default(),
        most_rounds: 0,
        longest_counterexample: 0,
        longest_column: 0,
        damaged_machine_sheets: [0; 15],
        damaged_proof_sheets: [0; 15],
        other_proof_sheets: [0; 15],
    };
    let mut other_sheet = Vec::new();
    for number in 0..count {
        let place = number % Kind::ALL.len();
        let kind = Kind::ALL[place];
        let machine = generator::machine(kind, &mut rng);
        totals.by_kind[place].machines += 1;
        other_sheet = check_machine(&machine, &other_sheet, place, &mut totals, &mut rng).map_err(
            |wrong| {
                let name = kind.name();
                let OwnedMachine { n, k, words } = &machine;
                format!("machine {number} ({name}): {wrong}; n = {n}, k = {k}, words = {words:?}")
            },
        )?;
    }
    Ok(totals)
}

fn ensure(holds: bool, what: &str) -> Result<(), String> {
    if holds {
        Ok(())
    } else {
        Err(what.to_string())
    }
}

/// One run of the learner, with the areas before and after it.
struct Learnt {
    answer: Answer,
    table_before: Vec<u8>,
    sheet_before: Vec<u8>,
    table: Vec<u8>,
    sheet: Vec<u8>,
}

/// Learns into areas that are full of noise and longer than needed.
fn learn(machine: &OwnedMachine, l: usize, r: usize, rng: &mut Rng) -> Learnt {
    let table_length = TABLE_AREA + rng.below(100);
    let sheet_length = PROOF_SHEET_AREA + rng.below(100);
    let table_before = rng.noise(table_length);
    let sheet_before = rng.noise(sheet_length);
    let mut table = table_before.clone();
    let mut sheet = sheet_before.clone();
    let OwnedMachine { n, k, words } = machine;
    let answer = learner::learn(words, *n, *k, l, r, &mut table, &mut sheet);
    Learnt {
        answer,
        table_before,
        sheet_before,
        table,
        sheet,
    }
}

impl Learnt {
    fn sheet_written(&self) -> &[u8] {
        match self.answer {
            Answer::Done { bytes, .. } | Answer::Open { bytes, .. } => &self.sheet[..bytes],
            Answer::Refused(_) => &[],
        }
    }

    /// The same answer, cells and sheet as another run, whatever the noise was.
    fn leaves_the_same(&self, other: &Learnt) -> bool {
        self.answer == other.answer
            && self.table[..TABLE_AREA] == other.table[..TABLE_AREA]
            && self.sheet_written() == other.sheet_written()
    }

    fn beyond_is_untouched(&self) -> bool {
        let written = self.sheet_written().len();
        self.table[TABLE_AREA..] == self.table_before[TABLE_AREA..]
            && self.sheet[written..] == self.sheet_before[written..]
    }
}

/// All checks of one machine; gives its finished sheet, to be held against the next machine.
fn check_machine(
    machine: &OwnedMachine,
    other_sheet: &[u8],
    place: usize,
    totals: &mut Totals,
    rng: &mut Rng,
) -> Result<Vec<u8>, String> {
    let smallest = minimise::smallest(machine.lend());
    check_minimiser(machine, &smallest)?;
    check_questions(machine, &smallest, rng)?;
    let machine_sheet = check_round_trip(machine, rng)?;
    let full = learn(machine, MAX_STATES, MAX_ROUNDS, rng);
    count_answer(&full, totals, place);
    check_done(machine, &full, &smallest)?;
    let columns = columns_of(full.sheet_written())?;
    check_table(machine, &full, &columns)?;
    check_limits(machine, &full, &smallest, &columns, (totals, place), rng)?;
    check_exact_limit(machine, smallest.model.n, rng)?;
    for damage in Damage::ALL {
        let damaged = generator::damaged(damage, &machine_sheet, rng);
        check_damaged_machine_sheet(&damaged, totals, rng)?;
        let damaged = generator::damaged(damage, full.sheet_written(), rng);
        check_any_proof_sheet(machine, &damaged, &mut totals.damaged_proof_sheets)?;
    }
    check_any_proof_sheet(machine, other_sheet, &mut totals.other_proof_sheets)?;
    Ok(full.sheet_written().to_vec())
}

fn count_answer(learnt: &Learnt, totals: &mut Totals, place: usize) {
    let answers = &mut totals.by_kind[place];
    match learnt.answer {
        Answer::Done { rounds, .. } => {
            answers.done += 1;
            totals.most_rounds = totals.most_rounds.max(rounds);
            let columns = columns_of(learnt.sheet_written()).unwrap_or_default();
            let longest = columns.iter().map(Vec::len).max().unwrap_or(0);
            totals.longest_column = totals.longest_column.max(longest);
        }
        Answer::Open { bytes, .. } => {
            answers.open += 1;
            totals.longest_counterexample = totals.longest_counterexample.max(bytes - 3);
        }
        Answer::Refused(_) => answers.refused += 1,
    }
}

/// The minimiser itself: its model is equal to the machine and none of its states is spare.
fn check_minimiser(machine: &OwnedMachine, smallest: &Smallest) -> Result<(), String> {
    ensure(
        minimise::equal(machine.lend(), smallest.model.lend()),
        "the minimised machine is not equal",
    )?;
    let again = minimise::smallest(smallest.model.lend());
    ensure(
        again.model == smallest.model,
        "minimising again changes the model",
    )?;
    ensure(
        minimise::size(machine.lend()) == smallest.model.n,
        "the minimised machine has another size",
    )
}

/// Machine and smallest model answer some questions alike, put as a caller puts them.
fn check_questions(
    machine: &OwnedMachine,
    smallest: &Smallest,
    rng: &mut Rng,
) -> Result<(), String> {
    for _ in 0..10 {
        let length = 1 + rng.below(60);
        let word = rng.letters(length, machine.k);
        let OwnedMachine { n, k, words } = machine;
        let of_machine = machine::question(words, *n, *k, &word);
        let OwnedMachine { n, k, words } = &smallest.model;
        let of_model = machine::question(words, *n, *k, &word);
        let last = machine.lend().run(&word).last().copied();
        ensure(
            of_machine == of_model && of_machine.ok() == last,
            "machine, model and run answer differently",
        )?;
    }
    Ok(())
}

/// The machine written as a sheet and read again; gives the sheet.
fn check_round_trip(machine: &OwnedMachine, rng: &mut Rng) -> Result<Vec<u8>, String> {
    let OwnedMachine { n, k, words } = machine;
    let before = rng.noise(MACHINE_SHEET_AREA + 7);
    let mut area = before.clone();
    let length = sheets::write_machine_sheet(words, *n, *k, &mut area)
        .map_err(|number| format!("machine writer refused {number}"))?;
    ensure(
        length == 4 + n * (2 + 2 * k),
        "machine sheet of a wrong length",
    )?;
    ensure(
        area[length..] == before[length..],
        "the machine writer set bytes beyond",
    )?;
    let words_before = rng.noise_words(WORD_AREA + 7);
    let mut read = words_before.clone();
    let counts = sheets::read_machine_sheet(&area[..length], &mut read);
    ensure(
        counts == Ok((*n, *k)),
        "the machine reader gives other counts",
    )?;
    ensure(
        read[..n * k] == words[..] && read[n * k..] == words_before[n * k..],
        "the machine reader sets other words",
    )?;
    Ok(area[..length].to_vec())
}

/// "Questions = cells = (1 + m·k)·(k + rounds)."
fn cells_by_formula(states: usize, k: usize, rounds: usize) -> usize {
    (1 + states * k) * (k + rounds)
}

/// A Done answer in full: counts, model, numbering, words, state map, reader, records and checker.
fn check_done(machine: &OwnedMachine, learnt: &Learnt, smallest: &Smallest) -> Result<(), String> {
    let Answer::Done {
        states,
        rounds,
        cells,
        ..
    } = learnt.answer
    else {
        return Err(format!("not done: {:?}", learnt.answer));
    };
    let (n, k) = (machine.n, machine.k);
    ensure(learnt.beyond_is_untouched(), "Done set bytes beyond")?;
    ensure(
        states == smallest.model.n,
        "Done with another number of states than the minimised machine",
    )?;
    ensure(
        rounds < states,
        "the number of states does not exceed the rounds",
    )?;
    ensure(
        cells == cells_by_formula(states, k, rounds),
        "Done with a wrong number of cells",
    )?;
    let counts = Counts {
        m: states,
        k,
        n,
        c: k + rounds,
    };
    let sheet = learnt.sheet_written();
    let proof = sheets::parse_proof_sheet(sheet).map_err(|no| format!("own sheet refused {no}"))?;
    ensure(
        sheets::read_proof_sheet(sheet) == Ok(counts),
        "the proof sheet gives other counts",
    )?;
    ensure(
        proof.model == smallest.model,
        "model and minimised machine differ in numbering or answers",
    )?;
    ensure(
        proof.reaching_words == smallest.reaching_words,
        "a reaching word is not the least",
    )?;
    ensure(
        proof.state_map == smallest.state_map,
        "another state map than the minimiser's",
    )?;
    check_records(sheet, smallest)?;
    ensure(
        checker::check(&machine.words, n, k, sheet) == Ok(()),
        "the checker refuses the finished sheet",
    )
}

fn check_records(sheet: &[u8], smallest: &Smallest) -> Result<(), String> {
    for (state, word) in smallest.reaching_words.iter().enumerate() {
        let record = [b"AW", &[word.len() as u8][..], word].concat();
        ensure(
            sheets::aw_record(sheet, state) == record,
            "a wrong AW record",
        )?;
    }
    ensure(
        sheets::aw_record(sheet, smallest.model.n).is_empty(),
        "an AW record for a state not below m",
    )
}

fn columns_of(proof: &[u8]) -> Result<Vec<Vec<u8>>, String> {
    let proof = sheets::parse_proof_sheet(proof).map_err(|no| format!("sheet refused {no}"))?;
    Ok(proof.columns.iter().map(|column| column.to_vec()).collect())
}

/// The rules carried out once more on the cells left in the table area, without the learner: words of
/// S, words of rows, and how many columns there are so far.
struct Replay<'a> {
    table: &'a [u8],
    k: usize,
    columns: usize,
    s_rows: Vec<usize>,
    row_words: Vec<Vec<u8>>,
}

impl<'a> Replay<'a> {
    fn start(table: &'a [u8], k: usize) -> Self {
        let mut replay = Replay {
            table,
            k,
            columns: k,
            s_rows: Vec::new(),
            row_words: vec![vec![]],
        };
        replay.append_to_s(0);
        replay
    }

    fn append_to_s(&mut self, row: usize) {
        self.s_rows.push(row);
        for letter in 0..self.k as u8 {
            self.row_words.push(joined(&self.row_words[row], &[letter]));
        }
    }

    fn cells_of(&self, row: usize) -> &[u8] {
        &self.table[row * MAX_COLUMNS..][..self.columns]
    }

    fn state_like(&self, row: usize) -> Option<usize> {
        self.s_rows
            .iter()
            .position(|&of_s| self.cells_of(of_s) == self.cells_of(row))
    }

    /// Rule 3, as long as the table left has rows for the words of S.
    fn close(&mut self, states: usize) -> Result<(), String> {
        while let Some(row) = (1..self.row_words.len()).find(|&row| self.state_like(row).is_none())
        {
            ensure(
                self.s_rows.len() < states,
                "closing the left table gives more words in S",
            )?;
            self.append_to_s(row);
        }
        Ok(())
    }

    /// Rule 4, the outputs taken from the one-letter columns.
    fn conjecture(&self) -> OwnedMachine {
        OwnedMachine::build(self.s_rows.len(), self.k, |state, letter| {
            let letter = usize::from(letter);
            let next = self.state_like(1 + state * self.k + letter);
            let output = self.cells_of(self.s_rows[state])[letter];
            (output, next.expect("the replayed table is closed"))
        })
    }

    /// Rule 6: all answers first, then the first change among them.
    fn next_column(
        &self,
        machine: Machine<'_>,
        conjecture: Machine<'_>,
        counterexample: &[u8],
    ) -> Option<Vec<u8>> {
        let answers: Vec<u8> = (0..counterexample.len())
            .map(|i| {
                let state = conjecture.state_after(&counterexample[..i]);
                let word_of_s = &self.row_words[self.s_rows[state]];
                machine.ask(&joined(word_of_s, &counterexample[i..]))
            })
            .collect();
        let i = answers.windows(2).position(|pair| pair[0] != pair[1])?;
        Some(counterexample[i + 1..].to_vec())
    }
}

/// The table left at Done or Open, replayed round by round. The columns are those of the finished run,
/// of which a run with fewer rounds has the first ones.
fn check_table(machine: &OwnedMachine, learnt: &Learnt, columns: &[Vec<u8>]) -> Result<(), String> {
    let (Answer::Done { states, rounds, .. } | Answer::Open { states, rounds, .. }) = learnt.answer
    else {
        return Err("no table to check".to_string());
    };
    let one_letter_words: Vec<Vec<u8>> = machine.lend().alphabet().map(|a| vec![a]).collect();
    ensure(
        columns.starts_with(&one_letter_words),
        "the first columns are not the one-letter words",
    )?;
    let mut replay = Replay::start(&learnt.table, machine.k);
    for _ in 0..rounds {
        replay.close(states)?;
        check_round(machine, &mut replay, columns)?;
    }
    replay.close(states)?;
    ensure(
        replay.s_rows.len() == states,
        "closing the left table gives fewer words in S",
    )?;
    check_cells(machine, &replay, columns)?;
    check_stop(machine, learnt, &replay)
}

/// One round of the replay: the column that follows is the one of rules 5 and 6.
fn check_round(
    machine: &OwnedMachine,
    replay: &mut Replay<'_>,
    columns: &[Vec<u8>],
) -> Result<(), String> {
    let conjecture = replay.conjecture();
    let counterexample = minimise::least_difference(machine.lend(), conjecture.lend())
        .ok_or("a round without a counterexample")?;
    let column = replay.next_column(machine.lend(), conjecture.lend(), &counterexample);
    ensure(
        column.is_some() && columns.get(replay.columns) == column.as_ref(),
        "a round's column is not the one of rule 6",
    )?;
    replay.columns += 1;
    Ok(())
}

/// Each cell is the answer to its question, and the other bytes are zero.
fn check_cells(
    machine: &OwnedMachine,
    replay: &Replay<'_>,
    columns: &[Vec<u8>],
) -> Result<(), String> {
    let mut expected = vec![0; TABLE_AREA];
    for (row, word) in replay.row_words.iter().enumerate() {
        for (place, column) in columns[..replay.columns].iter().enumerate() {
            expected[row * MAX_COLUMNS + place] = machine.lend().ask(&joined(word, column));
        }
    }
    ensure(
        replay.table[..TABLE_AREA] == expected,
        "a byte of the table is not the cell or zero due there",
    )
}

/// Done where no counterexample exists, else Open with the least one in its sheet.
fn check_stop(machine: &OwnedMachine, learnt: &Learnt, replay: &Replay<'_>) -> Result<(), String> {
    let conjecture = replay.conjecture();
    let counterexample = minimise::least_difference(machine.lend(), conjecture.lend());
    match (learnt.answer, counterexample) {
        (Answer::Done { .. }, None) => Ok(()),
        (Answer::Open { .. }, Some(word)) => ensure(
            learnt.sheet_written() == [b"CX", &[word.len() as u8][..], &word].concat(),
            "Open without the least counterexample",
        ),
        (_, None) => Err("Open without a counterexample".to_string()),
        (_, Some(_)) => Err("Done with a counterexample".to_string()),
    }
}

/// Two runs at random L and R. They show the table of min(R, rounds needed), or 10 where it has more
/// than L words; the second has R below the rounds needed, so that Open comes often enough.
fn check_limits(
    machine: &OwnedMachine,
    full: &Learnt,
    smallest: &Smallest,
    columns: &[Vec<u8>],
    (totals, place): (&mut Totals, usize),
    rng: &mut Rng,
) -> Result<(), String> {
    let Answer::Done { rounds: needed, .. } = full.answer else {
        return Err("the full run is not done".to_string());
    };
    for r in [rng.below(MAX_ROUNDS + 1), rng.below(needed + 1)] {
        let l = 1 + rng.below(MAX_STATES);
        let unlimited = learn(machine, MAX_STATES, r, rng);
        let limited = learn(machine, l, r, rng);
        count_answer(&limited, totals, place);
        check_rounds(machine, &unlimited, full, (r, needed), columns)?;
        check_limit(machine, &limited, &unlimited, smallest, l)?;
    }
    Ok(())
}

/// With L = 48: the finished answer where R rounds are enough, else Open with R rounds.
fn check_rounds(
    machine: &OwnedMachine,
    unlimited: &Learnt,
    full: &Learnt,
    (r, needed): (usize, usize),
    columns: &[Vec<u8>],
) -> Result<(), String> {
    if r >= needed {
        return ensure(
            unlimited.leaves_the_same(full),
            "with rounds enough another answer than with 47",
        );
    }
    let Answer::Open {
        states,
        rounds,
        cells,
        bytes,
    } = unlimited.answer
    else {
        return Err(format!("R = {r} is not open: {:?}", unlimited.answer));
    };
    ensure(rounds == r, "Open before R rounds are past")?;
    ensure(
        rounds < states && states < finished_states(full),
        "Open with an impossible number of states",
    )?;
    ensure(
        cells == cells_by_formula(states, machine.k, rounds),
        "Open with a wrong number of cells",
    )?;
    ensure(bytes <= 3 + 94, "a counterexample of more than 94 letters")?;
    ensure(unlimited.beyond_is_untouched(), "Open set bytes beyond")?;
    check_table(machine, unlimited, columns)
}

/// The states of the finished model, which any table that is still open has to stay below.
fn finished_states(full: &Learnt) -> usize {
    match full.answer {
        Answer::Done { states, .. } => states,
        Answer::Open { .. } | Answer::Refused(_) => 0,
    }
}

/// With L below 48: 10 exactly where S has more than L words, else the same answer as without limit.
fn check_limit(
    machine: &OwnedMachine,
    limited: &Learnt,
    unlimited: &Learnt,
    smallest: &Smallest,
    l: usize,
) -> Result<(), String> {
    let (Answer::Done { states, .. } | Answer::Open { states, .. }) = unlimited.answer else {
        return Err("a refusal without limit".to_string());
    };
    if states > l {
        return check_ten(limited);
    }
    ensure(
        limited.leaves_the_same(unlimited) && limited.beyond_is_untouched(),
        "L changes an answer that it allows",
    )?;
    if let Answer::Done { .. } = limited.answer {
        check_done(machine, limited, smallest)?;
    }
    Ok(())
}

/// Refusal 10 zeroes the first 34,043 bytes of the table area and leaves everything else.
fn check_ten(learnt: &Learnt) -> Result<(), String> {
    ensure(
        learnt.answer == Answer::Refused(refusal::TOO_MANY_STATES),
        "10 is due",
    )?;
    ensure(
        learnt.table[..TABLE_AREA].iter().all(|&byte| byte == 0),
        "10 leaves cells",
    )?;
    ensure(learnt.beyond_is_untouched(), "10 set bytes beyond")
}

/// With R = 47 the least L that is enough is the size of the minimised machine.
fn check_exact_limit(machine: &OwnedMachine, size: usize, rng: &mut Rng) -> Result<(), String> {
    let enough = learn(machine, size, MAX_ROUNDS, rng);
    ensure(
        matches!(enough.answer, Answer::Done { .. }),
        "L equal to the minimised size is refused",
    )?;
    if size > 1 {
        check_ten(&learn(machine, size - 1, MAX_ROUNDS, rng))?;
    }
    Ok(())
}

/// A damaged machine sheet is refused with 1 to 5 and no word set, or it is the sheet of its words.
fn check_damaged_machine_sheet(
    sheet: &[u8],
    totals: &mut Totals,
    rng: &mut Rng,
) -> Result<(), String> {
    let before = rng.noise_words(WORD_AREA);
    let mut words = before.clone();
    match sheets::read_machine_sheet(sheet, &mut words) {
        Ok((n, k)) => {
            totals.damaged_machine_sheets[0] += 1;
            let mut area = rng.noise(MACHINE_SHEET_AREA);
            let length = sheets::write_machine_sheet(&words[..n * k], n, k, &mut area);
            ensure(
                length == Ok(sheet.len()) && area.starts_with(sheet),
                "a machine sheet that was read is written otherwise",
            )
        }
        Err(number) => {
            totals.damaged_machine_sheets[usize::from(number)] += 1;
            ensure(
                (1..=5).contains(&number),
                "an odd refusal of a machine sheet",
            )?;
            ensure(words == before, "a refused machine sheet sets words")
        }
    }
}

/// Any proof sheet: the reader's refusal comes before the checker's own, and an accepted sheet proves a
/// smallest model.
fn check_any_proof_sheet(
    machine: &OwnedMachine,
    sheet: &[u8],
    totals: &mut [usize; 15],
) -> Result<(), String> {
    let read = sheets::parse_proof_sheet(sheet);
    let checked = checker::check(&machine.words, machine.n, machine.k, sheet);
    totals[usize::from(checked.err().unwrap_or(0))] += 1;
    let proof = match read {
        Ok(proof) => proof,
        Err(number) => {
            ensure((1..=6).contains(&number), "an odd refusal of a proof sheet")?;
            ensure(
                checked == Err(number),
                "reader and checker refuse differently",
            )?;
            return ensure(
                sheets::aw_record(sheet, 0).is_empty(),
                "an AW record from a refused sheet",
            );
        }
    };
    ensure(
        checked == verdict(machine.lend(), &proof),
        "the checker's answer is not the one due",
    )?;
    ensure(
        checked.is_err() || minimise::is_smallest_model(proof.model.lend(), machine.lend()),
        "an accepted sheet does not hold a smallest model",
    )
}

/// The checker's conditions once more, put in another way: the first that fails gives the number.
fn verdict(machine: Machine<'_>, proof: &ProofSheet<'_>) -> Result<(), u8> {
    let Counts { m, k, n, .. } = proof.counts;
    let model = proof.model.lend();
    if (n, k) != (machine.states(), machine.letters()) {
        return Err(refusal::OTHER_COUNTS);
    }
    let reached: Vec<usize> = proof
        .reaching_words
        .iter()
        .map(|word| model.state_after(word))
        .collect();
    if reached != (0..m).collect::<Vec<usize>>() {
        return Err(refusal::REACHING_WORD);
    }
    // All states are told apart exactly when no two give the same list of answers.
    let answers_of = |state: usize| -> Vec<u8> {
        let columns = proof.columns.iter();
        columns
            .map(|column| model.last_output_from(state, column))
            .collect()
    };
    if (0..m).map(answers_of).collect::<BTreeSet<_>>().len() < m {
        return Err(refusal::NOT_TOLD_APART);
    }
    let image = |state: usize| usize::from(proof.state_map[state]);
    let mapped = (0..n).filter(|&state| image(state) < m);
    let mut steps = mapped.flat_map(|state| machine.alphabet().map(move |letter| (state, letter)));
    let holds = |(state, letter): (usize, u8)| {
        let of_machine = (
            machine.output(state, letter),
            image(machine.next(state, letter)),
        );
        let of_model = (
            model.output(image(state), letter),
            model.next(image(state), letter),
        );
        of_machine == of_model
    };
    if image(0) != 0 || !steps.all(holds) {
        return Err(refusal::STATE_MAP);
    }
    Ok(())
}
