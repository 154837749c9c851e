//! One machine with its areas, and the operations that are measured on it.

use crate::machines::Kind;
use crate::ours;
use second::learner::{self, Answer, MAX_ROUNDS, TABLE_AREA};
use second::machine::{OwnedMachine, MAX_STATES, WORD_AREA};
use second::{checker, sheets};
use std::hint::black_box;

#[derive(Clone, Copy, Debug, PartialEq, Eq)]
pub enum Operation {
    Learning,
    Checking,
    Reading,
}

impl Operation {
    pub const ALL: [Operation; 3] = [Operation::Learning, Operation::Checking, Operation::Reading];

    pub fn name(self) -> &'static str {
        match self {
            Operation::Learning => "learning",
            Operation::Checking => "checking",
            Operation::Reading => "reading",
        }
    }
}

#[derive(Clone, Copy, Debug, PartialEq, Eq)]
pub enum Side {
    Ours,
    Second,
}

impl Side {
    pub const ALL: [Side; 2] = [Side::Ours, Side::Second];

    pub fn name(self) -> &'static str {
        match self {
            Side::Ours => "ours",
            Side::Second => "second",
        }
    }
}

pub struct Subject {
    pub kind: Kind,
    pub rounds: usize,
    pub cells: usize,
    pub machine: OwnedMachine,
    machine_sheet: Vec<u8>,
    proof_sheet: Vec<u8>,
    table: Vec<u8>,
    sheet: Vec<u8>,
    words: Vec<u16>,
}

impl Subject {
    /// Both sides have learnt, read and accepted the machine, with the same answers and bytes.
    pub fn new(kind: Kind, n: usize, k: usize) -> Self {
        let machine = kind.machine(n, k);
        let mut machine_sheet = vec![0; sheets::MACHINE_SHEET_AREA];
        let length = sheets::write_machine_sheet(&machine.words, n, k, &mut machine_sheet)
            .expect("a machine within the limits can be written");
        machine_sheet.truncate(length);
        let mut subject = Subject {
            kind,
            rounds: 0,
            cells: 0,
            machine,
            machine_sheet,
            proof_sheet: Vec::new(),
            table: vec![0; TABLE_AREA],
            sheet: vec![0; sheets::PROOF_SHEET_AREA],
            words: vec![0; WORD_AREA],
        };
        subject.agree();
        subject
    }

    fn agree(&mut self) {
        let [ours, second] = Side::ALL.map(|side| {
            self.clear();
            let learnt = self.learn(side);
            (learnt, self.table.clone(), self.sheet.clone())
        });
        assert!(ours == second, "learnt alike");
        let Answer::Done {
            states,
            rounds,
            cells,
            bytes,
        } = ours.0
        else {
            panic!("rounds and limit are enough for every machine");
        };
        assert_eq!(states, self.machine.n);
        (self.rounds, self.cells) = (rounds, cells);
        self.proof_sheet = ours.2[..bytes].to_vec();
        let read = Side::ALL.map(|side| {
            self.clear();
            (self.read(side), self.words.clone())
        });
        assert!(read[0] == read[1] && read[0].0 .0.is_ok() && read[0].0 .1.is_ok());
        assert_eq!(Side::ALL.map(|side| self.check(side)), [Ok(()); 2]);
    }

    /// Every area that an operation writes.
    pub fn clear(&mut self) {
        self.table.fill(0);
        self.sheet.fill(0);
        self.words.fill(0);
    }

    pub fn run(&mut self, operation: Operation, side: Side) {
        match operation {
            Operation::Learning => _ = black_box(self.learn(side)),
            Operation::Checking => _ = black_box(self.check(side)),
            Operation::Reading => _ = black_box(self.read(side)),
        }
    }

    fn learn(&mut self, side: Side) -> Answer {
        let learn = match side {
            Side::Ours => ours::learn,
            Side::Second => learner::learn,
        };
        let OwnedMachine { words, n, k } = &self.machine;
        let (table, sheet) = (&mut self.table, &mut self.sheet);
        learn(words, *n, *k, MAX_STATES, MAX_ROUNDS, table, sheet)
    }

    fn check(&self, side: Side) -> Result<(), u8> {
        let check = match side {
            Side::Ours => ours::check,
            Side::Second => checker::check,
        };
        let OwnedMachine { words, n, k } = &self.machine;
        check(words, *n, *k, &self.proof_sheet)
    }

    /// The machine sheet, then the proof sheet.
    fn read(&mut self, side: Side) -> (Result<(usize, usize), u8>, Result<sheets::Counts, u8>) {
        match side {
            Side::Ours => (
                ours::read_machine(&self.machine_sheet, &mut self.words),
                ours::read_proof(&self.proof_sheet),
            ),
            Side::Second => (
                sheets::read_machine_sheet(&self.machine_sheet, &mut self.words),
                sheets::read_proof_sheet(&self.proof_sheet),
            ),
        }
    }
}
