//! One case for the proved program: its bytes, and the bytes of its answer as this program gives it.
//! The head comment of that program (crates/answers/src/main.rt) has the protocol.

use crate::apart::{self, Told};
use crate::checker;
use crate::learner::{self, Answer};
use crate::machine::{self, OwnedMachine};
use crate::sheets::{self, Counts};
use std::fmt::{self, Display, Formatter};
use std::io::{self, Read};

/// The operations, under the protocol's numbers.
#[derive(Clone, Copy, Debug, PartialEq, Eq, PartialOrd, Ord)]
pub enum Operation {
    ReadMachine = 1,
    WriteMachine = 2,
    ReadProof = 3,
    AwRecord = 4,
    Question = 5,
    Learn = 6,
    Check = 7,
    WhyApart = 8,
}

impl Operation {
    pub const ALL: [Operation; 8] = [
        Operation::ReadMachine,
        Operation::WriteMachine,
        Operation::ReadProof,
        Operation::AwRecord,
        Operation::Question,
        Operation::Learn,
        Operation::Check,
        Operation::WhyApart,
    ];

    pub fn name(self) -> &'static str {
        match self {
            Operation::ReadMachine => "machine sheets read",
            Operation::WriteMachine => "machine sheets written",
            Operation::ReadProof => "proof sheets read",
            Operation::AwRecord => "AW records",
            Operation::Question => "questions",
            Operation::Learn => "machines learnt",
            Operation::Check => "proof sheets checked",
            Operation::WhyApart => "states told apart",
        }
    }

    /// Everything that the paper lets the operation answer.
    pub fn outcomes(self) -> Vec<Outcome> {
        let (answers, refusals): (&[Outcome], &[u8]) = match self {
            Operation::ReadMachine => (&[Outcome::Answered], &[1, 2, 3, 4, 5, 8]),
            Operation::WriteMachine => (&[Outcome::Answered], &[1, 3, 4, 5, 9]),
            Operation::ReadProof => (&[Outcome::Answered], &[1, 2, 3, 4, 5, 6]),
            Operation::AwRecord => (&[Outcome::Answered, Outcome::Empty], &[]),
            Operation::Question => (&[Outcome::Answered], &[1, 3, 4, 5, 6]),
            Operation::Learn => (&[Outcome::Done, Outcome::Open], &[1, 3, 4, 5, 7, 8, 9, 10]),
            Operation::Check => (&[Outcome::Accepted], &[1, 2, 3, 4, 5, 6, 11, 12, 13, 14]),
            Operation::WhyApart => (&[Outcome::Answered, Outcome::None], &[1, 3, 4, 5, 9]),
        };
        let refusals = refusals.iter().copied().map(Outcome::Refused);
        answers.iter().copied().chain(refusals).collect()
    }
}

/// What was answered, to be counted.
#[derive(Clone, Copy, Debug, PartialEq, Eq, PartialOrd, Ord)]
pub enum Outcome {
    Answered,
    Empty,
    Done,
    Open,
    Accepted,
    None,
    Refused(u8),
}

impl Display for Outcome {
    fn fmt(&self, to: &mut Formatter<'_>) -> fmt::Result {
        match self {
            Outcome::Answered => write!(to, "answered"),
            Outcome::Empty => write!(to, "empty"),
            Outcome::Done => write!(to, "done"),
            Outcome::Open => write!(to, "open"),
            Outcome::Accepted => write!(to, "accepted"),
            Outcome::None => write!(to, "none"),
            Outcome::Refused(number) => write!(to, "refused {number}"),
        }
    }
}

/// A case: what the operation is given, lent areas by their lengths alone.
#[derive(Clone, Debug, PartialEq, Eq)]
pub struct Case {
    pub operation: Operation,
    pub seed: u8,
    pub numbers: [u16; 4],
    pub areas: [u16; 2],
    pub inputs: [Vec<u8>; 2],
}

/// A machine as it is lent, good or bad: its words, n and k.
#[derive(Clone, Debug)]
pub struct Lent {
    pub words: Vec<u16>,
    pub n: u16,
    pub k: u16,
}

impl Lent {
    pub fn of(machine: &OwnedMachine) -> Lent {
        Lent {
            words: machine.words.clone(),
            n: number(machine.n),
            k: number(machine.k),
        }
    }
}

/// The bytes of a case before its inputs.
const CASE_HEAD: usize = 18;
/// Kind and numbers, the part of an answer that every operation gives.
pub const ANSWER_HEAD: usize = 9;

const REFUSED: u8 = 0;
const ANSWERED: u8 = 1;
/// The learner's second kind of answer; its first is Done.
const OPEN: u8 = 2;
/// No word tells two states apart.
const NONE: u8 = 2;

/// An answer's kind and its numbers.
type Head = (u8, [usize; 4]);

impl Case {
    pub fn read_machine(sheet: Vec<u8>, area: u16, seed: u8) -> Case {
        Case {
            operation: Operation::ReadMachine,
            seed,
            numbers: [0; 4],
            areas: [area, 0],
            inputs: [sheet, Vec::new()],
        }
    }

    pub fn write_machine(machine: &Lent, area: u16, seed: u8) -> Case {
        Case {
            operation: Operation::WriteMachine,
            seed,
            areas: [area, 0],
            ..Case::question(machine, Vec::new())
        }
    }

    pub fn read_proof(sheet: Vec<u8>) -> Case {
        Case {
            operation: Operation::ReadProof,
            ..Case::read_machine(sheet, 0, 0)
        }
    }

    pub fn aw_record(sheet: Vec<u8>, state: u16) -> Case {
        Case {
            operation: Operation::AwRecord,
            numbers: [state, 0, 0, 0],
            ..Case::read_proof(sheet)
        }
    }

    pub fn question(machine: &Lent, word: Vec<u8>) -> Case {
        Case {
            operation: Operation::Question,
            seed: 0,
            numbers: [machine.n, machine.k, 0, 0],
            areas: [0; 2],
            inputs: [bytes_of(&machine.words), word],
        }
    }

    /// The areas are those of the table and of the sheet.
    pub fn learn(machine: &Lent, (l, r): (u16, u16), areas: [u16; 2], seed: u8) -> Case {
        Case {
            operation: Operation::Learn,
            seed,
            numbers: [machine.n, machine.k, l, r],
            areas,
            inputs: [bytes_of(&machine.words), Vec::new()],
        }
    }

    pub fn check(machine: &Lent, sheet: Vec<u8>) -> Case {
        Case {
            operation: Operation::Check,
            ..Case::question(machine, sheet)
        }
    }

    pub fn why_apart(machine: &Lent, (s, t): (u16, u16), area: u16, seed: u8) -> Case {
        Case {
            operation: Operation::WhyApart,
            numbers: [machine.n, machine.k, s, t],
            ..Case::write_machine(machine, area, seed)
        }
    }

    /// The case as the proved program reads it.
    pub fn bytes(&self) -> Vec<u8> {
        let lengths = [0, 1].map(|input| number(self.inputs[input].len()));
        let mut bytes = vec![self.operation as u8, self.seed];
        for number in self.numbers.iter().chain(&self.areas).chain(&lengths) {
            bytes.extend(number.to_le_bytes());
        }
        bytes.extend(self.inputs.concat());
        bytes
    }

    /// Reads a case as the proved program does: none where no whole case follows.
    pub fn read(from: &mut impl Read) -> io::Result<Case> {
        let mut head = [0; CASE_HEAD];
        from.read_exact(&mut head)?;
        let operation = Operation::ALL
            .into_iter()
            .find(|&operation| operation as u8 == head[0])
            .ok_or(io::ErrorKind::InvalidData)?;
        let numbers = words_of(&head[2..]);
        let mut inputs = [numbers[6], numbers[7]].map(|length| vec![0; usize::from(length)]);
        for input in &mut inputs {
            from.read_exact(input)?;
        }
        Ok(Case {
            operation,
            seed: head[1],
            numbers: [numbers[0], numbers[1], numbers[2], numbers[3]],
            areas: [numbers[4], numbers[5]],
            inputs,
        })
    }

    /// The answer, with every lent area and the part handed back, as this program gives it.
    pub fn answer(&self) -> Vec<u8> {
        let [first, second] = &self.inputs;
        let [a, b, l, r] = self.numbers.map(usize::from);
        match self.operation {
            Operation::ReadMachine => {
                let mut area = words_of(&self.noise(0));
                let read = sheets::read_machine_sheet(first, &mut area);
                answer_bytes(head(read.map(|(n, k)| [n, k, 0, 0])), &bytes_of(&area))
            }
            Operation::WriteMachine => {
                let mut area = self.noise(0);
                let written = sheets::write_machine_sheet(&words_of(first), a, b, &mut area);
                answer_bytes(head(written.map(one_value)), &area)
            }
            Operation::ReadProof => {
                let read = sheets::read_proof_sheet(first);
                let counts = read.map(|Counts { m, k, n, c }| [m, k, n, c]);
                answer_bytes(head(counts), &[])
            }
            Operation::AwRecord => {
                let part = sheets::aw_record(first, a);
                answer_bytes(head(Ok(one_value(part.len()))), part)
            }
            Operation::Question => {
                let answered = machine::question(&words_of(first), a, b, second);
                let value = answered.map(|output| one_value(usize::from(output)));
                answer_bytes(head(value), &[])
            }
            Operation::Learn => {
                let [mut table, mut sheet] = [self.noise(0), self.noise(1)];
                let words = words_of(first);
                let learnt = learner::learn(&words, a, b, l, r, &mut table, &mut sheet);
                answer_bytes(learner_head(learnt), &[table, sheet].concat())
            }
            Operation::Check => {
                let checked = checker::check(&words_of(first), a, b, second);
                answer_bytes(head(checked.map(|()| [0; 4])), &[])
            }
            Operation::WhyApart => {
                let mut area = self.noise(0);
                let told = apart::why_apart(&words_of(first), a, b, (l, r), &mut area);
                answer_bytes(why_head(told), &area)
            }
        }
    }

    /// How many bytes follow the head of an answer: the areas, and the part handed back.
    pub fn bytes_after(&self, answer_head: &[u8]) -> usize {
        match self.operation {
            Operation::AwRecord => usize::from(number_at(answer_head, 0)),
            _ => self.area_bytes(0) + self.area_bytes(1),
        }
    }

    /// What was answered.
    pub fn outcome(&self, answer: &[u8]) -> Outcome {
        match (answer[0], self.operation) {
            (REFUSED, _) => Outcome::Refused(number_at(answer, 0) as u8),
            (OPEN, Operation::Learn) => Outcome::Open,
            (_, Operation::Learn) => Outcome::Done,
            (NONE, Operation::WhyApart) => Outcome::None,
            (_, Operation::Check) => Outcome::Accepted,
            (_, Operation::AwRecord) if answer.len() == ANSWER_HEAD => Outcome::Empty,
            _ => Outcome::Answered,
        }
    }

    /// The machine that is lent as words.
    pub fn machine(&self) -> OwnedMachine {
        let [n, k, ..] = self.numbers.map(usize::from);
        OwnedMachine {
            n,
            k,
            words: words_of(&self.inputs[0]),
        }
    }

    /// The length of an area in bytes. The reader of machine sheets alone is lent words.
    fn area_bytes(&self, area: usize) -> usize {
        let length = usize::from(self.areas[area]);
        match self.operation {
            Operation::ReadMachine => 2 * length,
            _ => length,
        }
    }

    /// An area, in bytes, before the call.
    fn noise(&self, area: usize) -> Vec<u8> {
        let byte = |place: usize| (7 * place + 13 * area + usize::from(self.seed)) as u8;
        (0..self.area_bytes(area)).map(byte).collect()
    }
}

fn one_value(value: usize) -> [usize; 4] {
    [value, 0, 0, 0]
}

/// One of an answer's numbers.
pub fn number_at(answer: &[u8], place: usize) -> u16 {
    u16::from_le_bytes([answer[1 + 2 * place], answer[2 + 2 * place]])
}

/// What an operation answers that has values or the number of its refusal.
fn head(values: Result<[usize; 4], u8>) -> Head {
    match values {
        Ok(values) => (ANSWERED, values),
        Err(refusal) => (REFUSED, one_value(usize::from(refusal))),
    }
}

fn learner_head(answer: Answer) -> Head {
    match answer {
        Answer::Done {
            states,
            rounds,
            cells,
            bytes,
        } => (ANSWERED, [states, rounds, cells, bytes]),
        Answer::Open {
            states,
            rounds,
            cells,
            bytes,
        } => (OPEN, [states, rounds, cells, bytes]),
        Answer::Refused(number) => head(Err(number)),
    }
}

fn why_head(answer: Result<Option<Told>, u8>) -> Head {
    let values = |told: Told| {
        let [first, second] = [told.first, told.second].map(usize::from);
        [told.length, first, second, 0]
    };
    match answer {
        Ok(None) => (NONE, [0; 4]),
        answer => head(answer.map(|told| told.map_or([0; 4], values))),
    }
}

fn answer_bytes((kind, numbers): Head, after: &[u8]) -> Vec<u8> {
    let mut bytes = vec![kind];
    for value in numbers {
        bytes.extend(number(value).to_le_bytes());
    }
    bytes.extend(after);
    bytes
}

fn number(value: usize) -> u16 {
    u16::try_from(value).expect("every number of a case fits two bytes")
}

fn bytes_of(words: &[u16]) -> Vec<u8> {
    words.iter().flat_map(|word| word.to_le_bytes()).collect()
}

fn words_of(bytes: &[u8]) -> Vec<u16> {
    let pairs = bytes.chunks_exact(2);
    pairs
        .map(|pair| u16::from_le_bytes([pair[0], pair[1]]))
        .collect()
}

#[cfg(test)]
mod tests {
    use super::*;

    #[test]
    fn a_case_is_read_as_it_was_written() {
        let machine = Lent {
            words: vec![7, 300],
            n: 2,
            k: 1,
        };
        let cases = [
            Case::learn(&machine, (48, 47), [34_043, 9_368], 200),
            Case::check(&machine, b"PH\x01".to_vec()),
        ];
        let bytes = cases.each_ref().map(Case::bytes).concat();
        let mut from = &bytes[..];
        for case in cases {
            assert_eq!(Case::read(&mut from).ok(), Some(case));
        }
        assert!(Case::read(&mut from).is_err());
    }

    /// The head comment's formula and order, on bytes written by hand.
    #[test]
    fn the_learners_answer_has_both_areas_whole() {
        let machine = Lent {
            words: vec![7],
            n: 1,
            k: 1,
        };
        let refused = Case::learn(&machine, (0, 0), [2, 3], 250).answer();
        assert_eq!(refused, [0, 7, 0, 0, 0, 0, 0, 0, 0, 250, 1, 7, 14, 21]);
        let case = Case::learn(&machine, (48, 47), [34_044, 9_369], 1);
        let done = case.answer();
        assert_eq!(done[..ANSWER_HEAD], [1, 1, 0, 0, 0, 2, 0, 20, 0]);
        assert_eq!(done.len(), ANSWER_HEAD + case.bytes_after(&done));
        let (table, sheet) = done[ANSWER_HEAD..].split_at(34_044);
        assert_eq!((table[0], table[58], table[59], table[60]), (7, 0, 7, 0));
        assert_eq!(table[34_042..], [0, (7 * 34_043 + 1) as u8]);
        assert_eq!(sheet[..4], *b"PH\x01\x01");
        assert_eq!(sheet[20], 7 * 20 + 13 + 1);
    }
}
