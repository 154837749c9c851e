//! Every answer and every lent area of the proved program held against this program's own.

pub mod case;
mod checking;
pub mod exchange;
pub mod family;
mod learning;
mod lent;
mod limits;
mod reading;
pub mod soak;
mod states;

use case::{Case, Operation, Outcome};
use family::{Family, Plan};
use std::collections::BTreeMap;

/// How many cases of each operation came out in each way, and what is wrong.
#[derive(Clone, Debug, Default)]
pub struct Compared {
    pub cases: usize,
    pub by_outcome: BTreeMap<(Operation, Outcome), usize>,
    /// The accepted sheets whose model was found equal to the machine and as small as the minimised one.
    pub smallest_models: usize,
    pub differ: usize,
    /// The first cases that differ.
    pub differences: Vec<Difference>,
    /// What is wrong beside cases that differ.
    pub wrong: Vec<String>,
}

/// A case whose answers differ.
#[derive(Clone, Debug)]
pub struct Difference {
    pub case: Case,
    pub expected: Vec<u8>,
    pub found: Vec<u8>,
}

/// No more differences than these are kept to be shown.
const KEPT_DIFFERENCES: usize = 3;

impl Compared {
    pub fn is_right(&self) -> bool {
        self.differ == 0 && self.wrong.is_empty()
    }

    /// How often each outcome of an operation was met.
    pub fn outcomes(&self, operation: Operation) -> Vec<(Outcome, usize)> {
        let outcomes = self.by_outcome.iter();
        outcomes
            .filter(|((of, _), _)| *of == operation)
            .map(|((_, outcome), count)| (*outcome, *count))
            .collect()
    }

    fn add(&mut self, case: Case, found: Vec<u8>) {
        let expected = case.answer();
        let outcome = case.outcome(&expected);
        self.cases += 1;
        *self
            .by_outcome
            .entry((case.operation, outcome))
            .or_insert(0) += 1;
        if found != expected {
            self.add_difference(case, expected, found);
        } else if outcome == Outcome::Accepted {
            self.add_accepted(&case);
        }
    }

    fn add_difference(&mut self, case: Case, expected: Vec<u8>, found: Vec<u8>) {
        self.differ += 1;
        if self.differences.len() < KEPT_DIFFERENCES {
            self.differences.push(Difference {
                case,
                expected,
                found,
            });
        }
    }

    /// Both programs accept the sheet; whether they are right to do so is seen without either checker.
    fn add_accepted(&mut self, case: &Case) {
        if checking::holds_smallest_model(case) {
            self.smallest_models += 1;
        } else {
            self.wrong
                .push(format!("accepted without a smallest model: {case:?}"));
        }
    }

    /// Adds what another run met.
    pub fn join(&mut self, other: Compared) {
        self.cases += other.cases;
        for (met, count) in other.by_outcome {
            *self.by_outcome.entry(met).or_insert(0) += count;
        }
        self.smallest_models += other.smallest_models;
        self.differ += other.differ;
        self.differences.extend(other.differences);
        self.wrong.extend(other.wrong);
    }

    /// A comparison in which some answer of the paper never came up shows too little. One that ended early has
    /// said so already.
    pub fn require_every_outcome(&mut self, families: &[Family]) {
        if !self.wrong.is_empty() {
            return;
        }
        for operation in families.iter().flat_map(|family| family.operations()) {
            for outcome in operation.outcomes() {
                if !self.by_outcome.contains_key(&(*operation, outcome)) {
                    let name = operation.name();
                    self.wrong.push(format!("never met: {name}, {outcome}"));
                }
            }
        }
    }
}

/// Runs a program once over all cases of a plan; an error says why it could not be started.
pub fn run(plan: &Plan, program: &[&str]) -> Result<Compared, String> {
    let mut compared = Compared::default();
    let answered = exchange::start(program)?.answer(|give| plan.make(give), &mut |case, found| {
        compared.add(case, found)
    });
    if let Err(why) = answered {
        compared.wrong.push(why);
    }
    Ok(compared)
}

#[cfg(test)]
mod tests {
    use super::*;
    use std::io::{self, Write};
    use std::os::unix::net::UnixStream;
    use std::thread;

    fn plan(families: &[Family], count: usize) -> Plan {
        Plan {
            families: families.to_vec(),
            has_fixed: true,
            seed: 1,
            count,
        }
    }

    /// Lets everything through but for one bit of one byte, counted from the first byte written.
    struct Liar<W> {
        to: W,
        until_lie: Option<usize>,
    }

    impl<W: Write> Write for Liar<W> {
        fn write(&mut self, bytes: &[u8]) -> io::Result<usize> {
            let mut bytes = bytes.to_vec();
            self.until_lie = match self.until_lie {
                Some(place) if place < bytes.len() => {
                    bytes[place] ^= 1;
                    None
                }
                later => later.map(|place| place - bytes.len()),
            };
            self.to.write_all(&bytes)?;
            Ok(bytes.len())
        }

        fn flush(&mut self) -> io::Result<()> {
            self.to.flush()
        }
    }

    /// The comparison with this program's own answers, of which one byte may be a lie.
    fn compared_with_itself(plan: &Plan, lie: Option<usize>) -> Compared {
        let (input, cases) = UnixStream::pair().expect("two ends");
        let (answers, output) = UnixStream::pair().expect("two ends");
        let answerer = thread::spawn(move || {
            let liar = Liar {
                to: answers,
                until_lie: lie,
            };
            exchange::answer_all(cases, liar)
        });
        let mut compared = Compared::default();
        let answered =
            exchange::exchange(|give| plan.make(give), input, output, &mut |case, found| {
                compared.add(case, found)
            });
        assert_eq!(answered, Ok(()));
        let ended = answerer.join().expect("no panic");
        assert!(ended.is_ok());
        compared
    }

    #[test]
    fn the_cases_meet_every_answer_of_every_operation() {
        for family in Family::ALL {
            let mut compared = compared_with_itself(&plan(&[family], 18), None);
            compared.require_every_outcome(&[family]);
            assert!(compared.is_right(), "{:?}", compared.wrong);
            for ((operation, outcome), _) in compared.by_outcome {
                assert!(family.operations().contains(&operation));
                assert!(operation.outcomes().contains(&outcome));
            }
        }
    }

    #[test]
    fn the_fixed_cases_alone_meet_every_answer() {
        for family in [Family::Learner, Family::Checker, Family::States] {
            let mut compared = compared_with_itself(&plan(&[family], 0), None);
            compared.require_every_outcome(&[family]);
            assert!(compared.is_right(), "{:?}", compared.wrong);
        }
    }

    #[test]
    fn every_accepted_sheet_is_searched() {
        let compared = compared_with_itself(&plan(&[Family::Checker], 9), None);
        let accepted = compared.by_outcome[&(Operation::Check, Outcome::Accepted)];
        assert_eq!(compared.smallest_models, accepted);
        assert!(accepted > 9);
    }

    /// A byte of the numbers, of the table and of the sheet, and one of the checker's answers.
    #[test]
    fn one_byte_that_differs_is_seen() {
        let generated = |family| Plan {
            has_fixed: false,
            ..plan(&[family], 1)
        };
        let places = [3, 9, 34_000, 40_000];
        let of_learner = places.map(|place| (Family::Learner, place));
        for (family, place) in of_learner.into_iter().chain([(Family::Checker, 0)]) {
            let compared = compared_with_itself(&generated(family), Some(place));
            assert_eq!((compared.differ, compared.differences.len()), (1, 1));
            assert!(!compared.is_right());
        }
    }

    #[test]
    fn an_answer_that_never_comes_is_missed() {
        let mut compared = Compared::default();
        compared.require_every_outcome(&[Family::Learner]);
        let due = Operation::Learn.outcomes().len();
        assert_eq!((compared.wrong.len(), compared.is_right()), (due, false));
    }
}
