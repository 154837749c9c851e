//! The program: the paper's cases, self checks over generated machines, the comparison with the proved
//! program, machines for OpenFst, and the paper's `learn`.

use second::compare::case::Operation;
use second::compare::exchange;
use second::compare::family::{Family, Plan};
use second::compare::soak::{self, Soaked};
use second::compare::{Compared, Difference};
use second::generator::Kind;
use second::self_check::{Answers, Totals};
use second::{cases, compare, openfst, program, self_check};
use std::fmt::Write as _;
use std::fs;
use std::io::{self, Read, Write as _};
use std::path::Path;
use std::process::ExitCode;

const HELP: &str = "\
second: an independent learner of Mealy machines, to be compared with another one

second cases              run every case of the paper, one line each
second random SEED COUNT  run self checks over COUNT machines generated from SEED
second compare FAMILY SEED COUNT PROGRAM..
                          hold every answer of the proved program, run by the words PROGRAM.., against
                          this program's own: over M1's sheets, the paper's limits and COUNT machines
                          generated from SEED; FAMILY is sheets, learner, checker or all
second soak SEED SECONDS PROGRAM..
                          compare all families with the seeds SEED, SEED + 1, .. until the time is over
second answers            answer cases on standard input as the proved program does, which tries the
                          comparison itself
second openfst SEED COUNT DIRECTORY PROGRAM..
                          write COUNT machines generated from SEED to DIRECTORY in OpenFst's text form,
                          and print each one's file and the states of the model that PROGRAM.. learns
second learn              read a machine sheet on standard input, print its model or refusal
second --help             print this
";

/// What a command has to say, and whether all was right.
struct Outcome {
    text: String,
    is_right: bool,
}

fn main() -> ExitCode {
    let arguments: Vec<String> = std::env::args_os()
        .skip(1)
        .map(|argument| argument.to_string_lossy().into_owned())
        .collect();
    match command(&arguments) {
        Ok(outcome) => print(&outcome),
        Err(line) => {
            eprintln!("second: {line} (see second --help)");
            ExitCode::from(2)
        }
    }
}

/// Carries out a command; bad use gives a line that says what is wrong.
fn command(arguments: &[String]) -> Result<Outcome, String> {
    let arguments: Vec<&str> = arguments.iter().map(String::as_str).collect();
    match arguments[..] {
        [] => Err("a command is missing".to_string()),
        ["--help" | "-h"] => Ok(right(HELP.to_string())),
        ["cases"] => Ok(run_cases()),
        ["random", seed, count] => run_random(number("SEED", seed)?, number("COUNT", count)?),
        ["random", ..] => Err("random takes a SEED and a COUNT".to_string()),
        ["compare", family, seed, count, ref program @ ..] if !program.is_empty() => run_compare(
            families(family)?,
            number("SEED", seed)?,
            number("COUNT", count)?,
            program,
        ),
        ["compare", ..] => Err("compare takes a FAMILY, a SEED, a COUNT and a PROGRAM".to_string()),
        ["soak", seed, seconds, ref program @ ..] if !program.is_empty() => {
            run_soak(number("SEED", seed)?, number("SECONDS", seconds)?, program)
        }
        ["soak", ..] => Err("soak takes a SEED, SECONDS and a PROGRAM".to_string()),
        ["answers"] => run_answers(),
        ["openfst", seed, count, directory, ref program @ ..] if !program.is_empty() => {
            let (seed, count) = (number("SEED", seed)?, number("COUNT", count)?);
            run_openfst(seed, count, Path::new(directory), program)
        }
        ["openfst", ..] => {
            Err("openfst takes a SEED, a COUNT, a DIRECTORY and a PROGRAM".to_string())
        }
        ["learn"] => run_learn(),
        ["cases" | "answers" | "learn" | "--help" | "-h", ..] => {
            Err(format!("{} takes no further argument", arguments[0]))
        }
        [other, ..] => Err(format!("there is no command {other}")),
    }
}

fn right(text: String) -> Outcome {
    Outcome {
        text,
        is_right: true,
    }
}

fn number(name: &str, given: &str) -> Result<u64, String> {
    given
        .parse()
        .map_err(|_| format!("{name} is not a number from 0 to {}: {given}", u64::MAX))
}

/// A count of machines to be generated.
fn machines(count: u64) -> Result<usize, String> {
    usize::try_from(count).map_err(|_| "COUNT is too large".to_string())
}

fn print(outcome: &Outcome) -> ExitCode {
    if let Err(error) = io::stdout().write_all(outcome.text.as_bytes()) {
        eprintln!("second: cannot print: {error}");
        return ExitCode::FAILURE;
    }
    if outcome.is_right {
        ExitCode::SUCCESS
    } else {
        ExitCode::FAILURE
    }
}

fn run_cases() -> Outcome {
    let cases = cases::all();
    let mut text = String::new();
    for case in &cases {
        if case.is_right {
            line(&mut text, &format!("right  {}", case.name));
        } else {
            let (expected, found) = (shortened(&case.expected), shortened(&case.found));
            let name = case.name;
            line(
                &mut text,
                &format!("WRONG  {name}: expected {expected}, found {found}"),
            );
        }
    }
    let wrong = cases.iter().filter(|case| !case.is_right).count();
    line(&mut text, &format!("{} cases, {wrong} wrong", cases.len()));
    Outcome {
        text,
        is_right: wrong == 0,
    }
}

/// Whole areas are too long to print.
fn shortened(text: &str) -> String {
    const LONGEST: usize = 300;
    if text.len() <= LONGEST {
        text.to_string()
    } else {
        text.chars().take(LONGEST).chain("..".chars()).collect()
    }
}

fn run_random(seed: u64, count: u64) -> Result<Outcome, String> {
    Ok(match self_check::run(seed, machines(count)?) {
        Ok(totals) => right(totals_text(&totals)),
        Err(wrong) => Outcome {
            text: format!("WRONG  seed {seed}, {wrong}\n"),
            is_right: false,
        },
    })
}

fn totals_text(totals: &Totals) -> String {
    let mut text = String::new();
    let mut all = Answers::default();
    for (kind, answers) in Kind::ALL.iter().zip(&totals.by_kind) {
        line(&mut text, &answers_text(kind.name(), answers));
        all.machines += answers.machines;
        all.done += answers.done;
        all.open += answers.open;
        all.refused += answers.refused;
    }
    line(&mut text, &answers_text("all kinds", &all));
    line(
        &mut text,
        &format!(
            "most rounds at Done {}, longest column {}, longest counterexample at Open {}",
            totals.most_rounds, totals.longest_column, totals.longest_counterexample
        ),
    );
    line(
        &mut text,
        &sheets_text("damaged machine sheets", &totals.damaged_machine_sheets),
    );
    line(
        &mut text,
        &sheets_text("damaged proof sheets", &totals.damaged_proof_sheets),
    );
    line(
        &mut text,
        &sheets_text(
            "proof sheets of the machine before",
            &totals.other_proof_sheets,
        ),
    );
    line(&mut text, &format!("{} machines, 0 wrong", all.machines));
    text
}

fn answers_text(name: &str, answers: &Answers) -> String {
    let Answers {
        machines,
        done,
        open,
        refused,
    } = answers;
    format!("{name:<18} {machines:>6} machines: {done} done, {open} open, {refused} refused 10")
}

fn sheets_text(name: &str, counts: &[usize]) -> String {
    let mut text = format!("{name}: {} good", counts[0]);
    for (number, count) in counts.iter().enumerate().skip(1) {
        if *count > 0 {
            write!(text, ", {count} refused {number}").expect("a string takes everything");
        }
    }
    text
}

/// The families that a word names.
fn families(word: &str) -> Result<Vec<Family>, String> {
    let named = |family: &Family| word == "all" || word == family.name();
    let families: Vec<Family> = Family::ALL.into_iter().filter(named).collect();
    if families.is_empty() {
        return Err(format!("there is no family {word}"));
    }
    Ok(families)
}

fn run_compare(
    families: Vec<Family>,
    seed: u64,
    count: u64,
    program: &[&str],
) -> Result<Outcome, String> {
    let plan = Plan {
        families,
        has_fixed: true,
        seed,
        count: machines(count)?,
    };
    let mut compared = compare::run(&plan, program)?;
    compared.require_every_outcome(&plan.families);
    Ok(Outcome {
        text: compared_text(&compared) + &plan_text(&plan, &compared),
        is_right: compared.is_right(),
    })
}

fn plan_text(plan: &Plan, compared: &Compared) -> String {
    let names: Vec<&str> = plan.families.iter().map(|family| family.name()).collect();
    let Plan { seed, count, .. } = plan;
    let Compared { cases, differ, .. } = compared;
    let (names, kinds) = (names.join(", "), Kind::ALL.len());
    format!(
        "{names}: {count} machines of {kinds} kinds from seed {seed}, {cases} cases, {differ} differ\n"
    )
}

fn compared_text(compared: &Compared) -> String {
    let mut text = String::new();
    for Difference {
        case,
        expected,
        found,
    } in &compared.differences
    {
        line(&mut text, &format!("DIFFERS  {case:?}"));
        line(&mut text, &difference_text(expected, found));
    }
    for why in &compared.wrong {
        line(&mut text, &format!("WRONG  {}", shortened(why)));
    }
    for operation in Operation::ALL {
        let outcomes = compared.outcomes(operation).into_iter();
        let met: Vec<String> = outcomes
            .map(|(outcome, count)| format!("{count} {outcome}"))
            .collect();
        if !met.is_empty() {
            line(
                &mut text,
                &format!("{}: {}", operation.name(), met.join(", ")),
            );
        }
    }
    if compared.smallest_models > 0 {
        let count = compared.smallest_models;
        line(
            &mut text,
            &format!("{count} accepted sheets searched: each model is equal to its machine and as small as the minimised one"),
        );
    }
    text
}

/// The heads of two answers, and the first place where they differ: whole areas are too long to read.
fn difference_text(expected: &[u8], found: &[u8]) -> String {
    const SHOWN: usize = 24;
    let from = |answer: &[u8], place: usize| {
        let end = answer.len().min(place + SHOWN);
        format!("{:?}", &answer[place.min(end)..end])
    };
    let pairs = expected.iter().zip(found);
    let same = pairs.take_while(|(left, right)| left == right).count();
    format!(
        "    expected {}, {} bytes\n    found    {}, {} bytes\n    from byte {same}: expected {}, found {}",
        from(expected, 0),
        expected.len(),
        from(found, 0),
        found.len(),
        from(expected, same),
        from(found, same),
    )
}

fn run_soak(seed: u64, seconds: u64, program: &[&str]) -> Result<Outcome, String> {
    let soaked = soak::soak(seed, seconds, program, &mut |soaked| {
        println!("{}", soaked_text(seed, soaked));
    })?;
    let mut text = compared_text(&soaked.compared);
    line(&mut text, &soaked_text(seed, &soaked));
    Ok(Outcome {
        text,
        is_right: soaked.compared.is_right(),
    })
}

fn soaked_text(seed: u64, soaked: &Soaked) -> String {
    let Soaked {
        turns,
        seconds,
        compared: Compared { cases, differ, .. },
    } = soaked;
    let last = seed.wrapping_add(turns - 1);
    format!("{seconds} s: seeds {seed} to {last}, {cases} cases, {differ} differ")
}

fn run_answers() -> Result<Outcome, String> {
    exchange::answer_all(io::stdin().lock(), io::stdout().lock())
        .map_err(|error| format!("cannot answer: {error}"))?;
    Ok(right(String::new()))
}

fn run_openfst(
    seed: u64,
    count: u64,
    directory: &Path,
    program: &[&str],
) -> Result<Outcome, String> {
    let machines = openfst::machines(seed, machines(count)?);
    let sizes = openfst::sizes(&machines, program)?;
    let mut text = String::new();
    for (number, (machine, size)) in machines.iter().zip(sizes).enumerate() {
        let file = directory.join(format!("{number}.txt"));
        fs::write(&file, openfst::text(machine.lend()))
            .map_err(|error| format!("cannot write {}: {error}", file.display()))?;
        line(&mut text, &format!("{} {size}", file.display()));
    }
    Ok(right(text))
}

fn run_learn() -> Result<Outcome, String> {
    let mut sheet = Vec::new();
    io::stdin()
        .lock()
        .take(program::INPUT_BYTES as u64)
        .read_to_end(&mut sheet)
        .map_err(|error| format!("cannot read standard input: {error}"))?;
    Ok(right(program::learn_text(&sheet)))
}

fn line(text: &mut String, added: &str) {
    text.push_str(added);
    text.push('\n');
}
