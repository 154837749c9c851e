//! Cases written to a program, and its answers read, at the same time.

use super::case::{Case, ANSWER_HEAD};
use std::io::{self, BufReader, BufWriter, Read, Write};
use std::process::{Child, Command, Stdio};
use std::sync::mpsc::{self, Receiver, Sender};
use std::thread;

/// A program that answers cases, just started.
pub struct Started(Child);

/// Starts a program, given by the words that run it; an error says why that failed.
pub fn start(program: &[&str]) -> Result<Started, String> {
    let (name, arguments) = program.split_first().ok_or("the program is missing")?;
    Command::new(name)
        .args(arguments)
        .stdin(Stdio::piped())
        .stdout(Stdio::piped())
        .spawn()
        .map(Started)
        .map_err(|error| format!("cannot start {name}: {error}"))
}

impl Started {
    /// Has all cases answered, and waits for the end of the program. An error says why there are not all answers,
    /// or more.
    pub fn answer(
        mut self,
        make: impl FnOnce(&mut dyn FnMut(Case)) + Send,
        take: &mut dyn FnMut(Case, Vec<u8>),
    ) -> Result<(), String> {
        let input = self.0.stdin.take().expect("its input is a pipe");
        let output = self.0.stdout.take().expect("its output is a pipe");
        let answered = exchange(make, input, output, take);
        let status = self.0.wait().map_err(|error| error.to_string())?;
        answered?;
        if status.success() {
            Ok(())
        } else {
            Err(format!("the program failed: {status}"))
        }
    }
}

/// Writes the cases to the program's input and hands on each with the answer read from its output.
pub fn exchange(
    make: impl FnOnce(&mut dyn FnMut(Case)) + Send,
    input: impl Write + Send,
    output: impl Read,
    take: &mut dyn FnMut(Case, Vec<u8>),
) -> Result<(), String> {
    let (sender, receiver) = mpsc::channel();
    // Both have to move at the same time: a full pipe would stop the program for ever.
    thread::scope(|scope| {
        scope.spawn(move || write_cases(make, input, &sender));
        read_answers(receiver, output, take)
    })
}

/// Tells the reader of the answers which cases they are, and writes them to the program.
fn write_cases(make: impl FnOnce(&mut dyn FnMut(Case)), input: impl Write, sender: &Sender<Case>) {
    let mut input = BufWriter::new(input);
    let mut is_open = true;
    make(&mut |case| {
        let bytes = case.bytes();
        // A program that ends early is seen by the reader of its answers.
        is_open = is_open && sender.send(case).is_ok() && input.write_all(&bytes).is_ok();
    });
    let _ = input.flush();
}

fn read_answers(
    cases: Receiver<Case>,
    output: impl Read,
    take: &mut dyn FnMut(Case, Vec<u8>),
) -> Result<(), String> {
    let mut output = BufReader::new(output);
    for case in cases {
        match read_answer(&case, &mut output) {
            Ok(answer) => take(case, answer),
            Err(_) => return Err(format!("there is no answer to {case:?}")),
        }
    }
    match output.read(&mut [0]) {
        Ok(0) => Ok(()),
        Ok(_) => Err("the program writes on after the last answer".to_string()),
        Err(error) => Err(error.to_string()),
    }
}

fn read_answer(case: &Case, output: &mut impl Read) -> io::Result<Vec<u8>> {
    let mut answer = vec![0; ANSWER_HEAD];
    output.read_exact(&mut answer)?;
    answer.resize(ANSWER_HEAD + case.bytes_after(&answer), 0);
    output.read_exact(&mut answer[ANSWER_HEAD..])?;
    Ok(answer)
}

/// Answers cases from this program's own operations, as the proved program does from its, until no whole case
/// follows.
pub fn answer_all(input: impl Read, output: impl Write) -> io::Result<()> {
    let mut input = BufReader::new(input);
    let mut output = BufWriter::new(output);
    while let Ok(case) = Case::read(&mut input) {
        output.write_all(&case.answer())?;
    }
    output.flush()
}
