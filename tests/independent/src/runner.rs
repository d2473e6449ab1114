//! The runner: choices from bytes, and the bytes that it writes.

use std::io::Write;

use crate::configuration::CELLS;
use crate::entries::{run, start, Choice};
use crate::refusal::Verdict;
use crate::rules::Instance;

/// Input past so many bytes is not read.
pub const INPUT_BYTES: usize = 4_096;
/// The most digits of a choice's number.
const CHOICE_DIGITS: usize = 9;

/// What the runner writes for a model text and its input.
pub fn runner(model: &[u8], input: &[u8]) -> Vec<u8> {
    let choices = choices(&input[..input.len().min(INPUT_BYTES)]);
    let mut cells = vec![0; CELLS];
    let mut answers = vec![0; choices.len()];
    let mut verdict = start(model, &mut cells);
    if verdict.is_accepted() {
        verdict = run(model, &mut cells, &choices, &mut answers);
    }
    if verdict.is_accepted() {
        report(&answers, &cells)
    } else {
        refusal(verdict)
    }
}

fn report(answers: &[i32], cells: &[i32]) -> Vec<u8> {
    let accepted = answers.iter().filter(|answer| **answer == 0).count();
    let mut written = Written::default();
    for answer in answers {
        written.line("answer", answer);
    }
    written.line("accepted", accepted);
    written.line("refused", answers.len() - accepted);
    written.line("objects", cells[0]);
    written.line("calls", cells[1]);
    written.bytes
}

fn refusal(verdict: Verdict) -> Vec<u8> {
    let mut written = Written::default();
    written.line("refused", verdict.number);
    written.line("line", verdict.line);
    written.bytes
}

#[derive(Default)]
struct Written {
    bytes: Vec<u8>,
}

impl Written {
    fn line(&mut self, key: &str, value: impl std::fmt::Display) {
        // Writing to a vector does not fail.
        let _ = writeln!(self.bytes, "{key}={value}");
    }
}

fn choices(input: &[u8]) -> Vec<Choice> {
    // An LF ends a line; it does not begin another.
    let lines = input.strip_suffix(b"\n").unwrap_or(input);
    if input.is_empty() {
        return Vec::new();
    }
    lines.split(|byte| *byte == b'\n').map(choice).collect()
}

fn choice(line: &[u8]) -> Choice {
    read_choice(line).unwrap_or(Choice { kind: 0, number: 0 })
}

fn read_choice(line: &[u8]) -> Option<Choice> {
    let equals = line.iter().position(|byte| *byte == b'=')?;
    let kind = match &line[..equals] {
        b"exec" => Instance::EXEC,
        b"arrive" => Instance::ARRIVE,
        b"bind" => Instance::BIND,
        b"start" => Instance::START,
        b"deliver" => Instance::DELIVER,
        _ => return None,
    };
    let digits = &line[equals + 1..];
    if !(1..=CHOICE_DIGITS).contains(&digits.len()) {
        return None;
    }
    let mut number = 0;
    for digit in digits {
        if !digit.is_ascii_digit() {
            return None;
        }
        number = number * 10 + i32::from(digit - b'0');
    }
    Some(Choice { kind, number })
}
