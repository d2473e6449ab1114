//! A model text, choices and what the runner writes for them.

use std::fs::{self, File};
use std::path::Path;
use std::process::{Command, Stdio};

use boundary::creol::Entries;
use independent::configuration::CELLS;
use independent::{Choice, Verdict};

use crate::{engines, Faults};

#[derive(Clone, Debug, PartialEq, Eq)]
pub struct Example {
    pub name: String,
    pub model: Vec<u8>,
    pub choices: Vec<u8>,
    pub written: Vec<u8>,
}

impl Example {
    /// The faults of what another has written for the same model and choices.
    pub fn compare(&self, by: &str, written: &[u8]) -> Faults {
        if written == self.written {
            return Faults::new();
        }
        let shown = String::from_utf8_lossy;
        vec![format!(
            "{}: {by} writes\n{}in place of\n{}",
            self.name,
            shown(written),
            shown(&self.written)
        )]
    }

    /// The faults of the example by the independent engine.
    pub fn by_independent(&self) -> Faults {
        let written = independent::runner(&self.model, &self.choices);
        self.compare("the independent engine", &written)
    }

    /// The faults of the example by a program, started in a folder that holds the
    /// files `model` and `choices`.
    pub fn by_program(&self, program: &Path, folder: &Path) -> Faults {
        match run(program, folder) {
            Ok(written) => self.compare(&program.display().to_string(), &written),
            Err(error) => vec![format!("{}: {}: {error}", self.name, program.display())],
        }
    }

    /// The faults of the example by a program, in a folder that is made for it.
    pub fn by_program_in_a_new_folder(&self, program: &Path, folder: &Path) -> Faults {
        let prepared = fs::create_dir_all(folder)
            .and_then(|()| fs::write(folder.join("model"), &self.model))
            .and_then(|()| fs::write(folder.join("choices"), &self.choices));
        match prepared {
            Ok(()) => self.by_program(program, folder),
            Err(error) => vec![format!("{}: {error}", folder.display())],
        }
    }

    /// The faults of the example by the entries of each engine, step by step.
    pub fn by_entries(&self) -> Faults {
        let by = |(name, entries)| self.compare(name, &self.stepped(entries));
        engines().into_iter().flat_map(by).collect()
    }

    /// What the runner would write if it used these entries, a step for each choice.
    fn stepped(&self, entries: Entries) -> Vec<u8> {
        let judged = (entries.judge)(&self.model);
        let mut cells = vec![0; CELLS];
        let started = (entries.start)(&self.model, &mut cells);
        if judged != started {
            return format!("judged {judged:?}, started {started:?}\n").into_bytes();
        }
        if !judged.is_accepted() {
            let Verdict { number, line } = judged;
            return format!("refused={number}\nline={line}\n").into_bytes();
        }
        let lines = self.choice_lines();
        let answers = lines.iter().map(|line| {
            let Choice { kind, number } = choice(line);
            (entries.step)(&self.model, &mut cells, kind, number).number
        });
        let answers: Vec<u8> = answers.collect();
        let accepted = answers.iter().filter(|answer| **answer == 0).count();
        let refused = answers.len() - accepted;
        let (objects, calls) = (cells[0], cells[1]);
        let mut written: String = answers.iter().map(|n| format!("answer={n}\n")).collect();
        written += &format!("accepted={accepted}\nrefused={refused}\n");
        written += &format!("objects={objects}\ncalls={calls}\n");
        written.into_bytes()
    }

    /// The verdict on the model that is in the lines written.
    fn verdict(&self) -> Verdict {
        let written = String::from_utf8_lossy(&self.written);
        let number = |key: &str| {
            let mut lines = written.lines().filter_map(|line| line.strip_prefix(key));
            lines.next().and_then(|value| value.parse().ok())
        };
        // `refused=` alone is the count of refused choices.
        match (number("refused="), number("line=")) {
            (Some(refused), Some(line)) => Verdict {
                number: refused as u8,
                line,
            },
            _ => Verdict::ACCEPTED,
        }
    }

    pub fn is_refused(&self) -> bool {
        !self.verdict().is_accepted()
    }

    /// The lines of the choices.
    pub fn choice_lines(&self) -> Vec<String> {
        let choices = String::from_utf8_lossy(&self.choices);
        let lines = choices.split_terminator('\n');
        lines.map(str::to_string).collect()
    }

    /// The answers in the lines written.
    pub fn answers(&self) -> Vec<i32> {
        let written = String::from_utf8_lossy(&self.written);
        let answers = written
            .lines()
            .filter_map(|line| line.strip_prefix("answer="));
        answers.filter_map(|answer| answer.parse().ok()).collect()
    }

    /// The numbers of refusals that are given in the lines written.
    pub fn numbers(&self) -> Vec<i32> {
        match self.verdict() {
            Verdict::ACCEPTED => self.answers(),
            refused => vec![i32::from(refused.number)],
        }
    }
}

fn run(program: &Path, folder: &Path) -> Result<Vec<u8>, String> {
    let choices = File::open(folder.join("choices")).map_err(|error| error.to_string())?;
    let output = Command::new(program)
        .current_dir(folder)
        .stdin(Stdio::from(choices))
        .output()
        .map_err(|error| error.to_string())?;
    if !output.status.success() {
        return Err(output.status.to_string());
    }
    Ok(output.stdout)
}

/// The choice of a line; any other line is kind 0 with number 0.
pub fn choice(line: &str) -> Choice {
    let kinds = ["exec", "arrive", "bind", "start", "deliver"];
    let read = || {
        let (name, number) = line.split_once('=')?;
        let kind = kinds.iter().position(|kind| *kind == name)?;
        let is_number =
            (1..=9).contains(&number.len()) && number.bytes().all(|byte| byte.is_ascii_digit());
        let number = number.parse().ok().filter(|_| is_number)?;
        let kind = kind as i32 + 1;
        Some(Choice { kind, number })
    };
    read().unwrap_or(Choice { kind: 0, number: 0 })
}
