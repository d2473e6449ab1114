//! The guide: its examples, its tables and the numbers that it explains.
//!
//! An example is three fenced blocks with one name, in this order; where its model is
//! refused there are no choices. The tags:
//!
//! - `model NAME`: the text as it stands;
//! - `model-with NAME of OTHER`: what differs from an earlier model, in the
//!   sentences `line 12 is code=skip`, `line 12 is left out`, `the last LF is left
//!   out` and `no line differs`;
//! - `choices NAME` and `written NAME`: what the runner reads and writes;
//! - `model-counted NAME`, `choices-counted NAME` and `written-counted NAME`: the
//!   same, each line with how often it stands before it.
//!
//! A table is one of four, by its header:
//!
//! - a [`walk`] through the example before it;
//! - ``line 12 of `NAME` `` and `the text`: what the model with that line in place of
//!   its own is, `accepted` or `refused with 5`, at that line;
//! - ``line 12 of `NAME` `` and ``after `exec=1` ``: `answer 29`, or claims on the cells;
//! - `call` and `number`: a call of an entry (see [`calls`]).
//!
//! Any other block or table is a fault. A heading that begins with numbers, as `20,
//! 21: ..`, explains them: each must be given by what stands under it, up to the
//! next heading.

use std::collections::BTreeSet;

use boundary::creol::EXEC;
use independent::configuration::CELLS;
use independent::Verdict;

use crate::claims::claims;
use crate::example::Example;
use crate::markdown::{parts, quoted, Part, Placed, Table};
use crate::{calls, engines, walk, Faults};

#[derive(Clone, Debug, Default)]
pub struct Guide {
    pub examples: Vec<Example>,
    sections: Vec<Section>,
    /// What was wrong while it was read.
    faults: Faults,
    /// The blocks of an example that is not whole yet.
    model: Option<(String, Vec<u8>)>,
    choices: Option<Vec<u8>>,
}

/// The numbers that a heading names, and those that are given under it.
#[derive(Clone, Debug, Default)]
struct Section {
    named: Vec<i32>,
    given: BTreeSet<i32>,
}

/// The number that no choice from a start is answered with.
const NEVER: i32 = 28;

/// The numbers of the table of document 01.
fn numbers() -> Vec<i32> {
    (1..=6).chain(10..=14).chain(20..=33).collect()
}

impl Guide {
    /// Reads a page; what is wrong with it is among the faults.
    pub fn read(page: &str) -> Guide {
        let mut guide = Guide::default();
        match parts(page) {
            Ok(parts) => parts.into_iter().for_each(|part| guide.part(part)),
            Err(fault) => guide.faults.push(fault),
        }
        guide.whole();
        guide
    }

    /// What is wrong with the page, apart from what runners write for its examples.
    pub fn faults(&self) -> Faults {
        let mut faults = self.faults.clone();
        let mut named: Vec<i32> = self.sections.iter().flat_map(|s| s.named.clone()).collect();
        named.sort_unstable();
        if named != numbers() {
            faults.push(format!("numbers explained: {named:?}"));
        }
        for section in &self.sections {
            for number in &section.named {
                if section.given.contains(number) == (*number == NEVER) {
                    faults.push(format!("given under the heading of {number}: {section:?}"));
                }
            }
        }
        faults
    }

    pub fn example(&self, name: &str) -> Option<&Example> {
        self.examples.iter().find(|example| example.name == name)
    }

    fn part(&mut self, (line, part): Placed) {
        let outcome = match part {
            Part::Heading(heading) => {
                self.sections.push(Section {
                    named: named(&heading),
                    given: BTreeSet::new(),
                });
                Ok(())
            }
            Part::Fence { tag, body } => self.block(&tag, &body),
            Part::Table(table) => self.table(&table),
        };
        if let Err(fault) = outcome {
            self.faults.push(format!("line {line}: {fault}"));
        }
    }

    /// That no example is left without what is written.
    fn whole(&mut self) {
        self.choices = None;
        if let Some((name, _)) = self.model.take() {
            self.faults.push(format!("{name}: a block is missing"));
        }
    }

    fn block(&mut self, tag: &str, body: &[String]) -> Result<(), String> {
        let words: Vec<&str> = tag.split(' ').collect();
        match words.as_slice() {
            ["model", name] => self.begin(name, lines(body)),
            ["model-with", name, "of", other] => {
                let other = self.example(other).ok_or(format!("no model {other}"))?;
                let model = edited(&other.model, body)?;
                self.begin(name, model)
            }
            ["model-counted", name] => self.begin(name, counted(body)?),
            ["choices", name] => self.choose(name, lines(body)),
            ["choices-counted", name] => self.choose(name, counted(body)?),
            ["written", name] => self.end(name, lines(body)),
            ["written-counted", name] => self.end(name, counted(body)?),
            _ => Err(format!("no tag of a block: {tag:?}")),
        }
    }

    fn begin(&mut self, name: &str, model: Vec<u8>) -> Result<(), String> {
        self.whole();
        if self.example(name).is_some() {
            return Err(format!("a second example {name}"));
        }
        self.model = Some((name.to_string(), model));
        Ok(())
    }

    fn choose(&mut self, name: &str, choices: Vec<u8>) -> Result<(), String> {
        match &self.model {
            Some((model, _)) if model == name && self.choices.is_none() => {
                self.choices = Some(choices);
                Ok(())
            }
            _ => Err(format!("choices without a model: {name}")),
        }
    }

    fn end(&mut self, name: &str, written: Vec<u8>) -> Result<(), String> {
        let model = self.model.take().filter(|(model, _)| model == name);
        let (_, model) = model.ok_or(format!("written without a model: {name}"))?;
        let choices = self.choices.take();
        let has_choices = choices.is_some();
        let example = Example {
            name: name.to_string(),
            model,
            choices: choices.unwrap_or_default(),
            written,
        };
        if has_choices == example.is_refused() {
            return Err(format!("choices of a refused model, or none: {name}"));
        }
        self.given(example.numbers());
        self.examples.push(example);
        Ok(())
    }

    fn given(&mut self, numbers: impl IntoIterator<Item = i32>) {
        if let Some(section) = self.sections.last_mut() {
            section.given.extend(numbers);
        }
    }

    fn table(&mut self, table: &Table) -> Result<(), String> {
        if table.header == walk::HEADER {
            let example = self.examples.last().ok_or("a walk before any example")?;
            self.faults.extend(walk::check(table, example));
            return Ok(());
        }
        let header: Vec<&str> = table.header.iter().map(String::as_str).collect();
        let (first, second) = match header.as_slice() {
            [first, second, ..] => (*first, *second),
            _ => return Err("a table of one column".to_string()),
        };
        if table.rows.is_empty() {
            return Err("a table without rows".to_string());
        }
        for row in &table.rows {
            let (term, said) = match row.as_slice() {
                [term, said, ..] => (term, said),
                _ => return Err(format!("a row of one cell: {row:?}")),
            };
            let term = quoted(term).ok_or(format!("not in backticks: {term}"))?;
            let number = match (first, second) {
                ("call", "number") => self.called(term, said)?,
                (place, "the text") => self.judged(place, term, said)?,
                (place, "after `exec=1`") => self.stepped(place, term, said)?,
                _ => return Err(format!("no header of a table: {header:?}")),
            };
            self.given([number]);
        }
        Ok(())
    }

    fn called(&self, call: &str, said: &str) -> Result<i32, String> {
        let text_of = |name: &str| self.example(name).map(|example| example.model.clone());
        for (by, entries) in engines() {
            let number = calls::number(call, text_of, entries)?;
            if said != number.to_string() {
                return Err(format!("{call} gives {number} by {by}"));
            }
        }
        said.parse().map_err(|_| format!("no number: {said}"))
    }

    fn judged(&self, place: &str, term: &str, said: &str) -> Result<i32, String> {
        let (line, model) = self.placed(place, term)?;
        let verdict = match said.strip_prefix("refused with ").map(str::parse) {
            Some(Ok(number)) => Verdict { number, line },
            None if said == "accepted" => Verdict::ACCEPTED,
            _ => return Err(format!("no verdict: {said}")),
        };
        for (by, entries) in engines() {
            let judged = (entries.judge)(&model);
            if judged != verdict {
                return Err(format!("{term}: {judged:?} by {by}"));
            }
        }
        Ok(i32::from(verdict.number))
    }

    fn stepped(&self, place: &str, term: &str, said: &str) -> Result<i32, String> {
        let (_, model) = self.placed(place, term)?;
        let (answer, claims) = match said.strip_prefix("answer ").map(str::parse) {
            Some(Ok(answer)) => (answer, Vec::new()),
            None => (0, claims(said)?),
            _ => return Err(format!("no answer: {said}")),
        };
        if answer == 0 && claims.is_empty() {
            return Err(format!("nothing of the cells: {said}"));
        }
        for (by, entries) in engines() {
            let mut cells = vec![0; CELLS];
            let started = (entries.start)(&model, &mut cells);
            let stepped = (entries.step)(&model, &mut cells, EXEC, 1).number;
            let holds = claims.iter().all(|claim| claim.holds(&model, &cells));
            if !started.is_accepted() || stepped != answer || !holds {
                return Err(format!("{term}: {started:?}, answer {stepped} by {by}"));
            }
        }
        Ok(i32::from(answer))
    }

    /// A model with another line: ``line 12 of `NAME` ``.
    fn placed(&self, place: &str, term: &str) -> Result<(u32, Vec<u8>), String> {
        let fault = || format!("no line of a model: {place}");
        let place = place.strip_prefix("line ").ok_or_else(fault)?;
        let (line, name) = place.split_once(" of ").ok_or_else(fault)?;
        let name = quoted(name).ok_or_else(fault)?;
        let model = &self.example(name).ok_or_else(fault)?.model;
        let edit = format!("line {line} is {term}");
        let line = line.parse().map_err(|_| fault())?;
        Ok((line, edited(model, &[edit])?))
    }
}

/// The numbers at the beginning of a heading, before its colon.
fn named(heading: &str) -> Vec<i32> {
    let numbers = heading.split_once(':').map_or("", |(numbers, _)| numbers);
    let numbers: Result<Vec<i32>, _> = numbers.split(", ").map(str::parse).collect();
    numbers.unwrap_or_default()
}

fn lines(body: &[String]) -> Vec<u8> {
    body.iter()
        .map(|line| format!("{line}\n"))
        .collect::<String>()
        .into_bytes()
}

/// Each line as often as the number before it says.
fn counted(body: &[String]) -> Result<Vec<u8>, String> {
    let mut text = String::new();
    for line in body {
        let fault = || format!("no number and line: {line}");
        let (count, line) = line.split_once(' ').ok_or_else(fault)?;
        let count = count.parse().map_err(|_| fault())?;
        text += &format!("{line}\n").repeat(count);
    }
    Ok(text.into_bytes())
}

/// A text with what differs; the lines are counted as they stand in the earlier one.
fn edited(model: &[u8], edits: &[String]) -> Result<Vec<u8>, String> {
    let text = std::str::from_utf8(model).map_err(|error| error.to_string())?;
    let mut lines: Vec<Option<&str>> = text.lines().map(Some).collect();
    let mut has_last_lf = true;
    for edit in edits {
        let fault = || format!("no difference: {edit}");
        match edit.as_str() {
            "no line differs" => continue,
            "the last LF is left out" => has_last_lf = false,
            _ => {
                let edit = edit.strip_prefix("line ").ok_or_else(fault)?;
                let (line, edit) = edit.split_once(" is ").ok_or_else(fault)?;
                let line: usize = line.parse().map_err(|_| fault())?;
                let line = line.checked_sub(1).ok_or_else(fault)?;
                // One line more may come behind the last.
                if line == lines.len() {
                    lines.push(None);
                }
                let line = lines.get_mut(line).ok_or_else(fault)?;
                *line = (edit != "left out").then_some(edit);
            }
        }
    }
    let lines: Vec<&str> = lines.into_iter().flatten().collect();
    let mut text = lines.join("\n");
    if has_last_lf {
        text.push('\n');
    }
    Ok(text.into_bytes())
}
