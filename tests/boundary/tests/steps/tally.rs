//! How often each thing was met, so that no comparison can go empty.

use std::collections::BTreeMap;

use boundary::creol::{ARRIVE, BIND, DELIVER, EXEC, START};
use boundary::places::{
    call_cell, object_cell, CALLEE, CALLER, CALLS, CLASS, LINE, METHOD, RUNNING, STAGE,
};
use independent::code::Statement;
use independent::configuration::Stage;
use independent::model::Model;
use independent::{Choice, Verdict};

use super::both::Both;

/// What an accepted step can be: a rule, or for exec the statement and its way.
const ACCEPTED: [&str; 21] = [
    "arrive",
    "await, crossed",
    "await, suspended",
    "bind",
    "call",
    "deliver",
    "else",
    "fi",
    "get",
    "if, false",
    "if, true",
    "new",
    "new, with a run",
    "od",
    "return",
    "return to nobody",
    "set",
    "skip",
    "start",
    "while, false",
    "while, true",
];

/// The calls that were compared, by what they gave.
#[derive(Debug, Default)]
pub struct Tally {
    pub starts: usize,
    pub steps: usize,
    pub accepted: BTreeMap<&'static str, usize>,
    pub refused: BTreeMap<u8, usize>,
}

impl Tally {
    /// Starts a text in what is lent.
    pub fn start(&mut self, both: &mut Both, text: &[u8]) -> Verdict {
        let verdict = both.start(text);
        self.starts += 1;
        self.note(verdict, || "a start");
        verdict
    }

    /// Takes a step. The model is that of the text, where it is accepted.
    pub fn step(
        &mut self,
        both: &mut Both,
        text: &[u8],
        model: Option<&Model>,
        choice: Choice,
    ) -> Verdict {
        let verdict = both.step(text, choice);
        self.steps += 1;
        self.note(verdict, || {
            let model = model.expect("the model of an accepted text");
            taken(model, both.before(), both.cells(), choice)
        });
        verdict
    }

    fn note(&mut self, verdict: Verdict, accepted: impl FnOnce() -> &'static str) {
        match verdict.number {
            0 => *self.accepted.entry(accepted()).or_default() += 1,
            number => *self.refused.entry(number).or_default() += 1,
        }
    }

    /// That each rule, and each statement in each of its ways, was accepted so often.
    pub fn demand_accepted(&self, count: usize) {
        for name in ACCEPTED {
            let met = self.accepted.get(name).copied().unwrap_or(0);
            assert!(met >= count, "{name}: {met} in {self:#?}");
        }
    }

    /// That each of these numbers was given so often.
    pub fn demand_refused(&self, numbers: &[u8], count: usize) {
        for number in numbers {
            assert!(self.given(*number) >= count, "{number} in {self:#?}");
        }
    }

    pub fn given(&self, number: u8) -> usize {
        self.refused.get(&number).copied().unwrap_or(0)
    }

    /// That no number was given but these.
    pub fn demand_only(&self, numbers: &[u8]) {
        let is_one = |number: &u8| numbers.contains(number);
        assert!(self.refused.keys().all(is_one), "{self:#?}");
    }
}

/// The name of an accepted step, by the cells before it and after.
fn taken(model: &Model, before: &[i32], after: &[i32], choice: Choice) -> &'static str {
    match choice.kind {
        ARRIVE => return "arrive",
        BIND => return "bind",
        START => return "start",
        DELIVER => return "deliver",
        EXEC => {}
        kind => panic!("kind {kind} is accepted"),
    }
    let label = before[object_cell(choice.number as usize, RUNNING)] as usize;
    let goes_on = after[call_cell(label, LINE)] == before[call_cell(label, LINE)] + 1;
    match standing(model, before, label) {
        Statement::Skip => "skip",
        Statement::Set { .. } => "set",
        Statement::New { .. } if after[CALLS] > before[CALLS] => "new, with a run",
        Statement::New { .. } => "new",
        Statement::Call { .. } => "call",
        Statement::Get { .. } => "get",
        Statement::Await(_) if is_suspended(after, label) => "await, suspended",
        Statement::Await(_) => "await, crossed",
        Statement::If { .. } if goes_on => "if, true",
        Statement::If { .. } => "if, false",
        Statement::Else { .. } => "else",
        Statement::Fi => "fi",
        Statement::While { .. } if goes_on => "while, true",
        Statement::While { .. } => "while, false",
        Statement::Od { .. } => "od",
        Statement::Return(_) if before[call_cell(label, CALLER)] == 0 => "return to nobody",
        Statement::Return(_) => "return",
    }
}

/// The statement at which a call stands.
fn standing(model: &Model, cells: &[i32], label: usize) -> Statement {
    let of_call = |field| cells[call_cell(label, field)] as usize;
    let class = cells[object_cell(of_call(CALLEE), CLASS)] as usize;
    model.classes[class].methods[of_call(METHOD)].code[of_call(LINE)]
}

fn is_suspended(cells: &[i32], label: usize) -> bool {
    cells[call_cell(label, STAGE)] == Stage::Bound as i32
}
