//! The entries. Each judges the text, then the cells, then its own input, and
//! writes nothing that is lent to it where it refuses.

use crate::configuration::{Configuration, CELLS};
use crate::model::Model;
use crate::refusal::{answer, Refusal, Verdict};
use crate::rules::{self, Instance};

/// The largest budget of a drive.
pub const BUDGET_LIMIT: u32 = 10_000;

/// A rule by its kind, and the object or label that it is for.
#[derive(Clone, Copy, Debug, PartialEq, Eq)]
#[repr(C)]
pub struct Choice {
    pub kind: i32,
    pub number: i32,
}

/// What a drive gives.
#[derive(Clone, Copy, Debug, PartialEq, Eq)]
pub struct Drive {
    pub verdict: Verdict,
    pub steps: u32,
    pub quiet: bool,
}

/// Judges a text.
pub fn judge(text: &[u8]) -> Verdict {
    verdict(Model::read(text).map(|_| ()))
}

/// Writes the configuration in which the model starts.
pub fn start(text: &[u8], cells: &mut [i32]) -> Verdict {
    verdict(try_start(text, cells))
}

/// Takes one step.
pub fn step(text: &[u8], cells: &mut [i32], kind: i32, number: i32) -> Verdict {
    verdict(try_step(text, cells, kind, number))
}

/// Takes the choices one after the other, each with its own answer.
pub fn run(text: &[u8], cells: &mut [i32], choices: &[Choice], answers: &mut [i32]) -> Verdict {
    verdict(try_run(text, cells, choices, answers))
}

/// Takes first accepted choices, up to a budget of them.
pub fn drive(text: &[u8], cells: &mut [i32], budget: u32) -> Drive {
    try_drive(text, cells, budget).unwrap_or_else(|verdict| Drive {
        verdict,
        steps: 0,
        quiet: false,
    })
}

fn verdict(outcome: Result<(), Verdict>) -> Verdict {
    match outcome {
        Ok(()) => Verdict::ACCEPTED,
        Err(refused) => refused,
    }
}

fn try_start(text: &[u8], cells: &mut [i32]) -> Result<(), Verdict> {
    Model::read(text)?;
    let cells = exact(cells)?;
    Configuration::at_start().encode(cells);
    Ok(())
}

fn try_step(text: &[u8], cells: &mut [i32], kind: i32, number: i32) -> Result<(), Verdict> {
    let model = Model::read(text)?;
    let cells = exact(cells)?;
    let mut configuration = configuration_of(&model, cells)?;
    rules::step(&model, &mut configuration, kind, number)?;
    configuration.encode(cells);
    Ok(())
}

fn try_run(
    text: &[u8],
    cells: &mut [i32],
    choices: &[Choice],
    answers: &mut [i32],
) -> Result<(), Verdict> {
    let model = Model::read(text)?;
    let cells = exact(cells)?;
    let mut configuration = configuration_of(&model, cells)?;
    if answers.len() != choices.len() {
        return Err(Refusal::AnswersLength.into());
    }
    for (choice, place) in choices.iter().zip(answers) {
        let outcome = rules::step(&model, &mut configuration, choice.kind, choice.number);
        *place = answer(outcome);
    }
    configuration.encode(cells);
    Ok(())
}

fn try_drive(text: &[u8], cells: &mut [i32], budget: u32) -> Result<Drive, Verdict> {
    let model = Model::read(text)?;
    let cells = exact(cells)?;
    let mut configuration = configuration_of(&model, cells)?;
    if budget > BUDGET_LIMIT {
        return Err(Refusal::BudgetTooLarge.into());
    }
    let mut steps = 0;
    while steps < budget && take_first_accepted(&model, &mut configuration) {
        steps += 1;
    }
    configuration.encode(cells);
    // The rows are encoded, so the search for quiet may spoil them.
    let quiet = !take_first_accepted(&model, &mut configuration);
    Ok(Drive {
        verdict: Verdict::ACCEPTED,
        steps,
        quiet,
    })
}

/// Takes the first accepted choice of exec 1.., arrive 1.., bind 1.., start 1..,
/// deliver 1..; false where none is accepted.
fn take_first_accepted(model: &Model, configuration: &mut Configuration) -> bool {
    let objects = configuration.objects().len() as i32;
    let calls = configuration.calls().len() as i32;
    [
        (Instance::EXEC, objects),
        (Instance::ARRIVE, calls),
        (Instance::BIND, calls),
        (Instance::START, calls),
        (Instance::DELIVER, calls),
    ]
    .into_iter()
    .any(|(kind, last)| {
        (1..=last).any(|number| rules::step(model, configuration, kind, number).is_ok())
    })
}

fn exact(cells: &mut [i32]) -> Result<&mut [i32; CELLS], Verdict> {
    cells.try_into().map_err(|_| Refusal::WrongCellCount.into())
}

fn configuration_of(model: &Model, cells: &[i32]) -> Result<Configuration, Verdict> {
    Configuration::decode(cells)
        .filter(|configuration| configuration.is_of(model))
        .ok_or_else(|| Refusal::NotAConfiguration.into())
}
