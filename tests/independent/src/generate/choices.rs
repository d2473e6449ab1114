//! Random choices, and configurations that they lead to.

use crate::configuration::{Configuration, Stage, CELLS};
use crate::entries::{start, step, Choice};
use crate::rules::Instance;

use super::random::Random;

/// A choice for these cells: mostly one that may be accepted, at times one that
/// is refused, at times one that is none at all.
pub fn choice(random: &mut Random, cells: &[i32]) -> Choice {
    match random.weighted(&[80, 15, 5]) {
        0 => likely(random, cells).unwrap_or_else(|| any(random, cells)),
        1 => any(random, cells),
        _ => wild(random),
    }
}

/// Choices that fit a configuration like these cells, though not its successors.
pub fn choices(random: &mut Random, cells: &[i32], count: usize) -> Vec<Choice> {
    (0..count).map(|_| choice(random, cells)).collect()
}

/// The cells after so many random choices from the start of a valid text.
pub fn reached(random: &mut Random, text: &[u8], choices: usize) -> Vec<i32> {
    let mut cells = vec![0; CELLS];
    start(text, &mut cells);
    for _ in 0..choices {
        let choice = choice(random, &cells);
        step(text, &mut cells, choice.kind, choice.number);
    }
    cells
}

/// A valid text with cells that a random run has reached.
pub fn configuration(random: &mut Random) -> (Vec<u8>, Vec<i32>) {
    let text = super::text(random);
    let choices = random.below(120);
    let cells = reached(random, &text, choices);
    (text, cells)
}

/// A choice whose stage is right; more often an exec than its share, since calls
/// pile up.
fn likely(random: &mut Random, cells: &[i32]) -> Option<Choice> {
    let configuration = Configuration::decode(cells)?;
    let mut execs = Vec::new();
    let mut others = Vec::new();
    for (number, object) in (1..).zip(configuration.objects()) {
        if object.running.is_some() {
            let kind = Instance::EXEC;
            execs.push(Choice { kind, number });
        }
    }
    for (number, call) in (1..).zip(configuration.calls()) {
        let kind = match call.stage {
            Stage::Invoked => Instance::ARRIVE,
            Stage::Queued => Instance::BIND,
            Stage::Bound => Instance::START,
            Stage::Answered => Instance::DELIVER,
            Stage::Running | Stage::ReplyIn | Stage::Taken => continue,
        };
        others.push(Choice { kind, number });
    }
    let candidates = match (execs.is_empty(), others.is_empty()) {
        (true, true) => return None,
        (true, false) => others,
        (false, true) => execs,
        (false, false) if random.percent(60) => execs,
        (false, false) => others,
    };
    Some(*random.pick(&candidates))
}

/// A choice in use, or nearly.
fn any(random: &mut Random, cells: &[i32]) -> Choice {
    let kind = random.between(1, 5) as i32;
    let header = if kind == Instance::EXEC { 0 } else { 1 };
    let in_use = cells.get(header).copied().unwrap_or(0).clamp(0, 128) as usize;
    let number = if random.percent(92) {
        1 + random.below(in_use)
    } else {
        random.below(in_use + 2)
    };
    Choice {
        kind,
        number: number as i32,
    }
}

fn wild(random: &mut Random) -> Choice {
    const NUMBERS: [i32; 12] = [
        i32::MIN,
        -65_536,
        -256,
        -1,
        0,
        1,
        2,
        33,
        129,
        256,
        65_537,
        i32::MAX,
    ];
    let kind = if random.percent(50) {
        random.between(1, 5) as i32
    } else {
        [i32::MIN, -1, 0, 6, 7, 257, 65_537, i32::MAX][random.below(8)]
    };
    Choice {
        kind,
        number: *random.pick(&NUMBERS),
    }
}
