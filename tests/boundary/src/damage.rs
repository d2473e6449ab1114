//! Damage to configurations. What is damaged may still be a configuration.

use independent::configuration::{Stage, CALL_ROWS, CELLS, OBJECT_ROWS};
use independent::generate::{self, Random};

use crate::composed::EDGES;
use crate::places::{
    call_cell, object_cell, ATTRIBUTES, CALLEE, CALLS, LOCALS, OBJECTS, RUNNING, STAGE,
};

/// Lengths of cells that are not the right one; the last is where it is cut to 16 bits.
pub const OTHER_LENGTHS: [usize; 8] = [
    0,
    1,
    2,
    322,
    CELLS - 1,
    CELLS + 1,
    2 * CELLS,
    CELLS + 65_536,
];

/// The cells with one change or more; at times others in number.
pub fn damaged(random: &mut Random, cells: &[i32]) -> Vec<i32> {
    let mut damaged = cells.to_vec();
    match random.weighted(&[60, 12, 8, 6, 7, 7]) {
        0 => return generate::damaged_cells(random, cells),
        1 => times(random, CALL_ROWS, |random| {
            doubled_call(random, &mut damaged)
        }),
        2 => times(random, OBJECT_ROWS, |random| {
            doubled_object(random, &mut damaged)
        }),
        3 => row_less(random, &mut damaged),
        4 => started_or_stopped(random, &mut damaged),
        _ => other_value(random, &mut damaged),
    }
    damaged
}

/// Once, or as often as there are rows.
fn times(random: &mut Random, rows: usize, mut change: impl FnMut(&mut Random)) {
    let times = if random.percent(10) { rows } else { 1 };
    (0..times).for_each(|_| change(random));
}

fn objects(cells: &[i32]) -> usize {
    cells[OBJECTS] as usize
}

fn calls(cells: &[i32]) -> usize {
    cells[CALLS] as usize
}

/// One call more, like another. Where that is running there are two that run.
fn doubled_call(random: &mut Random, cells: &mut [i32]) {
    if calls(cells) < CALL_ROWS {
        let from = call_cell(random.between(1, calls(cells)), 0);
        let to = call_cell(calls(cells) + 1, 0);
        cells.copy_within(from..from + 16, to);
        cells[CALLS] += 1;
        if cells[to + STAGE] == Stage::Running as i32 && random.percent(70) {
            cells[to + STAGE] = random.between(1, 7) as i32;
        }
    }
}

/// One object more, like another, mostly idle.
fn doubled_object(random: &mut Random, cells: &mut [i32]) {
    if objects(cells) < OBJECT_ROWS {
        let from = object_cell(random.between(1, objects(cells)), 0);
        let to = object_cell(objects(cells) + 1, 0);
        cells.copy_within(from..from + 10, to);
        cells[OBJECTS] += 1;
        if random.percent(80) {
            cells[to + RUNNING] = 0;
        }
    }
}

/// The last object or call is gone, and its row is empty, or is not.
fn row_less(random: &mut Random, cells: &mut [i32]) {
    let (header, row) = match random.percent(40) {
        true => (
            OBJECTS,
            object_cell(objects(cells), 0)..object_cell(objects(cells) + 1, 0),
        ),
        false => (
            CALLS,
            call_cell(calls(cells), 0)..call_cell(calls(cells) + 1, 0),
        ),
    };
    cells[header] -= 1;
    if random.percent(80) {
        cells[row].fill(0);
    }
}

/// A running call waits, or a waiting one runs; mostly its object knows it.
fn started_or_stopped(random: &mut Random, cells: &mut [i32]) {
    let (bound, running) = (Stage::Bound as i32, Stage::Running as i32);
    let label = random.between(1, calls(cells));
    let stage = call_cell(label, STAGE);
    let callee = cells[call_cell(label, CALLEE)] as usize;
    let (changed, known) = match cells[stage] {
        stage if stage == running => (bound, 0),
        _ => (running, label as i32),
    };
    cells[stage] = changed;
    if random.percent(80) {
        cells[object_cell(callee, RUNNING)] = known;
    }
}

/// A variable of an object or of a call, whether there is such a one or not.
fn other_value(random: &mut Random, cells: &mut [i32]) {
    let index = random.below(8);
    let place = match random.percent(50) {
        true => object_cell(random.between(1, objects(cells)), ATTRIBUTES + index),
        false => call_cell(random.between(1, calls(cells)), LOCALS + index),
    };
    cells[place] = match random.below(3) {
        0 => random.between(1, calls(cells)) as i32,
        1 => random.between(1, objects(cells)) as i32,
        _ => *random.pick(&EDGES),
    };
}
