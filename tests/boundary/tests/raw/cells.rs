//! Cells to lend: those of configurations, garbage, and others in number.

use boundary::places::{
    call_cell, object_cell, ATTRIBUTES, CALLER, CALLS, CLEARED, LOCALS, OBJECTS, STAGE,
};
use independent::configuration::{Configuration, CALL_ROWS, CELLS, OBJECT_ROWS};
use independent::generate::{self, Random};

use super::REPLY_IN;

/// Values at the ends of the range, and where sums and products leave it.
const VALUES: [i32; 16] = [
    0,
    1,
    2,
    3,
    7,
    -1,
    -2,
    46_340,
    46_341,
    -46_341,
    65_536,
    1 << 30,
    i32::MAX - 1,
    i32::MAX,
    i32::MIN,
    i32::MIN + 1,
];

/// Lengths at which a row, or something in a row, is just there or just missing.
const LENGTHS: [usize; 20] = [
    0,
    0,
    1,
    2,
    3,
    4,
    5,
    11,
    12,
    22,
    322,
    323,
    324,
    329,
    330,
    338,
    370,
    CELLS - 1,
    CELLS + 1,
    2 * CELLS,
];

/// Cells, with others behind them in memory that are not lent.
pub struct Lent {
    memory: Vec<i32>,
    length: usize,
    /// The rows, where the cells are some.
    pub rows: Option<Configuration>,
}

impl Lent {
    pub fn random(random: &mut Random) -> Lent {
        let mut memory = match random.weighted(&[25, 25, 10, 30, 10]) {
            0 => generate::configuration(random).1,
            1 => with_values(random),
            2 => {
                let (_, cells) = generate::configuration(random);
                generate::damaged_cells(random, &cells)
            }
            3 => small_garbage(random),
            _ => (0..CELLS).map(|_| random.bits() as i32).collect(),
        };
        let mut length = memory.len();
        if random.percent(20) {
            length = match random.percent(75) {
                true => *random.pick(&LENGTHS),
                false => random.below(CELLS),
            };
        }
        // Nothing behind the end may be seen, so let there be something to see.
        while memory.len() <= length {
            memory.push(random.between(1, 7) as i32);
        }
        let rows = Configuration::decode(&memory[..length]);
        Lent {
            memory,
            length,
            rows,
        }
    }

    pub fn cells(&self) -> &[i32] {
        &self.memory[..self.length]
    }

    /// An object and a label, mostly of rows that say something. They are such as
    /// have a row: no text leads to others.
    pub fn place(&self, random: &mut Random) -> (u8, u32) {
        let (objects, calls) = match &self.rows {
            Some(rows) => (rows.objects().len(), rows.calls().len()),
            None => (4, 8),
        };
        let mut row = |likely: usize, rows: usize| match random.percent(85) {
            true => random.between(1, likely),
            false => random.between(1, rows),
        };
        (
            row(objects, OBJECT_ROWS) as u8,
            row(calls, CALL_ROWS) as u32,
        )
    }
}

fn value(random: &mut Random) -> i32 {
    match random.percent(60) {
        true => *random.pick(&VALUES),
        false => random.bits() as i32,
    }
}

/// The rows of a configuration, but with other values in the variables: labels of
/// replies among them, and numbers that no short run comes to.
fn with_values(random: &mut Random) -> Vec<i32> {
    let (_, mut cells) = generate::configuration(random);
    let objects = cells[OBJECTS] as usize;
    let calls = cells[CALLS] as usize;
    for label in 1..=calls {
        if random.percent(40) {
            cells[call_cell(label, STAGE)] = random.between(5, 7) as i32;
            cells[call_cell(label, CALLER)] = random.between(0, objects) as i32;
        }
        cells[call_cell(label, CLEARED)] = random.below(2) as i32;
    }
    for index in 0..8 {
        for object in 1..=objects {
            cells[object_cell(object, ATTRIBUTES + index)] = label_or_value(random, calls);
        }
        for label in 1..=calls {
            cells[call_cell(label, LOCALS + index)] = label_or_value(random, calls);
        }
    }
    cells
}

fn label_or_value(random: &mut Random, calls: usize) -> i32 {
    match random.percent(60) {
        true => random.below(calls + 2) as i32,
        false => value(random),
    }
}

/// No rows, but cells that often look like some: labels just in use and just not,
/// stages about 6, callers that are an object that asks.
fn small_garbage(random: &mut Random) -> Vec<i32> {
    let mut cells: Vec<i32> = (0..CELLS)
        .map(|_| random.between(0, 9) as i32 - 1)
        .collect();
    let most = *random.pick(&[8, 12, 128, 129, 200, 100_000]);
    cells[OBJECTS] = value(random);
    cells[CALLS] = match random.percent(80) {
        true => random.between(0, most) as i32,
        false => value(random),
    };
    let calls = cells[CALLS].clamp(0, 250) as usize;
    for label in 1..=CALL_ROWS {
        cells[call_cell(label, STAGE)] = *random.pick(&[5, REPLY_IN, REPLY_IN, REPLY_IN, 7, 262]);
        cells[call_cell(label, CALLER)] = match random.percent(90) {
            true => random.between(1, 4) as i32,
            false => value(random),
        };
        cells[call_cell(label, CLEARED)] = *random.pick(&[0, 1, 1, 2, -1, 257]);
        for index in 0..8 {
            cells[call_cell(label, LOCALS + index)] = label_or_value(random, calls);
        }
    }
    for object in 1..=OBJECT_ROWS {
        for index in 0..8 {
            cells[object_cell(object, ATTRIBUTES + index)] = label_or_value(random, calls);
        }
    }
    cells
}
