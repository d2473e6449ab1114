//! Numbers lent to the library, between others that are not, and what to show of
//! them where the engines differ.

use std::fmt::Write;

use crate::places::{call_cell, object_cell, CALLS, OBJECTS};

/// So many numbers on each side are not lent.
const MARGIN: usize = 16;
const NOT_LENT: i32 = 0x5a5a_5a5a;

/// Numbers between margins in which a write is seen.
#[derive(Default)]
pub struct Lent {
    memory: Vec<i32>,
}

impl Lent {
    pub fn of(numbers: &[i32]) -> Lent {
        let mut lent = Lent::default();
        lent.lend(numbers);
        lent
    }

    /// Lends other numbers in place of those that there are.
    pub fn lend(&mut self, numbers: &[i32]) {
        self.memory.clear();
        self.memory.resize(MARGIN, NOT_LENT);
        self.memory.extend_from_slice(numbers);
        self.memory.resize(numbers.len() + 2 * MARGIN, NOT_LENT);
    }

    pub fn numbers(&self) -> &[i32] {
        &self.memory[MARGIN..self.memory.len() - MARGIN]
    }

    pub fn numbers_mut(&mut self) -> &mut [i32] {
        let end = self.memory.len() - MARGIN;
        &mut self.memory[MARGIN..end]
    }

    /// That no number beside them was written.
    pub fn is_kept_around(&self) -> bool {
        let (before, rest) = self.memory.split_at(MARGIN);
        let after = &rest[rest.len() - MARGIN..];
        before.iter().chain(after).all(|cell| *cell == NOT_LENT)
    }
}

/// The rows in use before a call, the cells that were written, and the text.
pub fn shown(before: &[i32], found: &[i32], expected: &[i32], text: &[u8]) -> String {
    let mut shown = format!("{} cells\n", before.len());
    let in_use = |header: usize, most| {
        let count = before.get(header).copied().unwrap_or(0);
        1..=count.clamp(0, most) as usize
    };
    let mut row = |name: &str, number: usize, from: usize, length: usize| {
        let cells = before.get(from..from + length).unwrap_or(&[]);
        let _ = writeln!(shown, "{name} {number}: {cells:?}");
    };
    in_use(OBJECTS, 32).for_each(|object| row("object", object, object_cell(object, 0), 10));
    in_use(CALLS, 128).for_each(|label| row("call", label, call_cell(label, 0), 16));
    let is_written = |place: &usize| {
        let (found, expected) = (found[*place], expected[*place]);
        found != expected || found != before[*place]
    };
    for place in (0..before.len()).filter(is_written).take(40) {
        let (before, found, expected) = (before[place], found[place], expected[place]);
        let _ = writeln!(
            shown,
            "cell {place}: {before} to {found}, expected {expected}"
        );
    }
    shown + &String::from_utf8_lossy(text)
}
