//! The values of terms in raw cells, whatever these hold and however many they are.
//!
//! The independent engine works terms out in decoded rows, which garbage is not,
//! and keeps its trees to itself. So this works them out from their bytes: a term
//! is split at the last join of the lowest rank outside brackets, which shares
//! nothing with any reader from the left. The bytes must be a term.

mod cells;

use boundary::places::{call_cell, object_cell, ATTRIBUTES, CALLER, CALLS, CLEARED, LOCALS, STAGE};
pub use cells::Lent;

/// Cells, and the object and the call that a term is worked out in. A cell that is
/// missing reads as 0.
#[derive(Clone, Copy)]
pub struct Raw<'c> {
    pub cells: &'c [i32],
    pub object: u8,
    pub label: u32,
}

const REPLY_IN: i32 = 6;

impl Raw<'_> {
    /// The value of an expression; None where a result is out of range.
    pub fn value(&self, term: &[u8]) -> Option<i32> {
        for joins in ["<=", "+-", "*"] {
            if let Some((left, join, right)) = split(term, joins.as_bytes()) {
                let left = i64::from(self.value(left)?);
                let right = i64::from(self.value(right)?);
                let result = match join {
                    b'<' => i64::from(left < right),
                    b'=' => i64::from(left == right),
                    b'+' => left + right,
                    b'-' => left - right,
                    _ => left * right,
                };
                return i32::try_from(result).ok();
            }
        }
        match term {
            [b'(', inside @ .., b')'] => self.value(inside),
            b"self" => Some(i32::from(self.object)),
            b"caller" => Some(self.of_call(CALLER)),
            [b'a' | b'v', ..] => Some(self.variable(term)),
            digits => std::str::from_utf8(digits).ok()?.parse().ok(),
        }
    }

    /// Whether a guard is enabled; None where a result in any atom is out of range.
    pub fn enabled(&self, term: &[u8]) -> Option<bool> {
        for joins in ["|", "&"] {
            if let Some((left, join, right)) = split(term, joins.as_bytes()) {
                let (left, right) = (self.enabled(left)?, self.enabled(right)?);
                return Some(match join {
                    b'|' => left || right,
                    _ => left && right,
                });
            }
        }
        match term {
            [b'(', inside @ .., b')'] => self.enabled(inside),
            [b'[', inside @ .., b']'] => Some(self.value(inside)? != 0),
            b"wait" => Some(self.of_call(CLEARED) == 1),
            variable => Some(self.is_reply(self.variable(variable))),
        }
    }

    fn cell(&self, place: usize) -> i32 {
        self.cells.get(place).copied().unwrap_or(0)
    }

    fn of_call(&self, field: usize) -> i32 {
        self.cell(call_cell(self.label as usize, field))
    }

    fn variable(&self, name: &[u8]) -> i32 {
        let index = usize::from(name[1] - b'0');
        match name[0] {
            b'a' => self.cell(object_cell(usize::from(self.object), ATTRIBUTES + index)),
            _ => self.of_call(LOCALS + index),
        }
    }

    /// Whether the number is a label in use, with its reply in and this object's.
    fn is_reply(&self, number: i32) -> bool {
        if !(1..=self.cell(CALLS)).contains(&number) {
            return false;
        }
        let of_label = |field| self.cell(call_cell(number as usize, field));
        of_label(STAGE) == REPLY_IN && of_label(CALLER) == i32::from(self.object)
    }
}

/// What stands on both sides of the last of these joins outside all brackets.
fn split<'t>(term: &'t [u8], joins: &[u8]) -> Option<(&'t [u8], u8, &'t [u8])> {
    let mut open = 0;
    for (place, byte) in term.iter().enumerate().rev() {
        match byte {
            b')' | b']' => open += 1,
            b'(' | b'[' => open -= 1,
            _ if open == 0 && joins.contains(byte) => {
                return Some((&term[..place], *byte, &term[place + 1..]));
            }
            _ => {}
        }
    }
    None
}
