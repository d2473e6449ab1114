//! Choices: in use, about what is in use, and far from it.

use independent::generate::{self, Random};
use independent::Choice;

use crate::creol::{ARRIVE, BIND, DELIVER, EXEC, START};
use crate::places::{CALLS, OBJECTS};

/// The five kinds, those about them, those at the ends of the range, and those that
/// are one of the five where they are cut to 8 or 16 bits, or their sign is lost.
pub const KINDS: [i32; 25] = [
    EXEC,
    ARRIVE,
    BIND,
    START,
    DELIVER,
    -1,
    0,
    6,
    7,
    i32::MIN,
    i32::MIN + 1,
    i32::MIN + 5,
    i32::MAX - 1,
    i32::MAX,
    -2,
    -5,
    255,
    256,
    257,
    261,
    -255,
    65_536,
    65_537,
    65_541,
    -65_535,
];

/// Numbers about those of the last rows, those at the ends of the range, and those
/// that are in use where they are cut to 8 or 16 bits, or their sign is lost.
pub const NUMBERS: [i32; 30] = [
    0,
    -1,
    -2,
    -32,
    -128,
    31,
    32,
    33,
    34,
    127,
    128,
    129,
    130,
    255,
    256,
    257,
    258,
    288,
    384,
    -255,
    65_535,
    65_536,
    65_537,
    65_664,
    -65_535,
    i32::MIN,
    i32::MIN + 1,
    i32::MIN + 2,
    i32::MAX - 1,
    i32::MAX,
];

/// Every number of a refused choice; 28 is given for none.
pub const OF_A_CHOICE: [u8; 14] = [12, 20, 21, 22, 23, 24, 25, 26, 27, 29, 30, 31, 32, 33];

/// How many objects there are, for an exec, and how many calls for the others.
pub fn in_use(kind: i32, cells: &[i32]) -> i32 {
    let header = if kind == EXEC { OBJECTS } else { CALLS };
    cells.get(header).copied().unwrap_or(0).clamp(0, 130)
}

/// A choice that is accepted, where some tries find one.
pub fn good(random: &mut Random, text: &[u8], cells: &[i32]) -> Choice {
    let mut choice = generate::choice(random, cells);
    for _ in 0..6 {
        let Choice { kind, number } = choice;
        if independent::step(text, &mut cells.to_vec(), kind, number).is_accepted() {
            break;
        }
        choice = generate::choice(random, cells);
    }
    choice
}

/// Any choice: mostly one of the five kinds, and a number in use as often as one
/// about those in use and as one of the rest.
pub fn any(random: &mut Random, cells: &[i32]) -> Choice {
    let kind = match random.percent(60) {
        true => random.between(1, 5) as i32,
        false => *random.pick(&KINDS),
    };
    let in_use = in_use(kind, cells);
    let number = match random.below(3) {
        0 => 1 + random.below(in_use as usize) as i32,
        1 => in_use - 1 + random.below(4) as i32,
        _ => *random.pick(&NUMBERS),
    };
    Choice { kind, number }
}
