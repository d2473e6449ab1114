//! Damage to texts and to cells. A damaged text or configuration may still be a
//! good one.

use crate::configuration::CELLS;
use crate::text::{LINE_BYTES, TEXT_BYTES};

use super::random::Random;
use super::terms::noise;

/// The text with one to three faults, mostly one.
pub fn damaged_text(random: &mut Random, text: &[u8]) -> Vec<u8> {
    let mut damaged = text.to_vec();
    for _ in 0..1 + random.weighted(&[80, 15, 5]) {
        damaged = match random.weighted(&[35, 20, 20, 20, 5]) {
            0 => damaged_bytes(random, damaged),
            1 => damaged_lines(random, &damaged),
            2 => damaged_number(random, &damaged),
            3 => damaged_code(random, &damaged),
            _ => damaged_length(random, damaged),
        };
    }
    damaged
}

fn damaged_bytes(random: &mut Random, mut text: Vec<u8>) -> Vec<u8> {
    const OUTSIDE: [u8; 8] = [0, 9, 13, 31, 127, 128, 255, 10];
    const GRAMMAR: &[u8] = b"0123456789av()[]&|?<=+-*, selfcaller";
    let place = random.below(text.len());
    let byte = match random.below(10) {
        0 => *random.pick(&OUTSIDE),
        1..=3 => random.between(32, 126) as u8,
        _ => *random.pick(GRAMMAR),
    };
    match random.below(3) {
        _ if text.is_empty() => text.push(byte),
        0 => text[place] = byte,
        1 => text.insert(place, byte),
        _ => {
            text.remove(place);
        }
    }
    text
}

/// Lines with their LF, so that joining them gives the text back.
fn lines(text: &[u8]) -> Vec<Vec<u8>> {
    text.split_inclusive(|byte| *byte == b'\n')
        .map(<[u8]>::to_vec)
        .collect()
}

fn damaged_lines(random: &mut Random, text: &[u8]) -> Vec<u8> {
    let mut lines = lines(text);
    if lines.is_empty() {
        return text.to_vec();
    }
    let first = random.below(lines.len());
    let second = random.below(lines.len());
    match random.below(5) {
        0 => {
            lines.remove(first);
        }
        1 => lines.insert(first, lines[second].clone()),
        2 => lines.swap(first, second),
        3 => lines.push(lines[first].clone()),
        _ => lines.truncate(first),
    }
    lines.concat()
}

/// A line whose key is none of code gets another number, or a number in bad form.
fn damaged_number(random: &mut Random, text: &[u8]) -> Vec<u8> {
    change_line(random, text, false, |random, value| {
        let number: u64 = String::from_utf8_lossy(value).parse().unwrap_or(0);
        match random.below(12) {
            0..=3 => (number + 1).to_string(),
            4..=6 => number.saturating_sub(1).to_string(),
            7 => format!("0{number}"),
            8 => random
                .pick(&[
                    "255",
                    "256",
                    "257",
                    "65536",
                    "4294967296",
                    "4294967297",
                    "2147483648",
                    "18446744073709551616",
                    "18446744073709551617",
                    "99999999999999999999999999",
                ])
                .to_string(),
            9 => random
                .pick(&["", " 1", "1 ", "+1", "-0", "=1", "a", "0x1", "1.0", "00"])
                .to_string(),
            10 => random.below(20).to_string(),
            _ => random.between(60, 70).to_string(),
        }
        .into_bytes()
    })
}

/// A code line gets another statement, or a word or a piece of it is changed.
fn damaged_code(random: &mut Random, text: &[u8]) -> Vec<u8> {
    change_line(random, text, true, |random, value| {
        let mut value = value.to_vec();
        match random.below(8) {
            0 | 1 => {
                return random
                    .pick(&[
                        "if 1",
                        "else",
                        "fi",
                        "while 1",
                        "od",
                        "skip",
                        "return 0",
                        "skip ",
                        "",
                        "await wait",
                        "await (1)",
                        "return 1<2<3",
                        "return ((((((((1))))))))",
                        "return (((((((((1)))))))))",
                        "await (((((((([1]))))))))",
                        "await ((((((([1])))))))",
                        "return 2147483648",
                        "return 2147483647",
                        "return 01",
                        "new a0 99",
                        "new a0 0",
                        "new a0 0 1",
                        "call a0 1 8",
                        "call a0 1 7 1,2,3,4",
                        "call a0 1 0 1,2,3,4,5",
                        "get a0 v0",
                        "get a0",
                    ])
                    .as_bytes()
                    .to_vec();
            }
            2 => value.extend_from_slice(b",1"),
            3 => value.extend_from_slice(
                random
                    .pick(&[" ", " 1", "+1", "|wait", "?", ")"])
                    .as_bytes(),
            ),
            4 => value.truncate(random.below(value.len() + 1)),
            _ => {
                let place = random.below(value.len() + 1);
                let end = (place + random.below(3)).min(value.len());
                value.splice(place..end, noise(random, 6));
            }
        }
        value
    })
}

/// Changes what stands after the `=` of a random line, of code or of the others.
fn change_line(
    random: &mut Random,
    text: &[u8],
    is_code: bool,
    change: impl Fn(&mut Random, &[u8]) -> Vec<u8>,
) -> Vec<u8> {
    let mut lines = lines(text);
    let places: Vec<usize> = (0..lines.len())
        .filter(|place| lines[*place].starts_with(b"code=") == is_code)
        .collect();
    if places.is_empty() {
        return text.to_vec();
    }
    let line = &mut lines[*random.pick(&places)];
    let value_from = line
        .iter()
        .position(|byte| *byte == b'=')
        .map_or(0, |equals| equals + 1);
    let value_to = line.len() - usize::from(line.ends_with(b"\n"));
    if value_from <= value_to {
        let value = change(random, &line[value_from..value_to]);
        line.splice(value_from..value_to, value);
    }
    lines.concat()
}

fn damaged_length(random: &mut Random, mut text: Vec<u8>) -> Vec<u8> {
    match random.below(5) {
        0 => {
            text.pop();
            text
        }
        1 => {
            text.truncate(random.below(text.len() + 1));
            text
        }
        2 => {
            text.extend_from_slice(
                random
                    .pick(&["\n", "x", "x\n", "code=skip\n", "class=1\n"])
                    .as_bytes(),
            );
            text
        }
        3 => {
            let length = TEXT_BYTES + random.below(3) - 1;
            let filling = *random.pick(b"\n x");
            text.resize(length, filling);
            text
        }
        _ => {
            // A line right at the limit or just past it, and good but for that.
            let length = LINE_BYTES + random.below(3) - 1;
            change_line(random, &text, true, |_, _| {
                let mut value = b"return 1".to_vec();
                while value.len() + 5 + 2 <= length {
                    value.extend_from_slice(b"+0");
                }
                value.resize(length - 5, b'0');
                value
            })
        }
    }
}

/// The cells with one to three changes, or in another number.
pub fn damaged_cells(random: &mut Random, cells: &[i32]) -> Vec<i32> {
    let mut damaged = cells.to_vec();
    if random.percent(4) {
        let length = *random.pick(&[0, 1, 2, 322, CELLS - 1, CELLS + 1, 2 * CELLS]);
        damaged.resize(length, 0);
        return damaged;
    }
    for _ in 0..1 + random.weighted(&[80, 15, 5]) {
        if let Some(place) = damaged_place(random, &damaged) {
            damaged[place] = match random.below(10) {
                0..=2 => damaged[place].wrapping_add(1),
                3..=4 => damaged[place].wrapping_sub(1),
                5..=7 => random.below(8) as i32,
                8 => random.between(0, 140) as i32,
                _ => *random.pick(&[i32::MIN, -1, i32::MAX, 256, 65_536, 16_777_216, -256]),
            };
        }
    }
    damaged
}

/// A place to change, mostly in a row in use.
fn damaged_place(random: &mut Random, cells: &[i32]) -> Option<usize> {
    if cells.len() < CELLS {
        return None;
    }
    let objects = cells[0].clamp(0, 32) as usize;
    let calls = cells[1].clamp(0, 128) as usize;
    Some(match random.weighted(&[6, 30, 56, 8]) {
        0 => random.below(2),
        1 => 2 + random.below(objects * 10 + 1),
        2 => (322 + random.below(calls * 16 + 1)).min(CELLS - 1),
        _ => random.below(CELLS),
    })
}
