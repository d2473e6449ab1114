//! Drives that are refused: 14, and before it the text, 10 and 11. Nothing is written,
//! and there are no steps and no quiet.

use std::collections::BTreeMap;

use boundary::damage::{damaged, OTHER_LENGTHS};
use boundary::lists::started;
use boundary::models;
use boundary::session::MODEL;
use independent::generate::{self, Random};
use independent::{Drive, BUDGET_LIMIT};

use super::both::drive;

/// Budgets over the limit; most are under it where they are cut to 8 or 16 bits, or have
/// a sign.
const TOO_LARGE: [u32; 10] = [
    BUDGET_LIMIT + 1,
    BUDGET_LIMIT + 2,
    2 * BUDGET_LIMIT,
    65_535,
    65_536,
    65_537,
    65_536 + BUDGET_LIMIT,
    1 << 31,
    u32::MAX - 1,
    u32::MAX,
];

/// How often each number was given.
#[derive(Debug, Default)]
struct Tally {
    drives: usize,
    met: BTreeMap<u8, usize>,
}

impl Tally {
    fn compare(&mut self, text: &[u8], cells: &[i32], budget: u32) -> Drive {
        let (drive, after) = drive(text, cells, budget);
        let number = drive.verdict.number;
        if number != 0 {
            assert_eq!((drive.steps, drive.quiet), (0, false));
            assert!(after == cells);
        }
        self.drives += 1;
        *self.met.entry(number).or_default() += 1;
        drive
    }

    fn given(&self, number: u8) -> usize {
        self.met.get(&number).copied().unwrap_or(0)
    }

    fn demand(&self, numbers: &[u8], count: usize) {
        let is_met = |number: &u8| self.given(*number) >= count;
        assert!(numbers.iter().all(is_met), "{self:#?}");
    }
}

fn budget(random: &mut Random) -> u32 {
    match random.percent(50) {
        true => *random.pick(&TOO_LARGE),
        false => random.below(50) as u32,
    }
}

/// Also where the model is at rest.
#[test]
fn budgets_over_the_limit() {
    let mut tally = Tally::default();
    let mut random = Random::new(56);
    for _ in 0..600 {
        let text = models::short(&mut random);
        let fresh = started(&text);
        let (_, last) = drive(&text, &fresh, 200);
        for budget in TOO_LARGE {
            for cells in [&fresh, &last] {
                let verdict = tally.compare(&text, cells, budget).verdict;
                assert_eq!((verdict.number, verdict.line), (14, 0));
            }
        }
    }
    assert_eq!((tally.drives, tally.given(14)), (12_000, 12_000));
}

/// Damaged texts, some of them still good but of another model, and other texts.
#[test]
fn other_texts() {
    let mut tally = Tally::default();
    let mut random = Random::new(57);
    for _ in 0..1_000 {
        let text = models::short(&mut random);
        let budget_before = random.below(40) as u32;
        let (_, cells) = drive(&text, &started(&text), budget_before);
        for index in 0..20 {
            let other = match index {
                0 => models::short(&mut random),
                _ => generate::damaged_text(&mut random, &text),
            };
            let budget = budget(&mut random);
            tally.compare(&other, &cells, budget);
        }
    }
    println!("{tally:#?}");
    assert_eq!(tally.drives, 20_000);
    tally.demand(&[1, 2, 3, 4, 5, 6, 11, 14, 0], 80);
}

/// Another number of cells is 10 before 14, unless the text is refused.
#[test]
fn other_lengths() {
    let mut tally = Tally::default();
    let mut random = Random::new(58);
    for _ in 0..400 {
        let text = models::short(&mut random);
        let damaged = generate::damaged_text(&mut random, &text);
        let mut cells = started(&text);
        for length in OTHER_LENGTHS {
            cells.resize(length, 0);
            let budget = budget(&mut random);
            let verdict = tally.compare(&text, &cells, budget).verdict;
            assert_eq!((verdict.number, verdict.line), (10, 0));
            tally.compare(&damaged, &cells, budget);
        }
    }
    println!("{tally:#?}");
    tally.demand(&[2, 3, 4, 5], 50);
    assert_eq!((tally.given(0), tally.given(14)), (0, 0));
}

/// What is no configuration any more is 11, before 14; what still is one is driven.
#[test]
fn damaged_cells() {
    let mut tally = Tally::default();
    let mut random = Random::new(59);
    for _ in 0..1_000 {
        let text = models::short(&mut random);
        let budget_before = random.below(80) as u32;
        let (_, cells) = drive(&text, &started(&text), budget_before);
        for _ in 0..12 {
            let cells = damaged(&mut random, &cells);
            let budget = budget(&mut random);
            tally.compare(&text, &cells, budget);
        }
    }
    println!("{tally:#?}");
    assert_eq!(tally.drives, 12_000);
    tally.demand(&[10], 100);
    tally.demand(&[0, 11, 14], 1_000);
}

/// What follows the end in memory is the rest of the session: it must not be seen.
#[test]
fn the_session_cut_anywhere() {
    let mut tally = Tally::default();
    let session = MODEL.as_bytes();
    let cells = started(session);
    for end in 0..session.len() {
        tally.compare(&session[..end], &cells, 13);
    }
    assert_eq!(tally.given(2) + tally.given(3), session.len());
}
