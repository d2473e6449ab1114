//! Runs that are refused for their text, or for their cells: before 13, and with
//! nothing written.

use boundary::damage::{damaged, OTHER_LENGTHS};
use boundary::lists::{list, started};
use boundary::models;
use boundary::session::{CHOICES, MODEL};
use independent::generate::{self, Random};
use independent::Choice;

use super::both::Run;
use super::tally::Tally;

/// A text, cells that a walk in it reached, and a list of choices from there on.
fn reached(random: &mut Random) -> (Vec<u8>, Vec<i32>, Vec<Choice>) {
    let text = models::short(random);
    let mut cells = started(&text);
    let walked = random.below(60);
    let walk = list(random, &text, &cells, walked, 0);
    independent::run(&text, &mut cells, &walk, &mut vec![0; walked]);
    let length = random.between(1, 40);
    let list = list(random, &text, &cells, length, 40);
    (text, cells, list)
}

/// As many answers as there are choices, or another number of them.
fn answers(random: &mut Random, choices: &[Choice]) -> usize {
    match random.percent(50) {
        true => choices.len(),
        false => random.below(2 * choices.len() + 2),
    }
}

/// Damaged texts, some of them still good but of another model, and other texts.
#[test]
fn other_texts() {
    let mut tally = Tally::default();
    let mut random = Random::new(29);
    for _ in 0..1_500 {
        let (text, cells, choices) = reached(&mut random);
        for index in 0..20 {
            let other = match index {
                0 => models::short(&mut random),
                _ => generate::damaged_text(&mut random, &text),
            };
            tally.compare(Run {
                text: &other,
                cells: &cells,
                choices: &choices,
                answers: answers(&mut random, &choices),
            });
        }
    }
    println!("{tally:#?}");
    assert_eq!(tally.runs, 30_000);
    tally.demand_refused(&[1, 2, 3, 4, 5, 6, 11, 13], 100);
    tally.demand_accepted(50);
}

/// Another number of cells is 10 before 13, unless the text is refused.
#[test]
fn other_lengths() {
    let mut tally = Tally::default();
    let mut random = Random::new(30);
    for _ in 0..500 {
        let (text, mut cells, choices) = reached(&mut random);
        let damaged = generate::damaged_text(&mut random, &text);
        for length in OTHER_LENGTHS {
            cells.resize(length, 0);
            let mut run = Run {
                text: &text,
                cells: &cells,
                choices: &choices,
                answers: answers(&mut random, &choices),
            };
            assert_eq!(tally.compare(run).verdict.number, 10);
            run.text = &damaged;
            tally.compare(run);
        }
    }
    println!("{tally:#?}");
    assert_eq!(tally.choices, 0);
    assert_eq!(tally.refused.values().sum::<usize>(), 8_000);
    assert!(tally.refused[&10] >= 4_000, "{tally:#?}");
}

/// What is no configuration any more is 11, before 13; what still is one runs.
#[test]
fn damaged_cells() {
    let mut tally = Tally::default();
    let mut random = Random::new(31);
    for _ in 0..1_500 {
        let (text, cells, choices) = reached(&mut random);
        for _ in 0..12 {
            let cells = damaged(&mut random, &cells);
            tally.compare(Run {
                text: &text,
                cells: &cells,
                choices: &choices,
                answers: answers(&mut random, &choices),
            });
        }
    }
    println!("{tally:#?}");
    assert_eq!(tally.runs, 18_000);
    tally.demand_refused(&[10, 11, 13], 150);
    assert!(tally.refused[&11] >= 5_000, "{tally:#?}");
    tally.demand_accepted(250);
}

/// What follows the end in memory is the rest of the session: it must not be seen.
#[test]
fn the_session_cut_anywhere() {
    let mut tally = Tally::default();
    let session = MODEL.as_bytes();
    let cells = started(session);
    for end in 0..session.len() {
        tally.compare(Run {
            text: &session[..end],
            cells: &cells,
            choices: &CHOICES,
            answers: CHOICES.len(),
        });
    }
    assert_eq!(tally.runs, session.len());
    tally.demand_refused(&[2, 3], 20);
}
