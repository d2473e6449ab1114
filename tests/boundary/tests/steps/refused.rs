//! Steps with a text that is refused or another's, and with cells in another number.

use boundary::choices::{self, OF_A_CHOICE};
use boundary::damage::OTHER_LENGTHS;
use boundary::models;
use boundary::session::{CHOICES, MODEL};
use independent::generate::{self, Random};
use independent::model::Model;
use independent::Choice;

use super::both::Both;
use super::tally::Tally;
use super::walk::Walk;

fn choice(random: &mut Random, cells: &[i32]) -> Choice {
    match random.percent(60) {
        true => generate::choice(random, cells),
        false => choices::any(random, cells),
    }
}

/// Damaged texts, some of them still good but of another model, and other texts.
#[test]
fn other_texts() {
    let mut tally = Tally::default();
    let mut random = Random::new(11);
    for _ in 0..2_000 {
        let text = models::short(&mut random);
        let mut walk = Walk::started(&mut Tally::default(), &text);
        walk.go(&mut Tally::default(), &mut random, 30, 0);
        let cells = walk.both.cells().to_vec();
        for index in 0..30 {
            let other = match index {
                0 => models::short(&mut random),
                _ => generate::damaged_text(&mut random, &text),
            };
            let model = Model::read(&other).ok();
            let mut both = Both::lent(&cells);
            let choice = choice(&mut random, &cells);
            tally.step(&mut both, &other, model.as_ref(), choice);
        }
    }
    println!("{tally:#?}");
    tally.demand_refused(&[1, 2, 3, 4, 5, 6, 11], 100);
    tally.demand_only(&[[1, 2, 3, 4, 5, 6, 11].as_slice(), &OF_A_CHOICE].concat());
    let accepted: usize = tally.accepted.values().sum();
    assert!(accepted >= 500, "{tally:#?}");
}

/// A text that is refused beats 10, and 10 beats what the cells and the choice are.
#[test]
fn other_lengths() {
    let mut tally = Tally::default();
    let mut random = Random::new(12);
    for _ in 0..1_000 {
        let text = models::short(&mut random);
        let mut walk = Walk::started(&mut Tally::default(), &text);
        walk.go(&mut Tally::default(), &mut random, 30, 0);
        let damaged = generate::damaged_text(&mut random, &text);
        for length in OTHER_LENGTHS {
            let mut cells = walk.both.cells().to_vec();
            cells.resize(length, 0);
            let choice = choice(&mut random, &cells);
            let mut both = Both::lent(&cells);
            let verdict = tally.step(&mut both, &text, Some(&walk.model), choice);
            assert_eq!((verdict.number, verdict.line), (10, 0));
            tally.step(&mut both, &damaged, None, choice);
        }
    }
    println!("{tally:#?}");
    tally.demand_refused(&[2, 3, 4, 5, 6], 100);
    tally.demand_only(&[1, 2, 3, 4, 5, 6, 10]);
    assert!(tally.accepted.is_empty());
}

/// What follows the end in memory is the rest of the session: it must not be seen.
#[test]
fn the_session_cut_anywhere() {
    let mut tally = Tally::default();
    let session = MODEL.as_bytes();
    let walk = Walk::started(&mut Tally::default(), session);
    for end in 0..session.len() {
        let mut both = Both::lent(walk.both.cells());
        tally.start(&mut both, &session[..end]);
        tally.step(&mut both, &session[..end], None, CHOICES[0]);
    }
    tally.demand_refused(&[2, 3], 40);
    assert!(tally.accepted.is_empty());
}
