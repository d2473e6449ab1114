//! Every line of many models, performed in configurations that no run need reach.

use boundary::choices::{self, OF_A_CHOICE};
use boundary::composed::{places, running_at, Place};
use boundary::creol::EXEC;
use boundary::models;
use boundary::texts::{dense, of_length};
use independent::generate::{self, Random};
use independent::model::Model;
use independent::{Choice, TEXT_BYTES};

use super::both::Both;
use super::tally::Tally;

/// The line is performed, and then some other choices are made.
fn perform(tally: &mut Tally, random: &mut Random, text: &[u8], model: &Model, place: Place) {
    let (cells, number) = running_at(random, model, place);
    let mut both = Both::lent(&cells);
    let kind = EXEC;
    tally.step(&mut both, text, Some(model), Choice { kind, number });
    for _ in 0..4 {
        let choice = match random.percent(70) {
            true => generate::choice(random, both.cells()),
            false => choices::any(random, both.cells()),
        };
        tally.step(&mut both, text, Some(model), choice);
    }
}

#[test]
fn of_short_models() {
    let mut tally = Tally::default();
    let mut random = Random::new(3);
    while tally.steps < 250_000 {
        let text = match random.percent(40) {
            true => models::statements().into_bytes(),
            false => models::short(&mut random),
        };
        let model = Model::read(&text).expect("a model");
        for place in places(&model) {
            perform(&mut tally, &mut random, &text, &model, place);
        }
    }
    println!("{tally:#?}");
    tally.demand_accepted(300);
    tally.demand_refused(&OF_A_CHOICE, 500);
    tally.demand_only(&OF_A_CHOICE);
}

/// Long texts: one of 32,768 bytes, some of about that, and some with as many lines,
/// classes, methods and variables as there may be.
#[test]
fn of_long_models() {
    let mut tally = Tally::default();
    let mut random = Random::new(4);
    let long = [
        dense(),
        of_length(TEXT_BYTES),
        generate::large_text(&mut random),
        generate::long_text(&mut random, 512),
        models::fullest(),
        models::generated(&mut random, 10_000..TEXT_BYTES),
    ];
    for text in long {
        let model = Model::read(&text).expect("a model");
        for place in places(&model) {
            perform(&mut tally, &mut random, &text, &model, place);
        }
    }
    println!("{tally:#?}");
    assert!(tally.steps >= 12_000, "{tally:#?}");
    tally.demand_accepted(5);
    tally.demand_refused(&OF_A_CHOICE, 10);
    tally.demand_only(&OF_A_CHOICE);
}
