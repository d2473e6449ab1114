//! Runs of hundreds of choices over generated models.

use boundary::composed::{places, running_at};
use boundary::lists::{list, started};
use boundary::models;
use boundary::texts::{dense, of_length};
use independent::generate::{self, Random};
use independent::model::Model;
use independent::TEXT_BYTES;

use super::both::Run;
use super::tally::Tally;

/// So many choices for a run: at times enough to fill the rows.
fn length(random: &mut Random) -> usize {
    match random.below(20) {
        0 => random.between(600, 1_200),
        1..=4 => random.between(300, 500),
        _ => random.between(100, 300),
    }
}

/// So many per cent of the refused choices stay in a list.
fn refused(random: &mut Random) -> usize {
    *random.pick(&[0, 15, 40, 100])
}

/// A run of a list from these cells on.
fn run_from(tally: &mut Tally, random: &mut Random, text: &[u8], cells: &[i32]) {
    let (length, refused) = (length(random), refused(random));
    let list = list(random, text, cells, length, refused);
    let run = Run {
        text,
        cells,
        choices: &list,
        answers: list.len(),
    };
    assert!(tally.compare(run).verdict.is_accepted());
}

/// 20,000 models, and as many runs.
#[test]
fn over_short_models() {
    let mut tally = Tally::default();
    let mut random = Random::new(21);
    for _ in 0..20_000 {
        let text = models::short(&mut random);
        run_from(&mut tally, &mut random, &text, &started(&text));
    }
    println!("{tally:#?}");
    assert_eq!(tally.runs, 20_000);
    assert!(tally.choices >= 5_000_000, "{tally:#?}");
    assert!(tally.gone_on >= 1_000_000, "{tally:#?}");
    tally.demand_accepted(20_000);
    tally.demand_answers(500);
}

#[test]
fn over_any_models() {
    let mut tally = Tally::default();
    let mut random = Random::new(22);
    for _ in 0..1_500 {
        let text = generate::text(&mut random);
        run_from(&mut tally, &mut random, &text, &started(&text));
    }
    println!("{tally:#?}");
    assert!(tally.choices >= 400_000, "{tally:#?}");
    assert!(tally.gone_on >= 50_000, "{tally:#?}");
    tally.demand_accepted(1_500);
}

/// From configurations that no run need reach, composed of any rows.
#[test]
fn from_any_configuration() {
    let mut tally = Tally::default();
    let mut random = Random::new(23);
    for _ in 0..1_000 {
        let text = match random.percent(30) {
            true => models::statements().into_bytes(),
            false => models::short(&mut random),
        };
        let model = Model::read(&text).expect("a model");
        let places = places(&model);
        for _ in 0..3 {
            let place = *random.pick(&places);
            let (cells, _) = running_at(&mut random, &model, place);
            run_from(&mut tally, &mut random, &text, &cells);
        }
    }
    println!("{tally:#?}");
    assert_eq!(tally.runs, 3_000);
    assert!(tally.gone_on >= 100_000, "{tally:#?}");
    tally.demand_accepted(10_000);
    tally.demand_answers(500);
}

/// Long texts: one of 32,768 bytes, some of about that, and some with as many lines,
/// classes, methods and variables as there may be.
#[test]
fn over_long_models() {
    let mut tally = Tally::default();
    let mut random = Random::new(24);
    let long = [
        dense(),
        of_length(TEXT_BYTES),
        generate::large_text(&mut random),
        generate::long_text(&mut random, 512),
        models::fullest(),
        models::generated(&mut random, 10_000..TEXT_BYTES),
    ];
    for text in long {
        let model = Model::read(&text).expect("a model");
        let places = places(&model);
        run_from(&mut tally, &mut random, &text, &started(&text));
        for _ in 0..10 {
            let place = *random.pick(&places);
            let (cells, _) = running_at(&mut random, &model, place);
            run_from(&mut tally, &mut random, &text, &cells);
        }
    }
    println!("{tally:#?}");
    assert_eq!(tally.runs, 66);
    assert!(tally.gone_on >= 2_000, "{tally:#?}");
    tally.demand_accepted(100);
}
