//! Random walks over generated models, with good and bad choices.

use boundary::choices::OF_A_CHOICE;
use boundary::models;
use independent::generate::Random;

use super::tally::Tally;
use super::walk::Walk;

/// So many steps for a walk: mostly some dozens, at times enough to fill the rows.
fn length(random: &mut Random) -> usize {
    match random.below(20) {
        0 => 900,
        1..=4 => 300,
        _ => 100,
    }
}

fn walked(seed: u64, text: fn(&mut Random) -> Vec<u8>, steps: usize) -> Tally {
    let mut tally = Tally::default();
    let mut random = Random::new(seed);
    while tally.steps < steps {
        let text = text(&mut random);
        for _ in 0..2 {
            let mut walk = Walk::started(&mut tally, &text);
            let steps = length(&mut random);
            walk.go(&mut tally, &mut random, steps, 40);
        }
    }
    println!("{tally:#?}");
    tally
}

#[test]
fn over_short_models() {
    let tally = walked(1, models::short, 700_000);
    assert!(tally.starts >= 3_000, "{} models", tally.starts);
    tally.demand_accepted(1_000);
    tally.demand_refused(&OF_A_CHOICE, 200);
    tally.demand_only(&OF_A_CHOICE);
}

#[test]
fn over_any_models() {
    let tally = walked(2, independent::generate::text, 150_000);
    assert!(tally.starts >= 500, "{} models", tally.starts);
    tally.demand_accepted(300);
    tally.demand_refused(&OF_A_CHOICE, 20);
    tally.demand_only(&OF_A_CHOICE);
}
