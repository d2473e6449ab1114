//! Steps in damaged configurations: some are none any more, and some still are.

use boundary::choices::{self, OF_A_CHOICE};
use boundary::composed::{places, running_at};
use boundary::damage::damaged;
use boundary::models;
use independent::generate::{self, Random};
use independent::model::Model;

use super::both::Both;
use super::tally::Tally;
use super::walk::Walk;

/// Damages the cells again and again, and takes a step in each. What is still a
/// configuration is damaged further, so that it comes far from what runs reach.
fn damage_on(
    tally: &mut Tally,
    random: &mut Random,
    text: &[u8],
    model: &Model,
    cells: &[i32],
    times: usize,
) {
    let mut cells = cells.to_vec();
    let mut both = Both::lent(&cells);
    for _ in 0..times {
        let candidate = damaged(random, &cells);
        both.lend(&candidate);
        // Mostly a choice that the cells as they were may accept.
        let choice = match random.percent(85) {
            true => generate::choice(random, &cells),
            false => choices::any(random, &candidate),
        };
        let verdict = tally.step(&mut both, text, Some(model), choice);
        if !matches!(verdict.number, 10 | 11) {
            cells.copy_from_slice(both.cells());
        }
    }
}

fn check(tally: &Tally, steps: usize) {
    println!("{tally:#?}");
    assert!(tally.given(11) >= steps / 4, "{tally:#?}");
    let others = tally.steps - tally.given(11) - tally.given(10);
    assert!(
        others >= steps / 4,
        "{others} are configurations in {tally:#?}"
    );
    tally.demand_refused(&[10], steps / 100);
    tally.demand_accepted(20);
    tally.demand_refused(&OF_A_CHOICE, 20);
    tally.demand_only(&[[10, 11].as_slice(), &OF_A_CHOICE].concat());
}

/// Reached by walks with good choices, then damaged.
#[test]
fn reached_configurations() {
    let mut tally = Tally::default();
    let mut walked = Tally::default();
    let mut random = Random::new(5);
    while tally.steps < 320_000 {
        let text = models::short(&mut random);
        let mut walk = Walk::started(&mut walked, &text);
        for _ in 0..random.between(1, 8) {
            let steps = random.between(1, 40);
            walk.go(&mut walked, &mut random, steps, 0);
            let cells = walk.both.cells();
            damage_on(&mut tally, &mut random, &text, &walk.model, cells, 12);
        }
    }
    println!("{walked:#?}");
    walked.demand_accepted(100);
    check(&tally, 320_000);
}

/// Composed of any rows, then damaged.
#[test]
fn composed_configurations() {
    let mut tally = Tally::default();
    let mut random = Random::new(6);
    while tally.steps < 120_000 {
        let text = match random.percent(40) {
            true => models::statements().into_bytes(),
            false => models::short(&mut random),
        };
        let model = Model::read(&text).expect("a model");
        let places = places(&model);
        for _ in 0..20 {
            let place = *random.pick(&places);
            let (cells, _) = running_at(&mut random, &model, place);
            damage_on(&mut tally, &mut random, &text, &model, &cells, 12);
        }
    }
    check(&tally, 120_000);
}
