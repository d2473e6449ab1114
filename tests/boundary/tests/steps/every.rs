//! Every choice in some configurations, and some configurations with every cell changed.

use boundary::choices::{in_use, KINDS, NUMBERS, OF_A_CHOICE};
use boundary::composed::{places, running_at};
use boundary::creol::{ARRIVE, EXEC};
use boundary::models;
use boundary::session::MODEL;
use independent::configuration::{CALL_ROWS, OBJECT_ROWS};
use independent::generate::Random;
use independent::model::Model;
use independent::Choice;

use super::both::Both;
use super::tally::Tally;
use super::walk::session_configurations;

struct Configurations {
    text: Vec<u8>,
    model: Model,
    cells: Vec<Vec<i32>>,
}

fn configurations(text: &str, cells: impl FnOnce(&Model) -> Vec<Vec<i32>>) -> Configurations {
    let text = text.as_bytes().to_vec();
    let model = Model::read(&text).expect("a model");
    let cells = cells(&model);
    Configurations { text, model, cells }
}

/// Those of the session, and some of another model with all rows in use.
fn some() -> [Configurations; 2] {
    let mut random = Random::new(7);
    let full = |model: &Model| {
        let places = places(model);
        let composed = std::iter::repeat_with(|| {
            let place = *random.pick(&places);
            running_at(&mut random, model, place).0
        });
        let is_full = |cells: &Vec<i32>| cells[..2] == [OBJECT_ROWS as i32, CALL_ROWS as i32];
        composed.filter(is_full).take(8).collect()
    };
    [
        configurations(MODEL, |_| session_configurations()),
        configurations(&models::statements(), full),
    ]
}

/// Every kind with every number in use, with those about them and with those far off.
#[test]
fn choice() {
    let mut tally = Tally::default();
    for Configurations { text, model, cells } in some() {
        for cells in cells {
            let mut both = Both::lent(&cells);
            for kind in KINDS {
                for number in (-1..=in_use(kind, &cells) + 2).chain(NUMBERS) {
                    let choice = Choice { kind, number };
                    let verdict = tally.step(&mut both, &text, Some(&model), choice);
                    if verdict.is_accepted() {
                        both.lend(&cells);
                    }
                }
            }
        }
    }
    println!("{tally:#?}");
    assert!(tally.steps >= 40_000, "{tally:#?}");
    tally.demand_refused(&[12], 10_000);
    tally.demand_refused(&[20, 21, 22, 23, 24, 25, 26, 27], 20);
    tally.demand_only(&OF_A_CHOICE);
}

/// Every cell in turn, to the values beside its own, those at the ends of the range, and
/// those that are its own where they are cut to 8 or 16 bits.
#[test]
fn cell() {
    let mut tally = Tally::default();
    let mut random = Random::new(8);
    for Configurations { text, model, cells } in some() {
        for cells in cells {
            let mut changed = cells.clone();
            let mut both = Both::lent(&cells);
            for place in 0..cells.len() {
                let own = cells[place];
                for value in values(own, &mut random) {
                    changed[place] = value;
                    both.lend(&changed);
                    let kind = *random.pick(&[EXEC, ARRIVE]);
                    let choice = Choice { kind, number: 1 };
                    tally.step(&mut both, &text, Some(&model), choice);
                }
                changed[place] = own;
            }
        }
    }
    println!("{tally:#?}");
    assert!(tally.steps >= 300_000, "{tally:#?}");
    let others = tally.steps - tally.given(11);
    assert!(
        others >= 20_000,
        "{others} are configurations in {tally:#?}"
    );
    tally.demand_refused(&[11], 200_000);
    tally.demand_only(&[[11].as_slice(), &OF_A_CHOICE].concat());
}

fn values(own: i32, random: &mut Random) -> [i32; 8] {
    [
        own.wrapping_add(1),
        own.wrapping_sub(1),
        own ^ (1 << 31),
        own.wrapping_add(256),
        own.wrapping_add(65_536),
        *random.pick(&[0, -1, 1, 2, 3, 4, 5, 6, 7, 8]),
        random.between(9, 140) as i32,
        *random.pick(&[i32::MIN, i32::MAX, -256, 1 << 24]),
    ]
}
