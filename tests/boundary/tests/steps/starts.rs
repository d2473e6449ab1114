//! Starts in any cells.

use boundary::composed::{places, running_at, EDGES};
use boundary::damage::OTHER_LENGTHS;
use boundary::models;
use boundary::places::{call_cell, object_cell, CALLEE, CALLS, OBJECTS, RUNNING, STAGE};
use independent::configuration::{Stage, CELLS};
use independent::generate::{self, Random};
use independent::model::Model;
use independent::Verdict;

use super::both::Both;
use super::tally::Tally;

/// What document 01 says that a start writes.
fn fresh() -> Vec<i32> {
    let mut cells = vec![0; CELLS];
    cells[OBJECTS] = 1;
    cells[CALLS] = 1;
    cells[object_cell(1, RUNNING)] = 1;
    cells[call_cell(1, STAGE)] = Stage::Running as i32;
    cells[call_cell(1, CALLEE)] = 1;
    cells
}

fn any_cells(random: &mut Random, length: usize) -> Vec<i32> {
    let kind = random.below(4);
    let cell = |_| match kind {
        0 => random.bits() as i32,
        1 => *random.pick(&EDGES),
        2 => random.below(8) as i32,
        _ => -1,
    };
    (0..length).map(cell).collect()
}

#[test]
fn every_cell_is_written() {
    let mut tally = Tally::default();
    let mut random = Random::new(9);
    for _ in 0..4_000 {
        let text = models::short(&mut random);
        let model = Model::read(&text).expect("a model");
        let place = *random.pick(&places(&model));
        let (configuration, _) = running_at(&mut random, &model, place);
        for cells in [configuration, any_cells(&mut random, CELLS), vec![0; CELLS]] {
            let mut both = Both::lent(&cells);
            assert_eq!(tally.start(&mut both, &text), Verdict::ACCEPTED);
            assert!(both.cells() == fresh());
        }
    }
}

/// A text that is refused is so in the right number of cells, whatever they hold.
#[test]
fn refused_texts() {
    let mut tally = Tally::default();
    let mut random = Random::new(13);
    for _ in 0..1_500 {
        let text = models::short(&mut random);
        for _ in 0..8 {
            let damaged = generate::damaged_text(&mut random, &text);
            let mut both = Both::lent(&any_cells(&mut random, CELLS));
            tally.start(&mut both, &damaged);
        }
    }
    println!("{tally:#?}");
    tally.demand_refused(&[1], 10);
    tally.demand_refused(&[2, 3, 4, 5, 6], 100);
    tally.demand_only(&[1, 2, 3, 4, 5, 6]);
}

/// Another number of cells is 10, unless the text is refused.
#[test]
fn other_lengths() {
    let mut tally = Tally::default();
    let mut random = Random::new(10);
    for _ in 0..600 {
        let text = models::short(&mut random);
        let damaged = generate::damaged_text(&mut random, &text);
        for length in OTHER_LENGTHS {
            let mut both = Both::lent(&any_cells(&mut random, length));
            assert_eq!(tally.start(&mut both, &text).number, 10);
            tally.start(&mut both, &damaged);
        }
    }
    println!("{tally:#?}");
    tally.demand_refused(&[2, 3, 4, 5, 6], 50);
    tally.demand_only(&[1, 2, 3, 4, 5, 6, 10]);
}
