//! Drives: the cells, the steps and quiet, with budgets of every size.

use boundary::composed::{places, running_at};
use boundary::lists::{list, started};
use boundary::models;
use boundary::texts::{alone, dense, of_length};
use independent::generate::{self, Random};
use independent::model::Model;
use independent::{Drive, Verdict, BUDGET_LIMIT, TEXT_BYTES};

use super::both::drive;

/// How the accepted drives that were compared have ended.
#[derive(Debug, Default)]
struct Tally {
    drives: usize,
    steps: usize,
    /// With a budget of 0.
    of_none: usize,
    /// Quiet, with steps of the budget left, and with none left.
    quiet: usize,
    quiet_at_budget: usize,
    /// At the budget, and not quiet.
    at_budget: usize,
    /// The same, with a budget of 10,000.
    at_limit: usize,
}

impl Tally {
    fn compare(&mut self, text: &[u8], cells: &[i32], budget: u32) -> (Drive, Vec<i32>) {
        let (drive, cells) = drive(text, cells, budget);
        assert_eq!(drive.verdict, Verdict::ACCEPTED);
        self.drives += 1;
        self.steps += drive.steps as usize;
        self.of_none += usize::from(budget == 0);
        self.at_limit += usize::from(drive.steps == BUDGET_LIMIT && !drive.quiet);
        *match (drive.quiet, drive.steps == budget) {
            (true, false) => &mut self.quiet,
            (true, true) => &mut self.quiet_at_budget,
            (false, true) => &mut self.at_budget,
            (false, false) => panic!("{drive:?} has ended before {budget}"),
        } += 1;
        (drive, cells)
    }

    /// Drives from these cells on: with the largest budget; where that comes to rest, with
    /// as many steps as it takes and with one less; and in two parts.
    fn from(&mut self, random: &mut Random, text: &[u8], cells: &[i32]) {
        let (whole, end) = self.compare(text, cells, BUDGET_LIMIT);
        if whole.quiet {
            assert!(self.compare(text, cells, whole.steps) == (whole, end.clone()));
            if let Some(less) = whole.steps.checked_sub(1) {
                let (drive, _) = self.compare(text, cells, less);
                assert_eq!((drive.steps, drive.quiet), (less, false));
            }
        }
        let part = budget(random).min(whole.steps);
        let (first, between) = self.compare(text, cells, part);
        assert_eq!(first.steps, part);
        let rest = BUDGET_LIMIT - part;
        let (second, last) = self.compare(text, &between, rest);
        assert_eq!(first.steps + second.steps, whole.steps);
        assert!(second.quiet == whole.quiet && last == end);
    }
}

/// 0, a small one, or any.
fn budget(random: &mut Random) -> u32 {
    let budget = match random.below(8) {
        0 => 0,
        1..=4 => random.between(1, 30),
        5 | 6 => random.between(1, 400),
        _ => random.between(1, BUDGET_LIMIT as usize),
    };
    budget as u32
}

/// From the start, and from where walks have come.
#[test]
fn over_short_models() {
    let mut tally = Tally::default();
    let mut random = Random::new(51);
    for index in 0..8_000 {
        let text = models::short(&mut random);
        let mut cells = started(&text);
        if index % 2 == 1 {
            let length = random.between(1, 80);
            let walk = list(&mut random, &text, &cells, length, 0);
            independent::run(&text, &mut cells, &walk, &mut vec![0; length]);
        }
        tally.from(&mut random, &text, &cells);
    }
    println!("{tally:#?}");
    assert!(tally.drives >= 36_000, "{tally:#?}");
    assert!(tally.steps >= 8_000_000, "{tally:#?}");
    assert!(tally.of_none >= 1_000, "{tally:#?}");
    assert!(tally.quiet >= 10_000, "{tally:#?}");
    assert!(tally.quiet_at_budget >= 8_000, "{tally:#?}");
    assert!(tally.at_budget >= 8_000, "{tally:#?}");
    assert!(tally.at_limit >= 80, "{tally:#?}");
}

#[test]
fn over_any_models() {
    let mut tally = Tally::default();
    let mut random = Random::new(52);
    for _ in 0..1_000 {
        let text = generate::text(&mut random);
        tally.from(&mut random, &text, &started(&text));
    }
    println!("{tally:#?}");
    assert!(tally.drives >= 4_000, "{tally:#?}");
    assert!(tally.steps >= 600_000, "{tally:#?}");
}

/// From configurations that no run need reach, composed of any rows.
#[test]
fn from_any_configuration() {
    let mut tally = Tally::default();
    let mut random = Random::new(53);
    for _ in 0..2_000 {
        let text = match random.percent(30) {
            true => models::statements().into_bytes(),
            false => models::short(&mut random),
        };
        let model = Model::read(&text).expect("a model");
        let place = *random.pick(&places(&model));
        let (cells, _) = running_at(&mut random, &model, place);
        tally.from(&mut random, &text, &cells);
    }
    println!("{tally:#?}");
    assert!(tally.drives >= 8_000, "{tally:#?}");
    assert!(tally.steps >= 2_000_000, "{tally:#?}");
    assert!(tally.quiet_at_budget >= 2_000, "{tally:#?}");
    assert!(tally.at_limit >= 80, "{tally:#?}");
}

#[test]
fn over_long_models() {
    let mut tally = Tally::default();
    let mut random = Random::new(54);
    let long = [
        dense(),
        of_length(TEXT_BYTES),
        generate::large_text(&mut random),
        generate::long_text(&mut random, 512),
        models::fullest(),
        models::generated(&mut random, 10_000..TEXT_BYTES),
    ];
    for text in long {
        tally.from(&mut random, &text, &started(&text));
        let model = Model::read(&text).expect("a model");
        let places = places(&model);
        for _ in 0..3 {
            let place = *random.pick(&places);
            let (cells, _) = running_at(&mut random, &model, place);
            tally.from(&mut random, &text, &cells);
        }
    }
    println!("{tally:#?}");
    assert!(tally.drives >= 80, "{tally:#?}");
}

/// The first choice in the order is taken again and again; the others wait.
#[test]
fn a_model_that_never_rests() {
    let text = alone(&["while 1", "set a0 a0+1", "od", "return 0"]);
    let text = text.as_bytes();
    for budget in [0, 1, 2, 3, 255, 256, 257, 9_999, BUDGET_LIMIT] {
        let (drive, _) = drive(text, &started(text), budget);
        let expected = Drive {
            verdict: Verdict::ACCEPTED,
            steps: budget,
            quiet: false,
        };
        assert_eq!(drive, expected);
    }
}

/// Quiet is worked out with a budget of 0 too.
#[test]
fn a_model_that_cannot_move() {
    let text = alone(&["set a0 2147483647+1", "return 0"]);
    let text = text.as_bytes();
    for budget in [0, 1, BUDGET_LIMIT] {
        let (drive, cells) = drive(text, &started(text), budget);
        assert_eq!((drive.steps, drive.quiet), (0, true));
        assert!(cells == started(text));
    }
}
