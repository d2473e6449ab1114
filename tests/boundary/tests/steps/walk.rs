//! Walks from the start of a model.

use boundary::choices;
use boundary::session::{CHOICES, MODEL};
use independent::configuration::CELLS;
use independent::generate::{self, Random};
use independent::model::Model;
use independent::{Choice, Verdict};

use super::both::Both;
use super::tally::Tally;

/// Both engines on their way through a model.
pub struct Walk<'t> {
    pub text: &'t [u8],
    pub model: Model,
    pub both: Both,
    /// So many choices were refused since the last that was accepted.
    pub refused: usize,
}

impl<'t> Walk<'t> {
    /// At the start of an accepted text.
    pub fn started(tally: &mut Tally, text: &'t [u8]) -> Walk<'t> {
        let mut both = Both::lent(&[-1; CELLS]);
        assert_eq!(tally.start(&mut both, text), Verdict::ACCEPTED);
        Walk {
            text,
            model: Model::read(text).expect("an accepted text"),
            both,
            refused: 0,
        }
    }

    pub fn step(&mut self, tally: &mut Tally, choice: Choice) -> Verdict {
        let model = Some(&self.model);
        let verdict = tally.step(&mut self.both, self.text, model, choice);
        self.refused = match verdict.is_accepted() {
            true => 0,
            false => self.refused + 1,
        };
        verdict
    }

    /// Up to so many choices, good ones and so many per cent that may be any; it ends
    /// where the model seems to be at rest.
    pub fn go(&mut self, tally: &mut Tally, random: &mut Random, steps: usize, any: usize) {
        for _ in 0..steps {
            let cells = self.both.cells();
            let choice = match random.percent(any) {
                true if random.percent(50) => choices::any(random, cells),
                true => generate::choice(random, cells),
                false => choices::good(random, self.text, cells),
            };
            self.step(tally, choice);
            if self.refused > 12 {
                return;
            }
        }
    }
}

/// The session's cells: at its start, and after each of its choices.
pub fn session_configurations() -> Vec<Vec<i32>> {
    let mut walk = Walk::started(&mut Tally::default(), MODEL.as_bytes());
    let mut configurations = vec![walk.both.cells().to_vec()];
    for choice in CHOICES {
        walk.step(&mut Tally::default(), choice);
        configurations.push(walk.both.cells().to_vec());
    }
    configurations
}
