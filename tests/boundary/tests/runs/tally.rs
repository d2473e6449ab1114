//! How often each thing was met, so that no comparison can go empty.

use std::collections::BTreeMap;

use boundary::choices::OF_A_CHOICE;
use independent::Choice;

use super::both::{Given, Run};

/// The runs that were compared, by what they gave.
#[derive(Debug, Default)]
pub struct Tally {
    pub runs: usize,
    pub choices: usize,
    /// The runs that were refused, by number.
    pub refused: BTreeMap<u8, usize>,
    /// The accepted choices of the accepted runs, by kind.
    pub accepted: BTreeMap<i32, usize>,
    /// The refused choices of the accepted runs, by number.
    pub answers: BTreeMap<i32, usize>,
    /// The refused choices behind which another is accepted.
    pub gone_on: usize,
}

impl Tally {
    pub fn compare(&mut self, run: Run) -> Given {
        let given = run.compare();
        self.runs += 1;
        match given.verdict.number {
            0 => self.note(run.choices, &given.answers),
            number => *self.refused.entry(number).or_default() += 1,
        }
        given
    }

    fn note(&mut self, choices: &[Choice], answers: &[i32]) {
        self.choices += choices.len();
        for (choice, answer) in choices.iter().zip(answers) {
            match answer {
                0 => *self.accepted.entry(choice.kind).or_default() += 1,
                number => *self.answers.entry(*number).or_default() += 1,
            }
        }
        let is_accepted = |answer: &i32| *answer == 0;
        let last = answers.iter().rposition(is_accepted).unwrap_or(0);
        self.gone_on += answers[..last]
            .iter()
            .filter(|answer| **answer != 0)
            .count();
    }

    /// That each kind was accepted so often.
    pub fn demand_accepted(&self, count: usize) {
        for kind in 1..=5 {
            let met = self.accepted.get(&kind).copied().unwrap_or(0);
            assert!(met >= count, "kind {kind}: {met} in {self:#?}");
        }
    }

    /// That each number of a refused choice was given so often, and no other.
    pub fn demand_answers(&self, count: usize) {
        for number in OF_A_CHOICE.map(i32::from) {
            let met = self.answers.get(&number).copied().unwrap_or(0);
            assert!(met >= count, "{number}: {met} in {self:#?}");
        }
        assert_eq!(self.answers.len(), OF_A_CHOICE.len(), "{self:#?}");
    }

    /// That runs were refused with each of these numbers so often, and with no other.
    pub fn demand_refused(&self, numbers: &[u8], count: usize) {
        for number in numbers {
            let met = self.refused.get(number).copied().unwrap_or(0);
            assert!(met >= count, "{number}: {met} in {self:#?}");
        }
        assert_eq!(self.refused.len(), numbers.len(), "{self:#?}");
    }
}
