//! The same lent to the library and to the independent engine.

use boundary::creol::{self, Entries};
use boundary::lent::{shown, Lent};
use independent::{Choice, Drive, Verdict};

/// What a run begins with.
#[derive(Clone, Copy)]
pub struct Run<'a> {
    pub text: &'a [u8],
    pub cells: &'a [i32],
    pub choices: &'a [Choice],
    /// So many places are lent for answers.
    pub answers: usize,
}

/// What both engines gave.
pub struct Given {
    pub verdict: Verdict,
    pub cells: Vec<i32>,
    pub answers: Vec<i32>,
}

impl Run<'_> {
    /// Asks both engines. Panics where verdict, cells or answers differ, where a refusal
    /// has written any of them, or where something is written that is not lent.
    pub fn compare(self) -> Given {
        let Run { text, choices, .. } = self;
        let unwritten: Vec<i32> = (0..self.answers).map(unwritten).collect();
        let mut given = Given {
            verdict: Verdict::ACCEPTED,
            cells: self.cells.to_vec(),
            answers: unwritten.clone(),
        };
        given.verdict =
            (Entries::INDEPENDENT.run)(text, &mut given.cells, choices, &mut given.answers);
        let mut cells = Lent::of(self.cells);
        let mut answers = Lent::of(&unwritten);
        let verdict = creol::run(text, cells.numbers_mut(), choices, answers.numbers_mut());
        let is_same = verdict == given.verdict
            && cells.numbers() == given.cells
            && answers.numbers() == given.answers;
        let is_kept = verdict.is_accepted()
            || cells.numbers() == self.cells && answers.numbers() == unwritten;
        let is_kept_around = cells.is_kept_around() && answers.is_kept_around();
        if !is_same || !is_kept || !is_kept_around {
            panic!(
                "{verdict:?} in place of {:?}, kept around: {is_kept_around}\n{}{}",
                given.verdict,
                self.shown_answers(answers.numbers(), &given.answers),
                shown(self.cells, cells.numbers(), &given.cells, text),
            );
        }
        given
    }

    /// The choices up to the first whose answers differ.
    fn shown_answers(&self, found: &[i32], expected: &[i32]) -> String {
        let (choices, answers) = (self.choices.len(), self.answers);
        let mut shown = format!("{choices} choices, {answers} answers\n");
        let answered = found.iter().zip(expected);
        for (choice, (found, expected)) in self.choices.iter().zip(answered) {
            shown += &format!("{choice:?}: {found}, expected {expected}\n");
            if found != expected {
                break;
            }
        }
        shown
    }
}

/// A drive of both engines: what both gave, and the cells. Panics where they differ,
/// where a refusal has written a cell, or where one is written that is not lent.
pub fn drive(text: &[u8], cells: &[i32], budget: u32) -> (Drive, Vec<i32>) {
    let library = Entries::linked().expect("the library");
    let mut expected_cells = cells.to_vec();
    let expected = (Entries::INDEPENDENT.drive)(text, &mut expected_cells, budget);
    let mut lent = Lent::of(cells);
    let drive = (library.drive)(text, lent.numbers_mut(), budget);
    let is_kept = drive.verdict.is_accepted() || lent.numbers() == cells;
    if drive != expected || lent.numbers() != expected_cells || !is_kept || !lent.is_kept_around() {
        panic!(
            "{drive:?} in place of {expected:?}, budget {budget}, kept around: {}\n{}",
            lent.is_kept_around(),
            shown(cells, lent.numbers(), &expected_cells, text),
        );
    }
    (drive, expected_cells)
}

/// What stands in an answer's place before a run: no answer, and another in each.
fn unwritten(place: usize) -> i32 {
    -1 - place as i32
}
