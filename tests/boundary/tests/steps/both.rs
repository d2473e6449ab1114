//! Cells lent to the library and to the independent engine, side by side.

use std::fmt::Debug;

use boundary::creol::Entries;
use boundary::lent::{shown, Lent};
use independent::{Choice, Verdict};

/// The same cells twice. A call asks both engines, and panics where verdict or cells
/// differ, where a refusal has written a cell, or where one is written that is not lent.
pub struct Both {
    library: Entries,
    /// The library's cells.
    lent: Lent,
    /// The independent engine's.
    cells: Vec<i32>,
    before: Vec<i32>,
}

impl Both {
    pub fn lent(cells: &[i32]) -> Both {
        Both {
            library: Entries::linked().expect("the library"),
            lent: Lent::of(cells),
            cells: cells.to_vec(),
            before: Vec::new(),
        }
    }

    /// Lends other cells in place of those that there are.
    pub fn lend(&mut self, cells: &[i32]) {
        self.lent.lend(cells);
        self.cells.clear();
        self.cells.extend_from_slice(cells);
    }

    /// The cells after the last call; both engines' are the same.
    pub fn cells(&self) -> &[i32] {
        &self.cells
    }

    /// The cells before the last call.
    pub fn before(&self) -> &[i32] {
        &self.before
    }

    pub fn start(&mut self, text: &[u8]) -> Verdict {
        self.ask(text, "start", |engine, cells| (engine.start)(text, cells))
    }

    pub fn step(&mut self, text: &[u8], choice: Choice) -> Verdict {
        let Choice { kind, number } = choice;
        self.ask(text, choice, |engine, cells| {
            (engine.step)(text, cells, kind, number)
        })
    }

    fn ask(
        &mut self,
        text: &[u8],
        asked: impl Debug,
        call: impl Fn(&Entries, &mut [i32]) -> Verdict,
    ) -> Verdict {
        self.before.clear();
        self.before.extend_from_slice(&self.cells);
        let expected = call(&Entries::INDEPENDENT, &mut self.cells);
        let verdict = call(&self.library, self.lent.numbers_mut());
        let lent = self.lent.numbers();
        let is_kept = verdict.is_accepted() || lent == self.before;
        if verdict != expected || lent != self.cells || !is_kept {
            let shown = shown(&self.before, lent, &self.cells, text);
            panic!("{asked:?}: {verdict:?} in place of {expected:?}\n{shown}");
        }
        assert!(
            self.lent.is_kept_around(),
            "{asked:?} has written a cell that is not lent\n{}",
            shown(&self.before, self.lent.numbers(), &self.cells, text)
        );
        verdict
    }
}
