//! Lists of choices, by walking the independent engine.

use independent::configuration::CELLS;
use independent::generate::{self, Random};
use independent::{Choice, Verdict};

use crate::choices;

/// So many choices are made for the same cells.
const TOGETHER: usize = 6;
/// Where so many in a row are refused the model seems to be at rest.
const AT_REST: usize = 30;

/// The cells of a start.
pub fn started(text: &[u8]) -> Vec<i32> {
    let mut cells = vec![0; CELLS];
    assert_eq!(independent::start(text, &mut cells), Verdict::ACCEPTED);
    cells
}

/// Choices from these cells on. Of those that are refused so many per cent stay in the
/// list, and all once the model seems to be at rest.
pub fn list(
    random: &mut Random,
    text: &[u8],
    cells: &[i32],
    length: usize,
    refused: usize,
) -> Vec<Choice> {
    let mut cells = cells.to_vec();
    let mut list = Vec::with_capacity(length + TOGETHER);
    let mut in_a_row = 0;
    while list.len() < length {
        let together: [Choice; TOGETHER] = std::array::from_fn(|_| match random.percent(85) {
            true => generate::choice(random, &cells),
            false => choices::any(random, &cells),
        });
        let mut answers = [0; TOGETHER];
        let verdict = independent::run(text, &mut cells, &together, &mut answers);
        assert_eq!(verdict, Verdict::ACCEPTED);
        for (choice, answer) in together.into_iter().zip(answers) {
            in_a_row = if answer == 0 { 0 } else { in_a_row + 1 };
            // A choice that is refused changes no cell: the others stay good without it.
            if answer == 0 || in_a_row > AT_REST || random.percent(refused) {
                list.push(choice);
            }
        }
    }
    list.truncate(length);
    list
}
