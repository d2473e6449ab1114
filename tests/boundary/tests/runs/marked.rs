//! The marked cases of document 01 that a run or a drive can show, with the answers that it gives.

use boundary::lists::started;
use boundary::places::{object_cell, ATTRIBUTES, CALLS, OBJECTS};
use boundary::session::{ANSWERS, CHOICES, MODEL};
use boundary::texts::alone;
use independent::configuration::CELLS;
use independent::{Drive, Verdict};

use super::both::{drive, Run};

/// The answers, and the cells, of the session's choices in this text.
fn session_in(text: &str) -> (Vec<i32>, Vec<i32>) {
    let given = Run {
        text: text.as_bytes(),
        cells: &started(text.as_bytes()),
        choices: &CHOICES,
        answers: CHOICES.len(),
    }
    .compare();
    assert_eq!(given.verdict, Verdict::ACCEPTED);
    (given.answers, given.cells)
}

#[test]
fn the_session() {
    let (answers, cells) = session_in(MODEL);
    assert_eq!(answers, ANSWERS.map(i32::from));
    assert_eq!(cells[object_cell(1, ATTRIBUTES + 1)], 7);
    assert_eq!((cells[OBJECTS], cells[CALLS]), (2, 2));
}

#[test]
fn a_second_get() {
    let text = MODEL
        .replace("lines=5", "lines=6")
        .replace("code=get v0 a1\n", "code=get v0 a1\ncode=get v0 a1\n");
    let (answers, cells) = session_in(&text);
    assert_eq!(answers[..15], ANSWERS.map(i32::from)[..15]);
    assert_eq!(answers[15], 33);
    assert_eq!(cells[object_cell(1, ATTRIBUTES + 1)], 7);
}

/// A value out of range is an answer, and the run goes on.
#[test]
fn arithmetic() {
    for (value, answer, stored) in [
        ("2147483647+1", 29, 0),
        ("46341*46341", 29, 0),
        ("0-2147483647-1", 0, i32::MIN),
        ("46340*46340", 0, 2_147_395_600),
    ] {
        let text = alone(&[&format!("set a0 {value}"), "return 0"]);
        let (answers, cells) = session_in(&text);
        assert_eq!(answers[0], answer, "{value}");
        assert_eq!(answers[1], answer, "{value}");
        assert_eq!(answers[5], 12, "{value}");
        assert_eq!(cells[object_cell(1, ATTRIBUTES)], stored, "{value}");
    }
}

#[test]
fn drives() {
    let text = MODEL.as_bytes();
    for (budget, steps, quiet) in [(12, 12, false), (13, 13, true), (0, 0, false)] {
        let (given, _) = drive(text, &started(text), budget);
        let expected = Drive {
            verdict: Verdict::ACCEPTED,
            steps,
            quiet,
        };
        assert_eq!(given, expected);
    }
    let (_, cells) = drive(text, &started(text), 13);
    assert_eq!(cells[object_cell(1, ATTRIBUTES + 1)], 7);
    assert!(cells == session_in(MODEL).1);
}

/// A text that is refused is so by a run and by a drive too, and nothing is written.
#[test]
fn texts() {
    let wrong = alone(&["set a0 1<2<3", "return 0"]);
    for (text, number, line) in [(wrong.as_str(), 5, 12), ("", 3, 1)] {
        let given = Run {
            text: text.as_bytes(),
            cells: &[7; CELLS],
            choices: &CHOICES,
            answers: CHOICES.len(),
        }
        .compare();
        assert_eq!(given.verdict, Verdict { number, line });
        let (given, cells) = drive(text.as_bytes(), &[7; CELLS], 13);
        assert_eq!(given.verdict, Verdict { number, line });
        assert_eq!((given.steps, given.quiet), (0, false));
        assert_eq!(cells, [7; CELLS]);
    }
}
