//! The marked cases of document 01 that are steps, with the answers that it gives.

use boundary::creol::EXEC;
use boundary::places::{call_cell, object_cell, ATTRIBUTES, CALLS, OBJECTS, STAGE};
use boundary::session::{ANSWERS, CHOICES, MODEL};
use boundary::texts::alone;
use independent::configuration::{Stage, CELLS};
use independent::{Choice, Verdict};

use super::both::Both;

const EXEC_1: Choice = Choice {
    kind: EXEC,
    number: 1,
};

fn refused(number: u8) -> Verdict {
    Verdict { number, line: 0 }
}

fn started(text: &str) -> Both {
    let mut both = Both::lent(&[-1; CELLS]);
    assert_eq!(both.start(text.as_bytes()), Verdict::ACCEPTED);
    both
}

fn attribute(both: &Both, object: usize, index: usize) -> i32 {
    both.cells()[object_cell(object, ATTRIBUTES + index)]
}

#[test]
fn the_session() {
    let mut both = started(MODEL);
    for (choice, answer) in CHOICES.into_iter().zip(ANSWERS) {
        assert_eq!(both.step(MODEL.as_bytes(), choice), refused(answer));
    }
    assert_eq!(attribute(&both, 1, 1), 7);
    assert_eq!(both.cells()[OBJECTS], 2);
    assert_eq!(both.cells()[CALLS], 2);
}

#[test]
fn arithmetic() {
    for (value, expected) in [
        ("2147483647+1", None),
        ("46341*46341", None),
        ("0-2147483647-1", Some(i32::MIN)),
        ("46340*46340", Some(2_147_395_600)),
    ] {
        let text = alone(&[&format!("set a0 {value}"), "return 0"]);
        let mut both = started(&text);
        let verdict = both.step(text.as_bytes(), EXEC_1);
        match expected {
            None => assert_eq!(verdict, refused(29), "{value}"),
            Some(expected) => {
                assert_eq!(verdict, Verdict::ACCEPTED, "{value}");
                assert_eq!(attribute(&both, 1, 0), expected, "{value}");
            }
        }
    }
}

#[test]
fn a_second_get() {
    let text = MODEL
        .replace("lines=5", "lines=6")
        .replace("code=get v0 a1\n", "code=get v0 a1\ncode=get v0 a1\n");
    let mut both = started(&text);
    for (choice, answer) in CHOICES.into_iter().zip(ANSWERS).take(15) {
        assert_eq!(both.step(text.as_bytes(), choice), refused(answer));
    }
    assert_eq!(both.step(text.as_bytes(), EXEC_1), refused(33));
    assert_eq!(both.cells()[call_cell(2, STAGE)], Stage::Taken as i32);
    assert_eq!(attribute(&both, 1, 1), 7);
}

/// A text that is refused is so by every entry, and no cell is written.
#[test]
fn texts() {
    let wrong = alone(&["set a0 1<2<3", "return 0"]);
    for (text, number, line) in [(wrong.as_str(), 5, 12), ("", 3, 1)] {
        let expected = Verdict { number, line };
        let mut both = Both::lent(&[7; CELLS]);
        assert_eq!(both.start(text.as_bytes()), expected);
        assert_eq!(both.step(text.as_bytes(), EXEC_1), expected);
        assert_eq!(both.cells(), [7; CELLS]);
    }
}
