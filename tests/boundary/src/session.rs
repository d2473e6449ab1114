//! The session of document 01.

use independent::Choice;

use crate::creol::{ARRIVE, BIND, DELIVER, EXEC, START};

/// Its model.
pub const MODEL: &str = include_str!("../../session/model");

/// Its choices, from the model's start on.
pub const CHOICES: [Choice; 16] = [
    choice(EXEC, 1),
    choice(EXEC, 1),
    choice(EXEC, 1),
    choice(EXEC, 1),
    choice(START, 1),
    choice(ARRIVE, 2),
    choice(BIND, 2),
    choice(START, 2),
    choice(EXEC, 2),
    choice(EXEC, 2),
    choice(START, 1),
    choice(DELIVER, 2),
    choice(START, 1),
    choice(EXEC, 1),
    choice(EXEC, 1),
    choice(EXEC, 1),
];

/// The answers to them.
pub const ANSWERS: [u8; 16] = [0, 0, 0, 27, 25, 0, 0, 0, 0, 0, 25, 0, 0, 0, 0, 0];

/// Its choices as the runner reads them.
pub const INPUT: &str = "exec=1\nexec=1\nexec=1\nexec=1\nstart=1\narrive=2\nbind=2\nstart=2\n\
    exec=2\nexec=2\nstart=1\ndeliver=2\nstart=1\nexec=1\nexec=1\nexec=1\n";

/// What the runner writes.
pub const WRITTEN: &str = "answer=0\nanswer=0\nanswer=0\nanswer=27\nanswer=25\nanswer=0\n\
    answer=0\nanswer=0\nanswer=0\nanswer=0\nanswer=25\nanswer=0\nanswer=0\nanswer=0\n\
    answer=0\nanswer=0\naccepted=13\nrefused=3\nobjects=2\ncalls=2\n";

const fn choice(kind: i32, number: i32) -> Choice {
    Choice { kind, number }
}
