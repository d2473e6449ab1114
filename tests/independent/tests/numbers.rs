//! Every number of the table, met once.

mod common;

use common::*;
use independent::configuration::CELLS;
use independent::{drive, judge, run, step, Verdict};

/// A text, or what is asked of the session's start or of a short model.
enum Asked {
    Text(Vec<u8>),
    /// The last choice, after the others have been accepted.
    Last(String, Vec<(i32, i32)>),
    Cells(usize, i32),
    Answers,
    Budget,
}

fn ask(asked: &Asked) -> Verdict {
    let session = SESSION.as_bytes();
    match asked {
        Asked::Text(text) => judge(text),
        Asked::Last(text, choices) => {
            let mut cells = started(text);
            let (last, before) = choices.split_last().unwrap();
            for (kind, number) in before {
                let verdict = step(text.as_bytes(), &mut cells, *kind, *number);
                assert_eq!(verdict, accepted(), "{kind} {number} in\n{text}");
            }
            step(text.as_bytes(), &mut cells, last.0, last.1)
        }
        Asked::Cells(length, filling) => step(session, &mut vec![*filling; *length], EXEC, 1),
        Asked::Answers => run(session, &mut started(SESSION), &[], &mut [0]),
        Asked::Budget => drive(session, &mut started(SESSION), 10_001).verdict,
    }
}

fn in_session(choices: &[(i32, i32)]) -> Asked {
    Asked::Last(SESSION.to_string(), choices.to_vec())
}

fn first_line(value: &str) -> Asked {
    Asked::Last(alone(&[value, "return 0"]), vec![(EXEC, 1)])
}

fn repeated(body: &str, turns: usize) -> Asked {
    let text = alone(&["while 1", body, "od", "return 0"]);
    Asked::Last(text, vec![(EXEC, 1); 3 * turns + 2])
}

#[test]
fn every_number() {
    let called = [(EXEC, 1), (EXEC, 1)];
    let after_call = |more: &[(i32, i32)]| in_session(&[called.as_slice(), more].concat());
    let table = [
        (0, 0, Asked::Text(SESSION.into())),
        (1, 0, Asked::Text(vec![b'\n'; 32_769])),
        (2, 1, Asked::Text(b"creol=1".to_vec())),
        (3, 2, Asked::Text(b"creol=1\nclass=1\n".to_vec())),
        (4, 2, Asked::Text(b"creol=1\nclasses=17\n".to_vec())),
        (
            5,
            CODE_LINE,
            Asked::Text(alone(&["set a0", "return 0"]).into()),
        ),
        (6, CODE_LINE, Asked::Text(alone(&["od", "return 0"]).into())),
        (10, 0, Asked::Cells(CELLS - 1, 0)),
        (11, 0, Asked::Cells(CELLS, 0)),
        (12, 0, in_session(&[(6, 1)])),
        (13, 0, Asked::Answers),
        (14, 0, Asked::Budget),
        (20, 0, in_session(&[(ARRIVE, 1)])),
        (21, 0, after_call(&[(BIND, 2)])),
        (
            22,
            0,
            Asked::Last(
                alone(&["call a0 self 7", "return 0"]),
                vec![(EXEC, 1), (ARRIVE, 2), (BIND, 2)],
            ),
        ),
        (23, 0, after_call(&[(START, 2)])),
        (
            24,
            0,
            Asked::Last(
                alone(&["call a0 self 0", "return 0"]),
                vec![(EXEC, 1), (ARRIVE, 2), (BIND, 2), (START, 2)],
            ),
        ),
        (25, 0, after_call(&[(EXEC, 1), (START, 1)])),
        (26, 0, after_call(&[(DELIVER, 2)])),
        (27, 0, after_call(&[(EXEC, 2)])),
        (29, 0, first_line("set a0 2147483647+1")),
        (30, 0, first_line("call a0 0 0")),
        // 31 objects are created, then the rows are full; 127 calls likewise.
        (31, 0, repeated("new a0 0", 31)),
        (32, 0, repeated("call a0 self 0", 127)),
        (33, 0, first_line("get a0 a0")),
    ];
    for (number, line, asked) in &table {
        assert_eq!(ask(asked), refused(*number, *line));
    }
    let numbers: Vec<u8> = table.iter().map(|(number, ..)| *number).collect();
    let all: Vec<u8> = (0..=6)
        .chain(10..=14)
        .chain(20..=27)
        .chain(29..=33)
        .collect();
    assert_eq!(numbers, all);
}
