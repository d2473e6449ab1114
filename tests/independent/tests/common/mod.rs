//! What the tests share: the session's model, and models of a few lines.

#![allow(dead_code)]

use independent::configuration::CELLS;
use independent::{judge, run, start, Choice, Verdict};

pub const SESSION: &str = include_str!("../../../session/model");

pub const EXEC: i32 = 1;
pub const ARRIVE: i32 = 2;
pub const BIND: i32 = 3;
pub const START: i32 = 4;
pub const DELIVER: i32 = 5;

pub fn accepted() -> Verdict {
    refused(0, 0)
}

pub fn refused(number: u8, line: u32) -> Verdict {
    Verdict { number, line }
}

pub const fn choice(kind: i32, number: i32) -> Choice {
    Choice { kind, number }
}

/// A class: its numbers as they stand in the text, and its methods.
pub struct Class<'c> {
    pub attrs: u8,
    pub given: u8,
    pub run: u8,
    /// Params, locals and code.
    pub methods: &'c [(u8, u8, &'c [&'c str])],
}

pub fn text_of(classes: &[Class]) -> String {
    let mut text = format!("creol=1\nclasses={}\n", classes.len());
    for (index, class) in classes.iter().enumerate() {
        text += &format!(
            "class={index}\nattrs={}\ngiven={}\nrun={}\nmethods={}\n",
            class.attrs,
            class.given,
            class.run,
            class.methods.len()
        );
        for (index, (params, locals, code)) in class.methods.iter().enumerate() {
            text += &format!(
                "method={index}\nparams={params}\nlocals={locals}\nlines={}\n",
                code.len()
            );
            for line in *code {
                text += &format!("code={line}\n");
            }
        }
    }
    text
}

/// The first code line of the model that [`alone`] writes.
pub const CODE_LINE: u32 = 12;

/// One class with all variables, whose run has this code.
pub fn alone(code: &[&str]) -> String {
    text_of(&[Class {
        attrs: 8,
        given: 0,
        run: 1,
        methods: &[(0, 8, code)],
    }])
}

/// The verdict on a text with this code value, before a `return 0`.
pub fn judge_code(value: &str) -> Verdict {
    judge(alone(&[value, "return 0"]).as_bytes())
}

pub const GOOD: (u8, u32) = (0, 0);

/// Number and line of the verdict on a text.
pub fn verdict(text: &str) -> (u8, u32) {
    let verdict = judge(text.as_bytes());
    (verdict.number, verdict.line)
}

/// The session with one line changed, that line counted from 1.
pub fn session_with(line: usize, replacement: &str) -> String {
    let mut lines: Vec<&str> = SESSION.lines().collect();
    lines[line - 1] = replacement;
    lines.join("\n") + "\n"
}

pub fn started(text: &str) -> Vec<i32> {
    let mut cells = vec![-1; CELLS];
    assert_eq!(start(text.as_bytes(), &mut cells), accepted(), "{text}");
    cells
}

/// The answers to these choices from the start on, and the cells at the end.
pub fn session(text: &str, choices: &[Choice]) -> (Vec<i32>, Vec<i32>) {
    let mut cells = started(text);
    let mut answers = vec![-1; choices.len()];
    let verdict = run(text.as_bytes(), &mut cells, choices, &mut answers);
    assert_eq!(verdict, accepted());
    (answers, cells)
}

/// The answer to the first exec of a method that begins with this code.
pub fn first_exec(value: &str) -> (i32, Vec<i32>) {
    let (answers, cells) = session(&alone(&[value, "return 0"]), &[choice(EXEC, 1)]);
    (answers[0], cells)
}

pub fn attribute(cells: &[i32], object: usize, index: usize) -> i32 {
    cells[2 + 10 * (object - 1) + 2 + index]
}

pub fn call_cell(label: usize, field: usize) -> usize {
    322 + 16 * (label - 1) + field
}

pub fn stage(cells: &[i32], label: usize) -> i32 {
    cells[call_cell(label, 0)]
}
