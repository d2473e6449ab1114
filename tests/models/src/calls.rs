//! Calls of the entries as a table writes them: `drive(session, started, 10001)`.
//!
//! The first argument names a text, the second is the cells: `zeros(n)` are n cells
//! of 0, `started` those that start writes for the text, `started(c, x)` the same
//! with x in cell c. A run has `choices(n)`, which are n times exec 1, and
//! `answers(n)`; a step has a kind and a number, a drive a budget.

use boundary::creol::{Entries, EXEC};
use independent::configuration::CELLS;
use independent::{drive, run, Choice, Verdict};

/// The number that an engine gives for a call, and that a refused call has written
/// nothing. A run and a drive are the independent engine's.
pub fn number(
    call: &str,
    text_of: impl Fn(&str) -> Option<Vec<u8>>,
    entries: Entries,
) -> Result<u8, String> {
    let fault = || format!("no call of an entry: {call}");
    let (entry, arguments) = call.split_once('(').ok_or_else(fault)?;
    let arguments = arguments.strip_suffix(')').ok_or_else(fault)?;
    let arguments = split(arguments);
    let arguments: Vec<&str> = arguments.iter().map(String::as_str).collect();
    let (text, cells, rest) = match arguments.as_slice() {
        [text, cells, rest @ ..] => (text_of(text).ok_or_else(fault)?, *cells, rest),
        _ => return Err(fault()),
    };
    let mut cells = cells_of(cells, &text).ok_or_else(fault)?;
    let before = cells.clone();
    let mut written = false;
    let verdict = match (entry, rest) {
        ("start", []) => (entries.start)(&text, &mut cells),
        ("step", [kind, number]) => {
            let kind = kind.parse().map_err(|_| fault())?;
            let number = number.parse().map_err(|_| fault())?;
            (entries.step)(&text, &mut cells, kind, number)
        }
        ("run", [choices, answers]) => {
            let choices = count(choices, "choices").ok_or_else(fault)?;
            let exec = Choice {
                kind: EXEC,
                number: 1,
            };
            let choices = vec![exec; choices];
            let answers = count(answers, "answers").ok_or_else(fault)?;
            let mut answers = vec![-1; answers];
            let verdict = run(&text, &mut cells, &choices, &mut answers);
            written = answers.iter().any(|answer| *answer != -1);
            verdict
        }
        ("drive", [budget]) => {
            let budget = budget.parse().map_err(|_| fault())?;
            drive(&text, &mut cells, budget).verdict
        }
        _ => return Err(fault()),
    };
    if !verdict.is_accepted() && (written || cells != before) {
        return Err(format!("refused and written: {call}"));
    }
    match verdict {
        Verdict { number, line: 0 } => Ok(number),
        _ => Err(format!("a line is named: {call}")),
    }
}

/// Arguments, split at the commas outside brackets.
fn split(arguments: &str) -> Vec<String> {
    let mut split = vec![String::new()];
    let mut open = 0;
    for c in arguments.chars() {
        match c {
            '(' => open += 1,
            ')' => open -= 1,
            _ => {}
        }
        if c == ',' && open == 0 {
            split.push(String::new());
        } else if let Some(last) = split.last_mut() {
            last.push(c);
        }
    }
    split.iter().map(|part| part.trim().to_string()).collect()
}

/// What stands in the brackets behind a name.
fn inside<'t>(term: &'t str, name: &str) -> Option<&'t str> {
    term.strip_prefix(name)?
        .strip_prefix('(')?
        .strip_suffix(')')
}

fn count(term: &str, name: &str) -> Option<usize> {
    inside(term, name)?.parse().ok()
}

fn cells_of(term: &str, text: &[u8]) -> Option<Vec<i32>> {
    if let Some(zeros) = count(term, "zeros") {
        return Some(vec![0; zeros]);
    }
    let mut cells = vec![0; CELLS];
    if !independent::start(text, &mut cells).is_accepted() {
        return None;
    }
    if term != "started" {
        let (cell, value) = inside(term, "started")?.split_once(", ")?;
        *cells.get_mut(cell.parse::<usize>().ok()?)? = value.parse().ok()?;
    }
    Some(cells)
}

#[cfg(test)]
mod tests {
    use super::*;
    use boundary::session::MODEL;

    fn ask(call: &str) -> Option<u8> {
        let text_of = |name: &str| (name == "session").then(|| MODEL.into());
        number(call, text_of, Entries::INDEPENDENT).ok()
    }

    #[test]
    fn calls_are_performed() {
        for (call, number) in [
            ("start(session, zeros(2370))", 0),
            ("start(session, zeros(2369))", 10),
            ("step(session, zeros(2370), 1, 1)", 11),
            ("step(session, started(0, 33), 1, 1)", 11),
            ("step(session, started, 1, 2)", 12),
            ("run(session, started, choices(2), answers(1))", 13),
            ("run(session, started, choices(2), answers(2))", 0),
            ("drive(session, started, 10000)", 0),
            ("drive(session, started, 10001)", 14),
        ] {
            assert_eq!(ask(call), Some(number), "{call}");
        }
    }

    #[test]
    fn other_calls_are_none() {
        for call in [
            "start",
            "start(session)",
            "start(other, zeros(1))",
            "start(session, zeroes(1))",
            "start(session, zeros(1), 1)",
            "step(session, started, 1)",
            "step(session, started(9999, 1), 1, 1)",
            "run(session, started, 1, 1)",
            "drive(session, started, x)",
            "judge(session, started)",
        ] {
            assert_eq!(ask(call), None, "{call}");
        }
    }
}
