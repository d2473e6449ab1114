//! A table that tells an example choice by choice.

use boundary::creol::Entries;
use independent::configuration::CELLS;

use crate::claims::claims;
use crate::example::{choice, Example};
use crate::markdown::{quoted, Table};
use crate::{engines, Faults};

/// The header of such a table. A row has the numbers of its choices, counted from 1,
/// the choices in backticks, their answers, and words.
pub const HEADER: [&str; 4] = ["no.", "choices", "answers", "what to see"];

struct Row<'t> {
    first: usize,
    last: usize,
    choices: Vec<&'t str>,
    answers: Vec<i32>,
    words: &'t str,
}

/// The faults of a walk through an example: the choices and answers of its rows are
/// those of the example, all of them and in order, and the words of a row say something
/// of the cells that holds behind its last choice.
pub fn check(table: &Table, example: &Example) -> Faults {
    let rows: Result<Vec<Row>, String> = table.rows.iter().map(|row| read(row)).collect();
    let mut faults = match rows {
        Ok(rows) => compare(&rows, example),
        Err(fault) => vec![fault],
    };
    for fault in &mut faults {
        *fault = format!("{}: {fault}", example.name);
    }
    faults
}

fn read(row: &[String]) -> Result<Row<'_>, String> {
    let fault = || format!("no row of a walk: {row:?}");
    let [numbers, choices, answers, words] = row else {
        return Err(fault());
    };
    let (first, last) = numbers.split_once("..").unwrap_or((numbers, numbers));
    let answers: Result<Vec<i32>, _> = answers.split(' ').map(str::parse).collect();
    Ok(Row {
        first: first.parse().map_err(|_| fault())?,
        last: last.parse().map_err(|_| fault())?,
        choices: quoted(choices).ok_or_else(fault)?.split(' ').collect(),
        answers: answers.map_err(|_| fault())?,
        words,
    })
}

fn compare(rows: &[Row], example: &Example) -> Faults {
    let mut faults = Faults::new();
    let mut next = 1;
    for Row {
        first,
        last,
        choices,
        answers,
        ..
    } in rows
    {
        let count = (last + 1).saturating_sub(*first);
        if *first != next || count != choices.len() || count != answers.len() {
            faults.push(format!("choices {first}..{last} are not there"));
        }
        next = last + 1;
    }
    let choices: Vec<&str> = rows.iter().flat_map(|row| row.choices.clone()).collect();
    if choices != example.choice_lines() {
        faults.push("the walk has other choices".to_string());
    }
    let answers: Vec<i32> = rows.iter().flat_map(|row| row.answers.clone()).collect();
    if answers != example.answers() {
        faults.push(format!("the walk has other answers: {answers:?}"));
    }
    for (by, entries) in engines() {
        let unsaid = said(rows, &example.model, entries);
        faults.extend(unsaid.iter().map(|fault| format!("{fault} by {by}")));
    }
    faults
}

/// The faults of what the rows say of the cells, by the entries of an engine.
fn said(rows: &[Row], model: &[u8], entries: Entries) -> Faults {
    let mut cells = vec![0; CELLS];
    let verdict = (entries.start)(model, &mut cells);
    if !verdict.is_accepted() {
        return vec![format!("a walk through a refused model, {verdict:?}")];
    }
    let mut faults = Faults::new();
    for row in rows {
        for line in &row.choices {
            let choice = choice(line);
            (entries.step)(model, &mut cells, choice.kind, choice.number);
        }
        let behind = |fault| format!("behind choice {}: {fault}", row.last);
        match claims(row.words) {
            Ok(claims) if claims.is_empty() => faults.push(behind("nothing of the cells".into())),
            Ok(claims) => {
                let wrong = claims.iter().filter(|claim| !claim.holds(model, &cells));
                faults.extend(wrong.map(|claim| behind(format!("not {claim:?}"))));
            }
            Err(fault) => faults.push(behind(fault)),
        }
    }
    faults
}
