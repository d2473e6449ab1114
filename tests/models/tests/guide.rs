//! docs/GUIDE.md: every block and table of it, run and compared.

use std::path::Path;

use boundary::session::MODEL;
use models::guide::Guide;
use models::markdown::{parts, Part};
use models::{read, root, walk, Faults};

fn page() -> String {
    read(&root().join("docs/GUIDE.md")).expect("the guide")
}

fn guide() -> Guide {
    let guide = Guide::read(&page());
    assert!(
        guide.examples.len() > 20,
        "{} examples",
        guide.examples.len()
    );
    guide
}

fn demand_none(faults: Faults) {
    assert!(faults.is_empty(), "{}", faults.join("\n"));
}

fn by_program(program: &Path) {
    let scratch = Path::new(env!("CARGO_TARGET_TMPDIR")).join("guide");
    let guide = guide();
    let faults = guide.examples.iter().flat_map(|example| {
        let folder = scratch.join(program.file_name().unwrap_or_default());
        example.by_program_in_a_new_folder(program, &folder.join(&example.name))
    });
    demand_none(faults.collect());
}

#[test]
fn by_the_independent_engine() {
    let guide = guide();
    let faults = guide
        .examples
        .iter()
        .flat_map(|example| example.by_independent());
    demand_none(faults.collect());
}

#[test]
fn by_a_program_that_stands_in_for_the_runner() {
    by_program(Path::new(env!("CARGO_BIN_EXE_independent-runner")));
}

#[cfg(have_runner)]
#[test]
fn by_the_runner() {
    by_program(&root().join("crates/runner/out/runner"));
}

#[test]
fn by_the_entries_step_by_step() {
    let guide = guide();
    let faults = guide
        .examples
        .iter()
        .flat_map(|example| example.by_entries());
    demand_none(faults.collect());
}

#[test]
fn its_tables_and_numbers() {
    demand_none(guide().faults());
}

#[test]
fn its_session_is_that_of_document_01() {
    let session = guide().example("session").cloned().expect("the session");
    assert_eq!(String::from_utf8_lossy(&session.model), MODEL);
}

#[test]
fn its_links_lead_somewhere() {
    let page = page();
    let links: Vec<&str> = page
        .split("](")
        .skip(1)
        .filter_map(|link| link.split(')').next())
        .collect();
    assert!(links.len() > 10, "only {links:?}");
    for link in links {
        assert!(root().join("docs").join(link).is_file(), "{link}");
    }
}

/// What is wrong with a page, by every check of this file.
fn faults_of(page: &str) -> Faults {
    let guide = Guide::read(page);
    let examples = guide.examples.iter();
    let mut faults: Faults = examples
        .flat_map(|example| example.by_independent())
        .collect();
    faults.extend(guide.faults());
    faults
}

#[test]
fn a_damaged_guide_fails() {
    let page = page();
    assert_eq!(faults_of(&page), Faults::new());
    for (from, to) in [
        // Blocks: what is written, a choice, a line of a model, what differs, a count.
        ("answer=27\naccepted=1", "answer=0\naccepted=1"),
        ("exec=1\nstart=1\narrive=2", "exec=1\nstart=2\narrive=2"),
        ("code=call v0 a1 0 7", "code=call v0 a0 0 7"),
        ("line 12 is code=get a0 a1", "line 12 is code=skip"),
        ("line 12 is code=get a0 a1", "line 20 is code=get a0 a1"),
        ("line 12 is code=get a0 a1", "line 12: code=get a0 a1"),
        ("383 exec=1", "382 exec=1"),
        ("4097 creol=1", "4096 creol=1"),
        // Tags: unknown, missing, of another name, a second of the same name.
        ("```written smallest", "```output smallest"),
        ("```written smallest", "```"),
        ("```written smallest", "```written desk"),
        ("```written smallest", " ```written smallest"),
        ("```written smallest", "```choices smallest"),
        ("```choices smallest", "```text smallest"),
        ("```choices asking", "```choices session"),
        (
            "```written too-long",
            "```choices too-long\nexec=1\n```\n\n```written too-long",
        ),
        ("```model desk", "```model smallest"),
        (
            "```model-with too-large of desk",
            "```model-with too-large of table",
        ),
        // Walks: numbers, choices, answers, what they say of the cells.
        ("| 3..4 | `exec=1 exec=1` |", "| 3..5 | `exec=1 exec=1` |"),
        ("| 5 | `arrive=2` | 0 |", "| 5 | `arrive=3` | 0 |"),
        ("| 5 | `arrive=2` | 0 |", "| 5 | `arrive=2` | 20 |"),
        (
            "call 2 is in stage 2, queued",
            "call 2 is in stage 3, queued",
        ),
        ("call 2 is in stage 2, queued", "it is in stage 2, queued"),
        // Tables: a line's verdict, a value, a guard, a call's number, a header.
        (
            "`code=set a8 1` | refused with 5",
            "`code=set a8 1` | accepted",
        ),
        (
            "`code=set a8 1` | refused with 5",
            "`code=set a7 1` | refused with 5",
        ),
        (
            "`code=set a8 1` | refused with 5",
            "`code=set a8 1` | refused with 6",
        ),
        ("a0 of object 1 is 14 |", "a0 of object 1 is 20 |"),
        (
            "`code=await [1]` | object 1 runs call 1",
            "`code=await [1]` | object 1 is idle",
        ),
        (
            "`code=set a0 46341*46341` | answer 29",
            "`code=set a0 46341*46341` | answer 0",
        ),
        (
            "`drive(session, started, 10001)` | 14",
            "`drive(session, started, 10001)` | 11",
        ),
        (
            "`drive(session, started, 10001)` | 14",
            "`drive(session, begun, 10001)` | 14",
        ),
        ("| call | number | why |", "| call | result | why |"),
        // Headings: a number that nothing under it gives, one that is not explained.
        ("### 30: the callee", "### 31: the callee"),
        ("### 22: no such", "### No such"),
        ("### 28: a line", "### A line"),
    ] {
        assert!(page.contains(from), "{from:?} is not in the guide");
        let damaged = page.replacen(from, to, 1);
        assert_ne!(faults_of(&damaged), Faults::new(), "{from:?} as {to:?}");
    }
}

/// A cell that says something else: another digit, or a refusal.
fn other_cell(said: &str) -> String {
    match said.rfind(|c: char| c.is_ascii_digit()) {
        Some(at) => {
            let other = if &said[at..=at] == "7" { "8" } else { "7" };
            format!("{}{other}{}", &said[..at], &said[at + 1..])
        }
        None => "refused with 7".to_string(),
    }
}

/// Lines of blocks that may be left out: one that says that nothing differs, one with a
/// fault that is passed over for another, and those behind a line that is refused.
const WITHOUT_EFFECT: [&str; 4] = [
    "no line differs",
    "line 12 is code=new a0 0 1",
    "9 code=od",
    "1 code=return 0",
];

#[test]
fn every_line_of_a_block_is_held_to_something() {
    let page = page();
    let lines: Vec<&str> = page.lines().collect();
    for (first, part) in parts(&page).expect("the guide") {
        let Part::Fence { tag, body } = part else {
            continue;
        };
        for (at, line) in body.iter().enumerate() {
            if WITHOUT_EFFECT.contains(&line.as_str()) {
                continue;
            }
            let mut fewer = lines.clone();
            fewer.remove(first + at);
            let faults = faults_of(&fewer.join("\n"));
            assert_ne!(faults, Faults::new(), "{tag} without {line}");
        }
    }
}

#[test]
fn every_row_of_a_table_is_held_to_something() {
    let page = page();
    let lines: Vec<&str> = page.lines().collect();
    for (first, part) in parts(&page).expect("the guide") {
        let Part::Table(table) = part else {
            continue;
        };
        // A walk tells its answers in the third cell, another table in the second.
        let column = if table.header == walk::HEADER { 2 } else { 1 };
        for (at, row) in table.rows.iter().enumerate() {
            let line = lines[first + 1 + at];
            let said = format!("| {} |", row[column]);
            let other = line.replacen(&said, &format!("| {} |", other_cell(&row[column])), 1);
            assert_ne!(line, other);
            let mut damaged = lines.clone();
            damaged[first + 1 + at] = &other;
            let faults = faults_of(&damaged.join("\n"));
            assert_ne!(faults, Faults::new(), "{other}");
        }
    }
}
