//! How fast the proved library is beside the independent engine: judge, start, step,
//! run and drive on the same texts, one run, in turns. `cargo run --release -p bench`.
//!
//! The times are of one call; a run is of 1,000 choices, a drive of 10,000 steps. The ratio is the engine's time by the library's: from 1.0 on the library is as
//! fast or faster.

use std::hint::black_box;
use std::time::{Duration, Instant};

use boundary::creol::{Entries, EXEC};
use boundary::lists::{list, started};
use boundary::places::{CALLS, OBJECTS};
use boundary::session::{CHOICES, MODEL};
use boundary::texts;
use independent::configuration::CELLS;
use independent::generate::{self, Random};
use independent::{Choice, Verdict, BUDGET_LIMIT};

const ROUNDS: usize = 401;
/// How long an engine is at it in a round, at least. Rounds are short and many, so
/// that each engine has some in which the machine does nothing else.
const TURN: Duration = Duration::from_millis(1);
/// So many steps are measured together, where a text has them.
const STEPS: usize = 8;
/// So many choices are in a run, and of those that a walk finds refused so many per cent.
const CHOICES_IN_A_RUN: usize = 1_000;
const REFUSED: usize = 30;

fn main() {
    let Some(proved) = Entries::linked() else {
        println!("libcreol.a is missing: run `rt lib` in crates/creol");
        return;
    };
    let engines = [proved, Entries::INDEPENDENT];
    println!("entry  text                  bytes    proved ns  independent ns   ratio");
    for (name, text, choices) in measured() {
        let judge = compared(engines, |engine| {
            assert_accepted(black_box((engine.judge)(black_box(&text))));
        });
        let mut cells = vec![0; CELLS];
        let start = compared(engines, |engine| {
            assert_accepted(black_box((engine.start)(
                black_box(&text),
                black_box(&mut cells),
            )));
        });
        let step = compared_steps(engines, &text, &choices);
        let run = compared_runs(engines, &text);
        let times = [
            ("judge", judge),
            ("start", start),
            ("step", step),
            ("run", run),
        ];
        for (entry, times) in times {
            show(entry, name, &text, times);
        }
    }
    for (name, text) in [("busy", busy()), ("128 calls", calls())] {
        show("run", name, &text, compared_runs(engines, &text));
        show("drive", name, &text, compared_drives(engines, &text));
    }
}

fn show(entry: &str, name: &str, text: &[u8], [proved, independent]: [f64; 2]) {
    let (bytes, ratio) = (text.len(), independent / proved);
    println!("{entry:<6} {name:<18} {bytes:>8} {proved:>12.0} {independent:>15.0} {ratio:>7.2}");
}

fn assert_accepted(verdict: Verdict) {
    assert!(verdict.is_accepted(), "{verdict:?}");
}

/// Texts, and choices from their start on: those of the session, in which three are
/// refused; of each other text the first that are accepted.
fn measured() -> Vec<(&'static str, Vec<u8>, Vec<Choice>)> {
    let texts = [
        ("generated", generated_text()),
        (
            "long expressions",
            generate::large_text(&mut Random::new(1)),
        ),
        ("all statements", texts::dense()),
    ];
    let session = ("the session", MODEL.as_bytes().to_vec(), CHOICES.to_vec());
    let others = texts.map(|(name, text)| {
        let choices = accepted_choices(&text);
        (name, text, choices)
    });
    [session].into_iter().chain(others).collect()
}

/// The generated text, among many, whose length is nearest to 12 KB.
fn generated_text() -> Vec<u8> {
    (0..4_000)
        .map(|seed| generate::text(&mut Random::new(seed)))
        .min_by_key(|text| text.len().abs_diff(12_000))
        .expect("some texts")
}

/// The choices that a drive takes, up to so many.
fn accepted_choices(text: &[u8]) -> Vec<Choice> {
    let mut cells = vec![0; CELLS];
    assert_accepted(independent::start(text, &mut cells));
    let mut choices = Vec::new();
    while choices.len() < STEPS {
        let in_use = |kind| cells[if kind == EXEC { OBJECTS } else { CALLS }];
        let mut all = (1..=5)
            .flat_map(|kind| (1..=in_use(kind)).map(move |number| Choice { kind, number }))
            .collect::<Vec<_>>()
            .into_iter();
        let is_taken = |choice: &Choice| {
            independent::step(text, &mut cells, choice.kind, choice.number).is_accepted()
        };
        let Some(taken) = all.find(is_taken) else {
            break;
        };
        choices.push(taken);
    }
    assert!(!choices.is_empty(), "no choice is accepted");
    choices
}

/// The nanoseconds of a step. Each engine steps from the start's cells on, which are
/// put back before the first of the choices: so the cells are warm for both.
fn compared_steps(engines: [Entries; 2], text: &[u8], choices: &[Choice]) -> [f64; 2] {
    let mut fresh = vec![0; CELLS];
    assert_accepted(independent::start(text, &mut fresh));
    let [ends, expected] = engines.map(|engine| {
        let mut cells = fresh.clone();
        let step = |choice: &Choice| (engine.step)(text, &mut cells, choice.kind, choice.number);
        let verdicts: Vec<Verdict> = choices.iter().map(step).collect();
        (verdicts, cells)
    });
    assert_eq!(ends, expected, "the engines differ");
    let mut cells = fresh.clone();
    let times = compared(engines, |engine| {
        cells.copy_from_slice(&fresh);
        for choice in choices {
            black_box((engine.step)(
                black_box(text),
                black_box(&mut cells),
                choice.kind,
                choice.number,
            ));
        }
    });
    times.map(|time| time / choices.len() as f64)
}

/// A text whose run never ends, with some statements in its round.
fn busy() -> Vec<u8> {
    texts::alone(&[
        "while 1",
        "set a0 a0+1",
        "if a0-a1*2<1",
        "set a2 a2+(a0-a1)",
        "else",
        "set a1 a1+1",
        "fi",
        "set a2 (a2*3)-(a2*2)-a2",
        "od",
        "return 0",
    ])
    .into_bytes()
}

/// A text whose run makes 31 objects, calls them 127 times and waits for ever, while the
/// called give way to one another: a drive finds its next start behind all that is
/// refused.
fn calls() -> Vec<u8> {
    let lines = |code: &[&str]| -> String {
        let count = format!("lines={}\n", code.len());
        let value = |value: &&str| format!("code={value}\n");
        count + &code.iter().map(value).collect::<String>()
    };
    let run = [
        "while a0<31",
        "new v0 1",
        "set a0 a0+1",
        "od",
        "while a1<127",
        "if a0<2",
        "set a0 32",
        "else",
        "fi",
        "call v0 a0 0",
        "set a0 a0-1",
        "set a1 a1+1",
        "od",
        "await [0]",
        "return 0",
    ];
    let called = ["while 1", "await wait", "od", "return 0"];
    let mut text = String::from("creol=1\nclasses=2\nclass=0\nattrs=2\ngiven=0\nrun=1\n");
    text += "methods=1\nmethod=0\nparams=0\nlocals=1\n";
    text += &lines(&run);
    text += "class=1\nattrs=0\ngiven=0\nrun=0\n";
    text += "methods=1\nmethod=0\nparams=0\nlocals=0\n";
    text += &lines(&called);
    text.into_bytes()
}

/// The nanoseconds of a drive from the start's cells on, which are put back before it.
fn compared_drives(engines: [Entries; 2], text: &[u8]) -> [f64; 2] {
    let fresh = started(text);
    let [end, expected] = engines.map(|engine| {
        let mut cells = fresh.clone();
        let drive = (engine.drive)(text, &mut cells, BUDGET_LIMIT);
        assert_eq!(drive.steps, BUDGET_LIMIT);
        (drive, cells)
    });
    assert!(end == expected, "the engines differ");
    let mut cells = fresh.clone();
    compared(engines, |engine| {
        cells.copy_from_slice(&fresh);
        black_box((engine.drive)(
            black_box(text),
            black_box(&mut cells),
            black_box(BUDGET_LIMIT),
        ));
    })
}

/// The nanoseconds of a run from the start's cells on, which are put back before it.
fn compared_runs(engines: [Entries; 2], text: &[u8]) -> [f64; 2] {
    let fresh = started(text);
    let mut random = Random::new(2);
    let choices = list(&mut random, text, &fresh, CHOICES_IN_A_RUN, REFUSED);
    let [ends, expected] = engines.map(|engine| {
        let (mut cells, mut answers) = (fresh.clone(), vec![-1; choices.len()]);
        assert_accepted((engine.run)(text, &mut cells, &choices, &mut answers));
        (cells, answers)
    });
    assert!(ends == expected, "the engines differ");
    let (mut cells, mut answers) = (fresh.clone(), vec![-1; choices.len()]);
    compared(engines, |engine| {
        cells.copy_from_slice(&fresh);
        black_box((engine.run)(
            black_box(text),
            black_box(&mut cells),
            black_box(&choices),
            black_box(&mut answers),
        ));
    })
}

/// The nanoseconds of this work, with each of the two: those of its quickest round.
/// What else the machine does only adds to a round. Beside other work the median of
/// one engine is at times four times that of the same engine.
fn compared(engines: [Entries; 2], mut work: impl FnMut(&Entries)) -> [f64; 2] {
    let turns = engines.map(|engine| turns_in_a_round(&engine, &mut work));
    let mut times = [Vec::new(), Vec::new()];
    for round in 0..ROUNDS {
        // Each goes first in every other round.
        for turn in 0..2 {
            let which = (round + turn) % 2;
            let time = timed(&engines[which], turns[which], &mut work);
            times[which].push(time.as_nanos() as f64 / f64::from(turns[which]));
        }
    }
    times.map(|times| times.into_iter().fold(f64::INFINITY, f64::min))
}

fn turns_in_a_round(engine: &Entries, work: &mut impl FnMut(&Entries)) -> u32 {
    let mut turns = 1;
    while timed(engine, turns, work) < TURN {
        turns *= 2;
    }
    turns
}

fn timed(engine: &Entries, turns: u32, work: &mut impl FnMut(&Entries)) -> Duration {
    let start = Instant::now();
    for _ in 0..turns {
        work(engine);
    }
    start.elapsed()
}
