//! The marked cases.

mod common;

use common::*;
use independent::{drive, judge, run, runner, step, Choice, Drive};

const CHOICES: [Choice; 16] = [
    choice(EXEC, 1),
    choice(EXEC, 1),
    choice(EXEC, 1),
    choice(EXEC, 1),
    choice(START, 1),
    choice(ARRIVE, 2),
    choice(BIND, 2),
    choice(START, 2),
    choice(EXEC, 2),
    choice(EXEC, 2),
    choice(START, 1),
    choice(DELIVER, 2),
    choice(START, 1),
    choice(EXEC, 1),
    choice(EXEC, 1),
    choice(EXEC, 1),
];
const ANSWERS: [i32; 16] = [0, 0, 0, 27, 25, 0, 0, 0, 0, 0, 25, 0, 0, 0, 0, 0];

#[test]
fn the_session() {
    let (answers, cells) = session(SESSION, &CHOICES);
    assert_eq!(answers, ANSWERS);
    assert_eq!(attribute(&cells, 1, 1), 7);
    assert_eq!((cells[0], cells[1]), (2, 2));
    assert_eq!((stage(&cells, 1), stage(&cells, 2)), (7, 7));
}

#[test]
fn the_session_step_by_step() {
    let mut cells = started(SESSION);
    for (choice, answer) in CHOICES.iter().zip(ANSWERS) {
        let verdict = step(SESSION.as_bytes(), &mut cells, choice.kind, choice.number);
        assert_eq!(verdict, refused(answer as u8, 0));
    }
    assert_eq!(cells, session(SESSION, &CHOICES).1);
}

#[test]
fn the_session_by_the_runner() {
    let input = b"exec=1\nexec=1\nexec=1\nexec=1\nstart=1\narrive=2\nbind=2\nstart=2\n\
        exec=2\nexec=2\nstart=1\ndeliver=2\nstart=1\nexec=1\nexec=1\nexec=1\n";
    let written = b"answer=0\nanswer=0\nanswer=0\nanswer=27\nanswer=25\nanswer=0\nanswer=0\n\
        answer=0\nanswer=0\nanswer=0\nanswer=25\nanswer=0\nanswer=0\nanswer=0\nanswer=0\n\
        answer=0\naccepted=13\nrefused=3\nobjects=2\ncalls=2\n";
    assert_eq!(runner(SESSION.as_bytes(), input), written);
    let without_last_lf = &input[..input.len() - 1];
    assert_eq!(runner(SESSION.as_bytes(), without_last_lf), written);
}

#[test]
fn drives() {
    for (budget, steps, quiet) in [
        (12, 12, false),
        (13, 13, true),
        (0, 0, false),
        (14, 13, true),
    ] {
        let mut cells = started(SESSION);
        let expected = Drive {
            verdict: accepted(),
            steps,
            quiet,
        };
        assert_eq!(drive(SESSION.as_bytes(), &mut cells, budget), expected);
    }
}

#[test]
fn arithmetic() {
    assert_eq!(first_exec("set a0 2147483647+1").0, 29);
    assert_eq!(first_exec("set a0 46341*46341").0, 29);
    for (value, result) in [("0-2147483647-1", i32::MIN), ("46340*46340", 2_147_395_600)] {
        let (answer, cells) = first_exec(&format!("set a0 {value}"));
        assert_eq!((answer, attribute(&cells, 1, 0)), (0, result));
    }
}

#[test]
fn a_second_get_is_refused() {
    let text = SESSION
        .replace("lines=5", "lines=6")
        .replace("code=get v0 a1\n", "code=get v0 a1\ncode=get v0 a1\n");
    let mut choices = CHOICES[..15].to_vec();
    choices.push(choice(EXEC, 1));
    let (answers, cells) = session(&text, &choices);
    assert_eq!(answers[..15], ANSWERS[..15]);
    assert_eq!(answers[15], 33);
    assert_eq!((stage(&cells, 2), attribute(&cells, 1, 1)), (7, 7));
}

#[test]
fn texts() {
    assert_eq!(judge(SESSION.as_bytes()), accepted());
    assert_eq!(judge_code("set a0 1<2<3"), refused(5, CODE_LINE));
    assert_eq!(judge(b""), refused(3, 1));
}

#[test]
fn a_refused_model_writes_two_lines() {
    assert_eq!(runner(b"", b"exec=1\n"), b"refused=3\nline=1\n");
    assert_eq!(runner(&[b'x'; 32_769], b""), b"refused=1\nline=0\n");
}

#[test]
fn a_refused_run_writes_nothing() {
    let mut cells = started(SESSION);
    let before = cells.clone();
    let mut answers = [-1; 15];
    let verdict = run(SESSION.as_bytes(), &mut cells, &CHOICES, &mut answers);
    assert_eq!(verdict, refused(13, 0));
    assert_eq!((cells, answers), (before, [-1; 15]));
}
