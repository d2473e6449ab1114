//! The library's run beside its own steps, and beside its run of the same list in parts.

use boundary::creol::{self, Choice};
use boundary::lists::{list, started};
use boundary::models;
use independent::configuration::CELLS;
use independent::generate::Random;
use independent::Verdict;

/// What a run gives: the cells, and the answers.
type Given = (Vec<i32>, Vec<i32>);

fn by_run(text: &[u8], cells: &[i32], list: &[Choice]) -> Given {
    let (mut cells, mut answers) = (cells.to_vec(), vec![-1; list.len()]);
    let verdict = creol::run(text, &mut cells, list, &mut answers);
    assert_eq!(verdict, Verdict::ACCEPTED);
    (cells, answers)
}

fn by_steps(text: &[u8], cells: &[i32], list: &[Choice]) -> Given {
    let mut cells = cells.to_vec();
    let step = |choice: &Choice| {
        let Verdict { number, line } = creol::step(text, &mut cells, choice.kind, choice.number);
        assert_eq!(line, 0);
        i32::from(number)
    };
    let answers = list.iter().map(step).collect();
    (cells, answers)
}

/// The same list in two runs, the second from where the first ends.
fn in_parts(text: &[u8], cells: &[i32], list: &[Choice], at: usize) -> Given {
    let (first, second) = list.split_at(at);
    let (cells, mut answers) = by_run(text, cells, first);
    let (cells, more) = by_run(text, &cells, second);
    answers.extend(more);
    (cells, answers)
}

#[test]
fn a_run_is_its_steps() {
    let mut random = Random::new(25);
    let (mut accepted, mut refused) = (0, 0);
    for _ in 0..3_000 {
        let text = models::short(&mut random);
        let cells = started(&text);
        let length = random.between(50, 250);
        let list = list(&mut random, &text, &cells, length, 40);
        let given = by_run(&text, &cells, &list);
        assert!(given == by_steps(&text, &cells, &list), "{list:?}");
        let at = random.below(length + 1);
        assert!(given == in_parts(&text, &cells, &list, at), "{list:?}");
        let zeros = given.1.iter().filter(|answer| **answer == 0).count();
        accepted += zeros;
        refused += length - zeros;
    }
    println!("{accepted} accepted, {refused} refused");
    assert!(accepted >= 100_000, "{accepted}");
    assert!(refused >= 100_000, "{refused}");
}

/// More choices than 16 bits count, in a model that never rests.
#[test]
fn a_very_long_run() {
    let text = boundary::texts::alone(&["while 1", "set a0 a0+1", "od", "return 0"]);
    let text = text.as_bytes();
    let choice = |index: usize| Choice {
        kind: creol::EXEC,
        number: if index % 5 == 4 { 2 } else { 1 },
    };
    let list: Vec<Choice> = (0..200_000).map(choice).collect();
    let mut cells = vec![0; CELLS];
    assert_eq!(creol::start(text, &mut cells), Verdict::ACCEPTED);
    let mut expected = (cells.clone(), vec![-1; list.len()]);
    let verdict = independent::run(text, &mut expected.0, &list, &mut expected.1);
    assert_eq!(verdict, Verdict::ACCEPTED);
    assert_eq!(
        expected.1.iter().filter(|answer| **answer == 0).count(),
        160_000
    );
    assert!(by_run(text, &cells, &list) == expected);
}
