//! Numbers of choices and of answers: none, and those that do not belong together.

use boundary::lists::{list, started};
use boundary::models;
use boundary::session::{CHOICES, MODEL};
use independent::generate::Random;

use super::both::Run;
use super::tally::Tally;

/// Numbers of answers that are not the right one; the last is where it is cut to 16 bits.
fn other_lengths(right: usize) -> Vec<usize> {
    let about = [
        0,
        1,
        right.wrapping_sub(1),
        right + 1,
        right / 2,
        2 * right,
        2 * right + 1,
        right + 65_536,
    ];
    let is_other = |length: &usize| *length != right && *length < 1 << 20;
    about.into_iter().filter(is_other).collect()
}

#[test]
fn answers_of_another_length() {
    let mut tally = Tally::default();
    let mut random = Random::new(26);
    for _ in 0..800 {
        let text = models::short(&mut random);
        let cells = started(&text);
        let length = random.below(40);
        let list = list(&mut random, &text, &cells, length, 40);
        for answers in other_lengths(length) {
            tally.compare(Run {
                text: &text,
                cells: &cells,
                choices: &list,
                answers,
            });
        }
    }
    println!("{tally:#?}");
    assert!(tally.runs >= 5_000, "{tally:#?}");
    tally.demand_refused(&[13], tally.runs);
}

/// The choice behind the last one is not lent: it is not taken, and it does not count.
#[test]
fn a_list_cut_by_one() {
    let mut tally = Tally::default();
    let mut random = Random::new(27);
    for _ in 0..2_000 {
        let text = models::short(&mut random);
        let cells = started(&text);
        let length = random.between(1, 60);
        let list = list(&mut random, &text, &cells, length, 20);
        let run = |choices, answers| Run {
            text: &text,
            cells: &cells,
            choices,
            answers,
        };
        let cut = &list[..length - 1];
        let given = tally.compare(run(cut, length - 1));
        assert!(given.verdict.is_accepted());
        assert_eq!(tally.compare(run(cut, length)).verdict.number, 13);
        assert_eq!(tally.compare(run(&list, length - 1)).verdict.number, 13);
    }
    println!("{tally:#?}");
    assert!(tally.choices >= 50_000, "{tally:#?}");
    tally.demand_refused(&[13], 4_000);
}

#[test]
fn no_choice() {
    let mut tally = Tally::default();
    let mut random = Random::new(28);
    for _ in 0..500 {
        let text = models::short(&mut random);
        let cells = started(&text);
        let run = |answers| Run {
            text: &text,
            cells: &cells,
            choices: &[],
            answers,
        };
        let given = tally.compare(run(0));
        assert!(given.verdict.is_accepted() && given.cells == cells);
        assert_eq!(tally.compare(run(1)).verdict.number, 13);
    }
    assert_eq!((tally.runs, tally.choices), (1_000, 0));
}

/// The session's list, cut anywhere, with every number of answers up to one too many.
#[test]
fn the_session_cut_anywhere() {
    let mut tally = Tally::default();
    let text = MODEL.as_bytes();
    let cells = started(text);
    for end in 0..=CHOICES.len() {
        for answers in 0..=end + 1 {
            let verdict = tally
                .compare(Run {
                    text,
                    cells: &cells,
                    choices: &CHOICES[..end],
                    answers,
                })
                .verdict;
            assert_eq!(verdict.is_accepted(), answers == end);
        }
    }
    println!("{tally:#?}");
    assert_eq!(tally.runs - tally.refused[&13], CHOICES.len() + 1);
}
