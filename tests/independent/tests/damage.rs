//! Damaged texts and cells: every entry answers, and a refusal writes nothing.

mod common;

use common::accepted;
use independent::configuration::{Configuration, CELLS};
use independent::generate::{self, Random};
use independent::model::Model;
use independent::{drive, judge, run, runner, start, step};

#[test]
fn damaged_texts() {
    let mut met = [0; 7];
    for seed in 0..20_000 {
        let mut random = Random::new(seed);
        let text = generate::text(&mut random);
        let damaged = generate::damaged_text(&mut random, &text);
        let verdict = judge(&damaged);
        let lines = damaged.iter().filter(|byte| **byte == b'\n').count() as u32;
        match verdict.number {
            0 | 1 => assert_eq!(verdict.line, 0),
            _ => assert!((1..=lines + 1).contains(&verdict.line)),
        }
        met[usize::from(verdict.number)] += 1;
        if !verdict.is_accepted() {
            let mut cells = vec![5; CELLS];
            let mut answers = [5];
            assert_eq!(start(&damaged, &mut cells), verdict);
            assert_eq!(step(&damaged, &mut cells, 1, 1), verdict);
            assert_eq!(run(&damaged, &mut cells, &[], &mut answers), verdict);
            assert_eq!(drive(&damaged, &mut cells, 1).verdict, verdict);
            assert!(cells.iter().chain(&answers).all(|cell| *cell == 5));
        }
    }
    assert!(met.iter().all(|count| *count >= 50), "{met:?}");
    println!("met {met:?}");
}

/// The verdict on a text does not depend on what stands after its failing line.
#[test]
fn a_verdict_is_about_its_line() {
    for seed in 0..5_000 {
        let mut random = Random::new(7_000_000 + seed);
        let text = generate::text(&mut random);
        let damaged = generate::damaged_text(&mut random, &text);
        let verdict = judge(&damaged);
        let is_late = verdict.number == 5 && {
            // A wrong count of arguments is judged last, so it does depend on the rest.
            let line = damaged
                .split(|byte| *byte == b'\n')
                .nth(verdict.line as usize - 1);
            line.is_some_and(|line| line.starts_with(b"code=new "))
        };
        if verdict.number < 2 || is_late {
            continue;
        }
        let cut: Vec<u8> = damaged
            .split_inclusive(|byte| *byte == b'\n')
            .take(verdict.line as usize)
            .flatten()
            .copied()
            .collect();
        assert_eq!(
            judge(&cut),
            verdict,
            "{}",
            String::from_utf8_lossy(&damaged)
        );
    }
}

#[test]
fn long_texts() {
    for lines in 500..530 {
        let mut random = Random::new(lines);
        let text = generate::long_text(&mut random, lines as usize);
        let verdict = judge(&text);
        if lines <= 512 {
            assert_eq!(verdict, accepted());
        } else {
            assert_eq!(verdict.number, 4);
            let refused = String::from_utf8_lossy(&text);
            let refused = refused.lines().nth(verdict.line as usize - 1);
            assert!(refused.is_some_and(|line| line.starts_with("lines=")));
        }
    }
}

#[test]
fn bytes_of_no_meaning() {
    for seed in 0..3_000 {
        let mut random = Random::new(seed);
        let length = random.below(200);
        let bytes: Vec<u8> = (0..length).map(|_| random.below(256) as u8).collect();
        assert!(!judge(&bytes).is_accepted());
        let written = runner(common::SESSION.as_bytes(), &bytes);
        assert!(written.starts_with(b"answer=12\n") || written.starts_with(b"accepted=0\n"));
    }
}

#[test]
fn damaged_cells() {
    let mut met = [0; 34];
    for seed in 0..1_500 {
        let mut random = Random::new(4_000_000 + seed);
        let (text, cells) = generate::configuration(&mut random);
        let model = Model::read(&text).expect("a good text");
        for _ in 0..12 {
            let mut damaged = generate::damaged_cells(&mut random, &cells);
            let before = damaged.clone();
            let choice = generate::choice(&mut random, &damaged);
            let verdict = step(&text, &mut damaged, choice.kind, choice.number);
            met[usize::from(verdict.number)] += 1;
            let rows = Configuration::decode(&before).filter(|rows| rows.is_of(&model));
            match verdict.number {
                10 => assert_ne!(before.len(), CELLS),
                11 => assert!(rows.is_none()),
                _ => assert!(rows.is_some()),
            }
            if verdict.is_accepted() {
                let rows = Configuration::decode(&damaged).expect("rows");
                assert!(rows.is_of(&model), "{}", String::from_utf8_lossy(&text));
            } else {
                assert_eq!(before, damaged);
            }
        }
    }
    assert!(
        met[0] >= 500 && met[10] >= 100 && met[11] >= 5_000,
        "{met:?}"
    );
    println!("met {met:?}");
}
