//! Random runs over generated models: what must hold of every step.

mod common;

use common::accepted;
use independent::code::Statement;
use independent::configuration::{Call, Configuration, Stage, CELLS};
use independent::generate::{self, Random};
use independent::model::Model;
use independent::{drive, judge, run, start, step, Choice, Drive};

const RUNS: u64 = 2_500;

/// So many choices for a run: mostly some dozens, at times enough to fill the rows.
fn length(random: &mut Random) -> usize {
    match random.below(20) {
        0 => 900,
        1..=4 => 250,
        _ => 80,
    }
}

/// Whether a call's life allows this change of its row in one step.
fn may_become(before: &Call, after: &Call) -> bool {
    let same = (before.caller, before.callee, before.method, before.args)
        == (after.caller, after.callee, after.method, after.args);
    let stages = match (before.stage, after.stage) {
        (from, to) if from == to => true,
        (Stage::Invoked, Stage::Queued) => true,
        (Stage::Queued, Stage::Bound) => true,
        (Stage::Bound, Stage::Running) => true,
        (Stage::Running, Stage::Bound) => after.cleared,
        (Stage::Running, Stage::Answered) => before.caller.is_some(),
        (Stage::Running, Stage::Taken) => before.caller.is_none(),
        (Stage::Answered, Stage::ReplyIn) => true,
        (Stage::ReplyIn, Stage::Taken) => true,
        _ => false,
    };
    same && stages
}

fn check_step(text: &[u8], model: &Model, before: &[i32], after: &[i32]) {
    let rows_before = Configuration::decode(before).expect("rows");
    let rows_after = Configuration::decode(after).expect("rows");
    let show = || String::from_utf8_lossy(text).into_owned();
    assert!(rows_after.is_of(model), "{}", show());
    assert_ne!(
        before,
        after,
        "an accepted step changes something\n{}",
        show()
    );
    assert!(rows_after.objects().len() - rows_before.objects().len() <= 1);
    assert!(rows_after.calls().len() - rows_before.calls().len() <= 1);
    for (object, earlier) in rows_after.objects().iter().zip(rows_before.objects()) {
        assert_eq!(object.class, earlier.class);
    }
    for (call, earlier) in rows_after.calls().iter().zip(rows_before.calls()) {
        assert!(
            may_become(earlier, call),
            "{earlier:?}\n{call:?}\n{}",
            show()
        );
    }
    for call in &rows_after.calls()[rows_before.calls().len()..] {
        let begins_with = match call.caller {
            Some(_) => Stage::Invoked,
            None => Stage::Running,
        };
        assert_eq!(call.stage, begins_with);
    }
    let mut encoded = [-1; CELLS];
    rows_after.encode(&mut encoded);
    assert_eq!(encoded, after);
}

fn kind_of(statement: &Statement) -> usize {
    match statement {
        Statement::Skip => 0,
        Statement::Set { .. } => 1,
        Statement::New { .. } => 2,
        Statement::Call { .. } => 3,
        Statement::Get { .. } => 4,
        Statement::Await(_) => 5,
        Statement::If { .. } => 6,
        Statement::Else { .. } => 7,
        Statement::Fi => 8,
        Statement::While { .. } => 9,
        Statement::Od { .. } => 10,
        Statement::Return(_) => 11,
    }
}

/// The kind of statement that an exec of these cells performs.
fn performed(model: &Model, cells: &[i32], choice: Choice) -> Option<usize> {
    let rows = Configuration::decode(cells)?;
    let object = rows.object(rows.object_number(choice.number)?);
    let call = rows.call(object.running?);
    let method = &model.classes[usize::from(object.class)].methods[usize::from(call.method)];
    Some(kind_of(&method.code[usize::from(call.line)]))
}

/// How often each thing was met.
struct Met {
    answers: [usize; 34],
    performed: [usize; 12],
    stages: [usize; 8],
    /// Runs in which a reply was taken.
    exchanges: usize,
}

#[test]
fn steps_keep_what_they_must() {
    let mut met = Met {
        answers: [0; 34],
        performed: [0; 12],
        stages: [0; 8],
        exchanges: 0,
    };
    for seed in 0..RUNS {
        let mut random = Random::new(seed);
        let text = generate::text(&mut random);
        assert_eq!(
            judge(&text),
            accepted(),
            "{}",
            String::from_utf8_lossy(&text)
        );
        let model = Model::read(&text).expect("a good text");
        let mut cells = vec![-1; CELLS];
        assert_eq!(start(&text, &mut cells), accepted());
        for turn in 0..length(&mut random) {
            if turn % 32 == 31 && drive(&text, &mut cells.clone(), 0).quiet {
                break;
            }
            let choice = generate::choice(&mut random, &cells);
            let before = cells.clone();
            let verdict = step(&text, &mut cells, choice.kind, choice.number);
            assert_eq!(verdict.line, 0);
            met.answers[usize::from(verdict.number)] += 1;
            if verdict.is_accepted() {
                check_step(&text, &model, &before, &cells);
                if choice.kind == common::EXEC {
                    met.performed[performed(&model, &before, choice).expect("a statement")] += 1;
                }
            } else {
                assert_eq!(before, cells, "a refused step changes nothing");
            }
        }
        let rows = Configuration::decode(&cells).expect("rows");
        rows.calls()
            .iter()
            .for_each(|call| met.stages[call.stage as usize] += 1);
        let taken = |call: &Call| call.stage == Stage::Taken && call.caller.is_some();
        met.exchanges += usize::from(rows.calls().iter().any(taken));
    }
    check_reach(&met);
}

/// The generator reaches what it should, so that none of the tests is empty.
fn check_reach(met: &Met) {
    let refusals = [12].into_iter().chain(20..=33);
    for number in refusals.filter(|number| *number != 28) {
        assert!(
            met.answers[number] >= 20,
            "number {number}: {:?}",
            met.answers
        );
    }
    assert_eq!(met.answers[28], 0);
    assert_eq!(met.answers[11], 0);
    assert!(
        met.performed.iter().all(|count| *count >= 200),
        "{:?}",
        met.performed
    );
    assert!(
        met.stages[1..].iter().all(|count| *count >= 100),
        "{:?}",
        met.stages
    );
    assert!(met.exchanges >= RUNS as usize / 8, "{}", met.exchanges);
    let answers: usize = met.answers.iter().sum();
    assert!(met.answers[0] >= answers / 5, "{:?}", met.answers);
    println!("answers {:?}", met.answers);
    println!("performed {:?}", met.performed);
    println!("stages {:?}", met.stages);
    println!("exchanges {} of {RUNS}", met.exchanges);
}

#[test]
fn a_run_is_its_steps() {
    for seed in 0..600 {
        let mut random = Random::new(1_000_000 + seed);
        let (text, cells) = generate::configuration(&mut random);
        let mut stepped = cells.clone();
        let mut choices = Vec::new();
        let mut expected = Vec::new();
        for _ in 0..random.below(60) {
            let choice = generate::choice(&mut random, &stepped);
            let verdict = step(&text, &mut stepped, choice.kind, choice.number);
            choices.push(choice);
            expected.push(i32::from(verdict.number));
        }
        let mut ran = cells;
        let mut answers = vec![-1; choices.len()];
        assert_eq!(run(&text, &mut ran, &choices, &mut answers), accepted());
        assert_eq!((ran, answers), (stepped, expected));
    }
}

/// The first accepted choice in the drive's order, by the entry step.
fn first_accepted(text: &[u8], cells: &mut [i32]) -> bool {
    for kind in 1..=5 {
        let last = if kind == common::EXEC {
            cells[0]
        } else {
            cells[1]
        };
        for number in 1..=last {
            if step(text, cells, kind, number).is_accepted() {
                return true;
            }
        }
    }
    false
}

#[test]
fn a_drive_is_its_first_accepted_choices() {
    let mut quiet = 0;
    for seed in 0..500 {
        let mut random = Random::new(2_000_000 + seed);
        let (text, cells) = generate::configuration(&mut random);
        let budget = *random.pick(&[0, 1, 7, 30]);
        let mut stepped = cells.clone();
        let mut steps = 0;
        while steps < budget && first_accepted(&text, &mut stepped) {
            steps += 1;
        }
        let expected = Drive {
            verdict: accepted(),
            steps,
            quiet: !first_accepted(&text, &mut stepped.clone()),
        };
        let mut driven = cells;
        assert_eq!(drive(&text, &mut driven, budget), expected);
        assert_eq!(driven, stepped);
        quiet += usize::from(expected.quiet);
    }
    assert!((50..450).contains(&quiet), "{quiet}");
}

#[test]
fn long_drives_end_in_configurations() {
    let mut full = (0, 0);
    for seed in 0..300 {
        let mut random = Random::new(3_000_000 + seed);
        let text = generate::text(&mut random);
        let model = Model::read(&text).expect("a good text");
        let mut cells = vec![-1; CELLS];
        start(&text, &mut cells);
        let driven = drive(&text, &mut cells, 2_000);
        assert_eq!(driven.verdict, accepted());
        assert!(driven.steps == 2_000 || driven.quiet);
        let rows = Configuration::decode(&cells).expect("rows");
        assert!(rows.is_of(&model));
        full.0 += usize::from(cells[0] == 32);
        full.1 += usize::from(cells[1] == 128);
    }
    assert!(full.0 > 0 && full.1 > 0, "{full:?}");
}
