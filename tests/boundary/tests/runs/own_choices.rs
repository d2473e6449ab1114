//! The library's drive beside its run of the choices that a drive takes, which are found
//! by its own steps, tried in order.

use boundary::choices::in_use;
use boundary::creol::{self, Choice, ARRIVE, BIND, DELIVER, EXEC, START};
use boundary::lists::{list, started};
use boundary::models;
use boundary::session::MODEL;
use independent::generate::Random;
use independent::Verdict;

/// Exec 1, 2 and so on, arrive 1, 2 and so on, bind, start, deliver.
fn in_order(cells: &[i32]) -> Vec<Choice> {
    [EXEC, ARRIVE, BIND, START, DELIVER]
        .into_iter()
        .flat_map(|kind| (1..=in_use(kind, cells)).map(move |number| Choice { kind, number }))
        .collect()
}

/// The first choice in order that a step accepts, which is taken.
fn take_first(text: &[u8], cells: &mut [i32]) -> Option<Choice> {
    let mut choices = in_order(cells).into_iter();
    choices.find(|choice| creol::step(text, cells, choice.kind, choice.number).is_accepted())
}

/// Compares a drive with its choices, and gives these, and whether it is quiet.
fn compare(text: &[u8], cells: &[i32], budget: u32) -> (Vec<Choice>, bool) {
    let mut stepped = cells.to_vec();
    let mut taken = Vec::new();
    while taken.len() < budget as usize {
        let Some(choice) = take_first(text, &mut stepped) else {
            break;
        };
        taken.push(choice);
    }
    let quiet = take_first(text, &mut stepped.clone()).is_none();

    let mut driven = cells.to_vec();
    let drive = creol::drive(text, &mut driven, budget);
    assert_eq!(drive.verdict, Verdict::ACCEPTED);
    assert_eq!((drive.steps as usize, drive.quiet), (taken.len(), quiet));

    let mut run = cells.to_vec();
    let mut answers = vec![-1; taken.len()];
    let verdict = creol::run(text, &mut run, &taken, &mut answers);
    assert_eq!(verdict, Verdict::ACCEPTED);
    assert!(answers.iter().all(|answer| *answer == 0), "{answers:?}");
    assert!(driven == run && driven == stepped);
    (taken, quiet)
}

#[test]
fn of_short_models() {
    let mut random = Random::new(55);
    let (mut kinds, mut quiet) = ([0; 6], 0);
    for _ in 0..1_200 {
        let text = models::short(&mut random);
        let mut cells = started(&text);
        let length = random.below(40);
        let walk = list(&mut random, &text, &cells, length, 0);
        independent::run(&text, &mut cells, &walk, &mut vec![0; length]);
        let budget = random.below(100) as u32;
        let (taken, is_quiet) = compare(&text, &cells, budget);
        taken
            .iter()
            .for_each(|choice| kinds[choice.kind as usize] += 1);
        quiet += usize::from(is_quiet);
    }
    println!("{kinds:?} choices by kind, {quiet} quiet");
    assert!(kinds[1..].iter().all(|kind| *kind >= 100), "{kinds:?}");
    assert!((200..1_000).contains(&quiet), "{quiet} quiet");
}

/// The 13 choices of the session that are accepted, in the drive's order.
#[test]
fn of_the_session() {
    let text = MODEL.as_bytes();
    for budget in 0..=14 {
        let (taken, quiet) = compare(text, &started(text), budget);
        assert_eq!(
            (taken.len(), quiet),
            (budget.min(13) as usize, budget >= 13)
        );
    }
    let (taken, _) = compare(text, &started(text), 13);
    let choice = |(kind, number)| Choice { kind, number };
    let expected = [
        (EXEC, 1),
        (EXEC, 1),
        (EXEC, 1),
        (ARRIVE, 2),
        (BIND, 2),
        (START, 2),
        (EXEC, 2),
        (EXEC, 2),
        (DELIVER, 2),
        (START, 1),
        (EXEC, 1),
        (EXEC, 1),
        (EXEC, 1),
    ];
    assert_eq!(taken, expected.map(choice));
}
