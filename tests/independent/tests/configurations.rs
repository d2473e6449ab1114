//! The conditions of a configuration: examples, and a second reading, sentence by
//! sentence over the bare cells, held against the engine's typed rows.

mod common;

use common::{alone, call_cell, started, SESSION};
use independent::code::Statement;
use independent::configuration::CELLS;
use independent::generate::{self, Random};
use independent::model::{Method, Model};
use independent::step;

#[test]
fn what_is_and_is_not_a_configuration() {
    let text = SESSION.as_bytes();
    let step_on = |cells: &[i32]| {
        let mut cells = cells.to_vec();
        step(text, &mut cells, 0, 0).number
    };
    let start = started(SESSION);
    assert_eq!(step_on(&start), 12);
    let with = |changes: &[(usize, i32)]| {
        let mut cells = start.clone();
        changes
            .iter()
            .for_each(|(place, value)| cells[*place] = *value);
        step_on(&cells)
    };
    let call = call_cell;
    // Unused cells are 0.
    assert_eq!(with(&[(12, 1)]), 11);
    assert_eq!(with(&[(CELLS - 1, 1)]), 11);
    assert_eq!(with(&[(2 + 2 + 2, 1)]), 11);
    // Object 1 may be of another class, and call 1 may have a caller.
    assert_eq!(
        with(&[
            (0, 2),
            (2, 1),
            (3, 0),
            (12, 0),
            (13, 0),
            (call(1, 0), 3),
            (call(1, 2), 2),
            (call(1, 3), 0)
        ]),
        12
    );
    assert_eq!(with(&[(call(1, 1), 1)]), 12);
    // Several calls without a caller in one object.
    assert_eq!(
        with(&[(1, 2), (call(2, 0), 7), (call(2, 2), 1), (call(2, 5), 4)]),
        12
    );
    // Caller-less only in stages 3, 4 and 7.
    for stage in [5, 6] {
        let row = [
            (1, 2),
            (call(2, 0), stage),
            (call(2, 2), 1),
            (call(2, 5), 4),
        ];
        assert_eq!(with(&row), 11);
        assert_eq!(with(&[row.as_slice(), &[(call(2, 1), 1)]].concat()), 12);
    }
    for stage in [1, 2] {
        let row = [(1, 2), (call(2, 0), stage), (call(2, 2), 1)];
        assert_eq!(with(&row), 11);
        let called = [row.as_slice(), &[(call(2, 1), 1)]].concat();
        assert_eq!(with(&called), 12);
        // The method need not exist, and arguments may be too many for it.
        let other = [
            called.as_slice(),
            &[(call(2, 3), 7), (call(2, 4), 4), (call(2, 11), 9)],
        ];
        assert_eq!(with(&other.concat()), 12);
        for fault in [
            (call(2, 3), 8),
            (call(2, 4), 5),
            (call(2, 5), 1),
            (call(2, 6), 1),
            (call(2, 7), 1),
            (call(2, 8), 1),
            (call(2, 2), 2),
            (call(2, 1), 2),
        ] {
            assert_eq!(
                with(&[called.as_slice(), &[fault]].concat()),
                11,
                "{fault:?}"
            );
        }
    }
    // In 5 to 7 the line is a return and the value any number; before, it is 0.
    let taken = [
        (1, 2),
        (call(2, 0), 7),
        (call(2, 2), 1),
        (call(2, 5), 4),
        (call(2, 7), i32::MIN),
    ];
    assert_eq!(with(&taken), 12);
    assert_eq!(with(&[taken.as_slice(), &[(call(2, 5), 3)]].concat()), 11);
    assert_eq!(with(&[taken.as_slice(), &[(call(2, 6), 1)]].concat()), 11);
    assert_eq!(with(&[(call(1, 7), 1)]), 11);
    // Running labels and stage 4 name each other.
    assert_eq!(with(&[(3, 0)]), 11);
    assert_eq!(with(&[(3, 0), (call(1, 0), 3)]), 12);
    assert_eq!(with(&[(call(1, 0), 3)]), 11);
    // Cleared stands at an await only; in stage 3 without it the line is 0.
    assert_eq!(with(&[(call(1, 6), 1)]), 11);
    assert_eq!(with(&[(call(1, 5), 2), (call(1, 6), 1)]), 12);
    assert_eq!(with(&[(call(1, 5), 2), (call(1, 6), 2)]), 11);
    assert_eq!(with(&[(3, 0), (call(1, 0), 3), (call(1, 5), 2)]), 11);
    assert_eq!(
        with(&[(3, 0), (call(1, 0), 3), (call(1, 5), 2), (call(1, 6), 1)]),
        12
    );
    assert_eq!(with(&[(call(1, 5), 5)]), 11);
    assert_eq!(with(&[(call(1, 4), 1)]), 11);
    assert_eq!(with(&[(call(1, 9), 1)]), 11);
    for (place, value) in [
        (0, 0),
        (0, 33),
        (1, 0),
        (1, 129),
        (2, 2),
        (2, -1),
        (3, 2),
        (3, -1),
        (0, i32::MIN),
        (1, i32::MAX),
        (call(1, 0), 0),
        (call(1, 0), 8),
    ] {
        assert_eq!(with(&[(place, value)]), 11, "{place} {value}");
    }
}

struct Bare<'c> {
    cells: &'c [i32],
    model: &'c Model,
}

impl Bare<'_> {
    fn objects(&self) -> i32 {
        self.cells[0]
    }

    fn calls(&self) -> i32 {
        self.cells[1]
    }

    fn object(&self, object: i32, field: usize) -> i32 {
        self.cells[2 + 10 * (object as usize - 1) + field]
    }

    fn call(&self, label: i32, field: usize) -> i32 {
        self.cells[call_cell(label as usize, field)]
    }

    fn method(&self, label: i32) -> Option<&Method> {
        let class = &self.model.classes[self.object(self.call(label, 2), 0) as usize];
        class.methods.get(self.call(label, 3) as usize)
    }

    fn has_run(&self, label: i32) -> bool {
        self.model.classes[self.object(self.call(label, 2), 0) as usize].run
    }

    fn is_configuration(&self) -> bool {
        self.cells.len() == CELLS
            && (1..=32).contains(&self.objects())
            && (1..=128).contains(&self.calls())
            && self.unused_are_zero()
            && (1..=self.objects()).all(|object| self.object_has_class(object))
            && (1..=self.calls()).all(|label| self.call_has_numbers(label))
            && (1..=self.objects()).all(|object| self.object_is_good(object))
            && (1..=self.calls()).all(|label| self.call_is_good(label))
    }

    fn unused_are_zero(&self) -> bool {
        let objects_end = 2 + 10 * self.objects() as usize;
        let calls_end = 322 + 16 * self.calls() as usize;
        let unused = self.cells[objects_end..322]
            .iter()
            .chain(&self.cells[calls_end..]);
        unused.into_iter().all(|cell| *cell == 0)
    }

    fn object_has_class(&self, object: i32) -> bool {
        (0..self.model.classes.len() as i32).contains(&self.object(object, 0))
    }

    fn call_has_numbers(&self, label: i32) -> bool {
        (1..=7).contains(&self.call(label, 0))
            && (0..=self.objects()).contains(&self.call(label, 1))
            && (1..=self.objects()).contains(&self.call(label, 2))
            && (0..=7).contains(&self.call(label, 3))
    }

    fn object_is_good(&self, object: i32) -> bool {
        let attrs = self.model.classes[self.object(object, 0) as usize].attrs;
        let running = self.object(object, 1);
        let runs_well = running == 0
            || ((1..=self.calls()).contains(&running)
                && self.call(running, 0) == 4
                && self.call(running, 2) == object);
        runs_well && (attrs..8).all(|index| self.object(object, 2 + usize::from(index)) == 0)
    }

    fn call_is_good(&self, label: i32) -> bool {
        let [stage, caller, callee, method, args, line, cleared, value] =
            [0, 1, 2, 3, 4, 5, 6, 7].map(|field| self.call(label, field));
        let zero_from =
            |first: i32| (first..8).all(|index| self.call(label, 8 + index as usize) == 0);
        let mut good = true;
        if stage == 4 {
            good &= self.object(callee, 1) == label;
        }
        let mut statement = None;
        if stage <= 2 {
            good &= (0..=4).contains(&args) && zero_from(args) && line == 0;
        } else {
            let Some(found) = self.method(label) else {
                return false;
            };
            good &= args == i32::from(found.params);
            good &= (0..found.code.len() as i32).contains(&line);
            good &= zero_from(i32::from(found.locals));
            statement = found.code.get(line as usize);
        }
        let at_await = matches!(statement, Some(Statement::Await(_)));
        let at_return = matches!(statement, Some(Statement::Return(_)));
        good &= cleared == 0 || cleared == 1;
        good &= cleared != 1 || ((stage == 3 || stage == 4) && at_await);
        good &= stage != 3 || cleared != 0 || line == 0;
        good &= stage >= 5 || value == 0;
        good &= stage < 5 || at_return;
        good &= caller != 0 || ([3, 4, 7].contains(&stage) && method == 0 && self.has_run(label));
        good
    }
}

#[test]
fn any_return_line_will_do() {
    let text = alone(&[
        "return 1", "skip", "if 1", "return 2", "else", "fi", "return 3",
    ]);
    for line in 0..7 {
        let mut cells = started(&text);
        cells[3] = 0;
        cells[call_cell(1, 0)] = 7;
        cells[call_cell(1, 5)] = line;
        let expected = if [0, 3, 6].contains(&line) { 12 } else { 11 };
        assert_eq!(step(text.as_bytes(), &mut cells, 0, 0).number, expected);
    }
}

#[test]
fn the_conditions_read_twice() {
    let (mut good, mut bad) = (0, 0);
    for seed in 0..2_000 {
        let mut random = Random::new(9_000_000 + seed);
        let (text, reached) = generate::configuration(&mut random);
        let model = Model::read(&text).expect("a good text");
        let mut cells = reached.clone();
        for _ in 0..20 {
            let damaged = generate::damaged_cells(&mut random, &cells);
            if damaged.len() != CELLS {
                continue;
            }
            let bare = Bare {
                cells: &damaged,
                model: &model,
            };
            let is_good = bare.is_configuration();
            let number = step(&text, &mut damaged.clone(), 0, 0).number;
            assert_eq!(
                number,
                if is_good { 12 } else { 11 },
                "{}",
                String::from_utf8_lossy(&text)
            );
            if is_good {
                // Further damage starts from here, away from what runs reach.
                cells = damaged;
                good += 1;
            } else {
                bad += 1;
            }
        }
    }
    assert!(good > 2_000 && bad > 10_000, "{good} {bad}");
}

#[test]
fn a_configuration_is_one_of_its_own_model() {
    let mut shared = 0;
    for seed in 0..1_500 {
        let mut random = Random::new(9_500_000 + seed);
        let (_, cells) = generate::configuration(&mut random);
        let text = generate::text(&mut random);
        let model = Model::read(&text).expect("a good text");
        let is_good = Bare {
            cells: &cells,
            model: &model,
        }
        .is_configuration();
        let number = step(&text, &mut cells.clone(), 0, 0).number;
        assert_eq!(number, if is_good { 12 } else { 11 });
        shared += usize::from(is_good);
    }
    assert!(shared > 10, "{shared}");
}
