//! Open points of the rules, each as it is read.

mod common;

use common::*;
use independent::{drive, step};

#[test]
fn guards_work_out_every_atom() {
    for guard in [
        "[1]|[2147483647+1]",
        "[0]&[2147483647+1]",
        "v0?&[46341*46341]",
    ] {
        let text = alone(&[&format!("await {guard}"), "return 0"]);
        let mut cells = started(&text);
        let before = cells.clone();
        assert_eq!(step(text.as_bytes(), &mut cells, EXEC, 1), refused(29, 0));
        assert_eq!(cells, before);
        // The same in start.
        cells[3] = 0;
        cells[call_cell(1, 0)] = 3;
        assert_eq!(step(text.as_bytes(), &mut cells, START, 1), refused(29, 0));
    }
    // Neither `wait` nor `X?` refuses, whatever the variable holds.
    for value in ["0-2147483647-1", "2147483647", "0", "1", "129"] {
        let text = alone(&[&format!("set a0 {value}"), "await a0?|wait", "return 0"]);
        let (answers, cells) = session(&text, &[choice(EXEC, 1), choice(EXEC, 1)]);
        assert_eq!((answers, stage(&cells, 1)), (vec![0, 0], 3));
    }
}

#[test]
fn wait_is_true_from_the_second_meeting_on() {
    let text = alone(&["await wait", "await wait", "return 0"]);
    let choices = [EXEC, START, EXEC, EXEC, START, EXEC, EXEC].map(|kind| choice(kind, 1));
    let (answers, cells) = session(&text, &choices);
    assert_eq!(answers, [0; 7]);
    assert_eq!(stage(&cells, 1), 7);
    // start leaves cleared as it is; crossing sets it to 0.
    let (_, cells) = session(&text, &choices[..2]);
    assert_eq!((stage(&cells, 1), cells[call_cell(1, 6)]), (4, 1));
    let (_, cells) = session(&text, &choices[..3]);
    assert_eq!((cells[call_cell(1, 5)], cells[call_cell(1, 6)]), (1, 0));
}

#[test]
fn a_false_guard_met_again_suspends_again() {
    let text = alone(&["await [0]", "return 0"]);
    let mut cells = started(&text);
    cells[call_cell(1, 6)] = 1;
    assert_eq!(step(text.as_bytes(), &mut cells, EXEC, 1), accepted());
    assert_eq!(
        (stage(&cells, 1), cells[call_cell(1, 6)], cells[3]),
        (3, 1, 0)
    );
}

#[test]
fn a_call_that_begins_with_wait_alone_is_never_started() {
    let text = text_of(&[Class {
        attrs: 1,
        given: 0,
        run: 1,
        methods: &[
            (0, 0, &["call a0 self 1", "return 0"]),
            (0, 0, &["await wait", "return 0"]),
        ],
    }]);
    let choices = [
        choice(EXEC, 1),
        choice(EXEC, 1),
        choice(ARRIVE, 2),
        choice(BIND, 2),
        choice(START, 2),
    ];
    assert_eq!(session(&text, &choices).0, [0, 0, 0, 0, 25]);
}

#[test]
fn old_values_are_used_before_anything_is_stored() {
    let text = text_of(&[
        Class {
            attrs: 1,
            given: 0,
            run: 1,
            methods: &[(
                0,
                1,
                &[
                    "set a0 5",
                    "new a0 1 a0",
                    "set v0 a0",
                    "call a0 a0 0 a0",
                    "await a0?",
                    "get a0 a0",
                    "return a0",
                ],
            )],
        },
        Class {
            attrs: 1,
            given: 1,
            run: 0,
            methods: &[(1, 1, &["return a0*10+v0"])],
        },
    ]);
    let mut cells = started(&text);
    let driven = drive(text.as_bytes(), &mut cells, 10_000);
    assert!(driven.quiet);
    // Attribute 5 at creation, argument 2 (the object's number) at the call.
    assert_eq!(attribute(&cells, 2, 0), 5);
    assert_eq!(cells[call_cell(2, 8)], 2);
    assert_eq!(attribute(&cells, 1, 0), 52);
    // The taken row keeps its value; the return without a caller stores its own.
    assert_eq!((stage(&cells, 2), cells[call_cell(2, 7)]), (7, 52));
    assert_eq!((stage(&cells, 1), cells[call_cell(1, 7)]), (7, 52));
}

#[test]
fn replies_belong_to_the_caller() {
    // Object 2 is handed the label of a call that object 1 made.
    let text = text_of(&[
        Class {
            attrs: 3,
            given: 0,
            run: 1,
            methods: &[
                (
                    0,
                    0,
                    &[
                        "call a0 self 1",
                        "new a1 1 a0",
                        "call a2 a1 0",
                        "await [0]",
                        "return 0",
                    ],
                ),
                (0, 0, &["return 9"]),
            ],
        },
        Class {
            attrs: 1,
            given: 1,
            run: 0,
            methods: &[(0, 0, &["get a0 a0", "return 0"])],
        },
    ]);
    let choices = [
        choice(EXEC, 1),
        choice(EXEC, 1),
        choice(EXEC, 1),
        choice(EXEC, 1),
        choice(ARRIVE, 2),
        choice(BIND, 2),
        choice(START, 2),
        choice(EXEC, 1),
        choice(DELIVER, 2),
        choice(ARRIVE, 3),
        choice(BIND, 3),
        choice(START, 3),
        choice(EXEC, 2),
    ];
    let (answers, cells) = session(&text, &choices);
    assert_eq!(answers, [0, 0, 0, 0, 0, 0, 0, 0, 0, 0, 0, 0, 33]);
    assert_eq!((stage(&cells, 2), cells[call_cell(2, 7)]), (6, 9));
}

#[test]
fn the_order_of_tests() {
    // call: 29 of the callee and of any argument comes before 30.
    assert_eq!(first_exec("call a0 2147483647+1 0").0, 29);
    assert_eq!(first_exec("call a0 0 0 1,2147483647+1").0, 29);
    assert_eq!(first_exec("call a0 0 0").0, 30);
    assert_eq!(first_exec("call a0 2 0").0, 30);
    assert_eq!(first_exec("call a0 0-1 0").0, 30);
    // start: 23, then 24 before 29 and 25.
    let text = text_of(&[Class {
        attrs: 1,
        given: 0,
        run: 1,
        methods: &[
            (0, 0, &["call a0 self 1", "await [0]", "return 0"]),
            (0, 0, &["await [2147483647+1]&[0]", "return 0"]),
        ],
    }]);
    let choices = [
        choice(EXEC, 1),
        choice(START, 2),
        choice(ARRIVE, 2),
        choice(BIND, 2),
        choice(START, 2),
        choice(EXEC, 1),
        choice(START, 2),
        choice(START, 1),
    ];
    assert_eq!(session(&text, &choices).0, [0, 23, 0, 0, 24, 0, 29, 25]);
}

#[test]
fn full_rows() {
    // 31 comes before 32, 30 before 32, and 32 of `new` is for run 1 only.
    let text = text_of(&[
        Class {
            attrs: 2,
            given: 0,
            run: 1,
            methods: &[
                (
                    0,
                    0,
                    &[
                        "while a1<127",
                        "call a0 self 1",
                        "set a1 a1+1",
                        "od",
                        "new a0 2",
                        "new a0 0",
                        "return 0",
                    ],
                ),
                (0, 0, &["return 0"]),
            ],
        },
        Class {
            attrs: 0,
            given: 0,
            run: 1,
            methods: &[(0, 0, &["return 0"])],
        },
        Class {
            attrs: 0,
            given: 0,
            run: 0,
            methods: &[],
        },
    ]);
    let mut cells = started(&text);
    let mut steps = 0;
    while step(text.as_bytes(), &mut cells, EXEC, 1).is_accepted() {
        steps += 1;
    }
    assert_eq!((steps, cells[0], cells[1]), (127 * 4 + 2, 2, 128));
    assert_eq!(step(text.as_bytes(), &mut cells, EXEC, 1), refused(32, 0));
    let full = text.replace("new a0 2", "call a0 0 0");
    let mut cells_at_call = cells.clone();
    cells_at_call[call_cell(1, 5)] = 4;
    assert_eq!(
        step(full.as_bytes(), &mut cells_at_call, EXEC, 1),
        refused(30, 0)
    );
    let full = text.replace("new a0 2", "call a0 1 0");
    assert_eq!(
        step(full.as_bytes(), &mut cells_at_call, EXEC, 1),
        refused(32, 0)
    );
    // With the object rows full too, it is 31.
    cells[0] = 32;
    (2..=32).for_each(|object| cells[2 + 10 * (object - 1)] = 2);
    assert_eq!(step(text.as_bytes(), &mut cells, EXEC, 1), refused(31, 0));
}

#[test]
fn an_unfitting_call_stays_in_stage_2() {
    for call in ["call a0 self 1", "call a0 self 0 1"] {
        let text = alone(&[call, "return 0"]);
        let choices = [
            choice(EXEC, 1),
            choice(ARRIVE, 2),
            choice(BIND, 2),
            choice(BIND, 2),
        ];
        let (answers, cells) = session(&text, &choices);
        assert_eq!((answers, stage(&cells, 2)), (vec![0, 0, 22, 22], 2));
    }
}

#[test]
fn labels_and_object_numbers_are_plain_numbers() {
    // Label 2 used as an object: 30 while there is no object 2, then object 2.
    let text = |second: &str| {
        text_of(&[
            Class {
                attrs: 3,
                given: 0,
                run: 1,
                methods: &[(
                    0,
                    0,
                    &["call a0 self 0", second, "call a1 a0 0", "return 0"],
                )],
            },
            Class {
                attrs: 0,
                given: 0,
                run: 0,
                methods: &[],
            },
        ])
    };
    let choices = [choice(EXEC, 1), choice(EXEC, 1), choice(EXEC, 1)];
    assert_eq!(session(&text("skip"), &choices).0, [0, 0, 30]);
    let (answers, cells) = session(&text("new a2 1"), &choices);
    assert_eq!((answers, cells[call_cell(3, 2)]), (vec![0, 0, 0], 2));

    // Object number 2 used as a label: 33 until reply 2 is in, then that reply.
    let text = text_of(&[
        Class {
            attrs: 3,
            given: 0,
            run: 1,
            methods: &[(0, 0, &["new a0 1", "call a1 a0 0", "get a0 a2", "return 0"])],
        },
        Class {
            attrs: 0,
            given: 0,
            run: 0,
            methods: &[(0, 0, &["return 9"])],
        },
    ]);
    let choices = [
        choice(EXEC, 1),
        choice(EXEC, 1),
        choice(EXEC, 1),
        choice(ARRIVE, 2),
        choice(BIND, 2),
        choice(START, 2),
        choice(EXEC, 2),
        choice(EXEC, 1),
        choice(DELIVER, 2),
        choice(EXEC, 1),
    ];
    let (answers, cells) = session(&text, &choices);
    assert_eq!(answers, [0, 0, 33, 0, 0, 0, 0, 33, 0, 0]);
    assert_eq!(attribute(&cells, 1, 2), 9);
}
