//! Open points of the entries and of the runner, each as it is read.

mod common;

use common::*;
use independent::configuration::CELLS;
use independent::{drive, run, runner, start, step, Drive};

#[test]
fn lengths_of_cells() {
    for length in [0, 1, CELLS - 1, CELLS + 1] {
        let mut cells = vec![5; length];
        assert_eq!(start(SESSION.as_bytes(), &mut cells), refused(10, 0));
        assert_eq!(
            step(SESSION.as_bytes(), &mut cells, EXEC, 1),
            refused(10, 0)
        );
        assert!(cells.iter().all(|cell| *cell == 5));
    }
}

#[test]
fn objects_and_labels_not_in_use() {
    let numbers = [i32::MIN, -1, 0, 2, 33, 129, 257, 65_537, i32::MAX];
    for kind in [EXEC, ARRIVE, BIND, START, DELIVER] {
        for number in numbers {
            let mut cells = started(SESSION);
            assert_eq!(
                step(SESSION.as_bytes(), &mut cells, kind, number),
                refused(12, 0)
            );
        }
    }
    for kind in [i32::MIN, -1, 0, 6, 257, i32::MAX] {
        let mut cells = started(SESSION);
        assert_eq!(
            step(SESSION.as_bytes(), &mut cells, kind, 1),
            refused(12, 0)
        );
    }
}

#[test]
fn entries_test_in_order() {
    let bad_text = b"creol=2\n";
    let mut none = [0; 0];
    assert_eq!(start(bad_text, &mut none), refused(4, 1));
    assert_eq!(step(bad_text, &mut none, 9, 9), refused(4, 1));
    assert_eq!(run(bad_text, &mut none, &[], &mut [0]), refused(4, 1));
    let refused_drive = |number, line| Drive {
        verdict: refused(number, line),
        steps: 0,
        quiet: false,
    };
    assert_eq!(drive(bad_text, &mut none, 10_001), refused_drive(4, 1));
    let text = SESSION.as_bytes();
    assert_eq!(run(text, &mut none, &[], &mut [0]), refused(10, 0));
    assert_eq!(drive(text, &mut none, 10_001), refused_drive(10, 0));
    let mut zeros = vec![0; CELLS];
    assert_eq!(step(text, &mut zeros, 9, 9), refused(11, 0));
    assert_eq!(run(text, &mut zeros, &[], &mut [0]), refused(11, 0));
    assert_eq!(drive(text, &mut zeros, 10_001), refused_drive(11, 0));
    let mut cells = started(SESSION);
    assert_eq!(run(text, &mut cells, &[], &mut [0]), refused(13, 0));
    assert_eq!(drive(text, &mut cells, 10_001), refused_drive(14, 0));
    assert_eq!(drive(text, &mut cells, u32::MAX), refused_drive(14, 0));
    assert_eq!(cells, started(SESSION));
    assert_eq!(run(text, &mut cells, &[], &mut []), accepted());
}

#[test]
fn quiet_is_worked_out_at_the_budget_too() {
    let text = alone(&["set a0 2147483647+1", "return 0"]);
    let mut cells = started(&text);
    let expected = Drive {
        verdict: accepted(),
        steps: 0,
        quiet: true,
    };
    assert_eq!(drive(text.as_bytes(), &mut cells, 0), expected);
    let text = alone(&["while 1", "od", "return 0"]);
    let mut cells = started(&text);
    let expected = Drive {
        verdict: accepted(),
        steps: 10_000,
        quiet: false,
    };
    assert_eq!(drive(text.as_bytes(), &mut cells, 10_000), expected);
}

#[test]
fn choices_of_the_runner() {
    let answers = |input: &[u8]| -> Vec<String> {
        let written = String::from_utf8(runner(SESSION.as_bytes(), input)).unwrap();
        let answers = written
            .lines()
            .filter_map(|line| line.strip_prefix("answer="));
        answers.map(str::to_string).collect()
    };
    assert_eq!(answers(b""), [""; 0]);
    assert_eq!(answers(b"\n"), ["12"]);
    assert_eq!(answers(b"\n\n"), ["12", "12"]);
    assert_eq!(answers(b"exec=01"), ["0"]);
    assert_eq!(answers(b"exec=000000001"), ["0"]);
    assert_eq!(answers(b"exec=0000000001"), ["12"]);
    assert_eq!(answers(b"exec=999999999"), ["12"]);
    for line in [
        "exec=1\r",
        "exec=1 ",
        " exec=1",
        "exec= 1",
        "exec=",
        "exec",
        "Exec=1",
        "exec=+1",
        "exec=-1",
        "exec==1",
        "exe=1",
        "arrive=1x",
        "=1",
        "1",
    ] {
        assert_eq!(answers(line.as_bytes()), ["12"], "{line:?}");
    }
    assert_eq!(
        answers(b"arrive=1\nbind=1\nstart=1\ndeliver=1\nexec=1"),
        ["20", "21", "23", "26", "0"]
    );
    // The cut may fall inside a line, and past it nothing is read.
    assert_eq!(answers(&[b'\n'; 5_000]).len(), 4_096);
    let mut input = vec![b'\n'; 4_090];
    input.extend_from_slice(b"exec=1234\nexec=1\n");
    let cut = answers(&input);
    assert_eq!((cut.len(), cut[4_090].as_str()), (4_091, "0"));
}
