//! Inputs: none, without a last LF, cut at 4,096 bytes, in pieces, and of every form.

use boundary::session::{INPUT, MODEL, WRITTEN};
use boundary::texts::alone;

use super::program::{answers, assert_written, compared, written, written_from_pieces};

/// A model in which exec 1 is accepted again and again.
fn busy() -> Vec<u8> {
    alone(&["while 1", "od", "return 0"]).into_bytes()
}

/// The answers to this input with that model.
fn answers_to(input: &[u8]) -> Vec<i32> {
    answers(&compared(Some(&busy()), input))
}

#[test]
fn none() {
    let started = b"accepted=0\nrefused=0\nobjects=1\ncalls=1\n";
    assert_eq!(written(Some(MODEL.as_bytes()), b""), started);
}

#[test]
fn without_a_last_lf() {
    let input = INPUT.strip_suffix('\n').expect("an LF");
    let found = written(Some(MODEL.as_bytes()), input.as_bytes());
    assert_eq!(found, WRITTEN.as_bytes());
    for (input, expected) in [
        (b"exec=1".as_slice(), [0].as_slice()),
        (b"exec=1\n", &[0]),
        (b"exec=1\n\n", &[0, 12]),
        (b"\n", &[12]),
        (b"\nexec=1", &[12, 0]),
        (b"x", &[12]),
    ] {
        assert_eq!(answers_to(input), expected, "{}", input.escape_ascii());
    }
}

/// 4,096 bytes of whole lines: 585 of 7 bytes, and an empty one.
fn whole_lines() -> Vec<u8> {
    [b"exec=1\n".repeat(585).as_slice(), b"\n"].concat()
}

/// 4,096 bytes that end in a choice without its LF.
fn open_line() -> Vec<u8> {
    [b"\n\n", b"exec=1\n".repeat(584).as_slice(), b"exec=1"].concat()
}

#[test]
fn of_4096_bytes() {
    assert_eq!((whole_lines().len(), open_line().len()), (4_096, 4_096));
    let found = answers_to(&whole_lines());
    assert_eq!((found.len(), found[584], found[585]), (586, 0, 12));
    let found = answers_to(&open_line());
    assert_eq!((found.len(), found[1], found[586]), (587, 12, 0));
    assert_eq!(answers_to(&[b'\n'; 4_096]), [12; 4_096]);
}

/// The last byte of 4,097 is not read, whether it begins a line, ends one or goes on.
#[test]
fn of_4097_bytes() {
    for last in [b"1", b"\n", b"x", b"\r", b"\0"] {
        for first in [whole_lines(), open_line(), vec![b'\n'; 4_096]] {
            let input = [first.as_slice(), last].concat();
            assert_eq!(input.len(), 4_097);
            assert_eq!(answers_to(&input), answers_to(&first));
        }
    }
}

/// The session with so many empty lines before it that its choices are cut anywhere.
#[test]
fn a_choice_cut_at_4096() {
    let mut ends = Vec::new();
    for before in 4_096 - INPUT.len()..=4_096 {
        let input = "\n".repeat(before) + INPUT;
        let found = answers(&compared(Some(MODEL.as_bytes()), input.as_bytes()));
        ends.push(found.len());
    }
    assert_eq!(ends.len(), INPUT.len() + 1);
    assert_eq!(ends.first(), Some(&(4_096 - INPUT.len() + 16)));
    assert_eq!(ends.last(), Some(&4_096));
    // `exec=1234` up to its first digit.
    let input = [&[b'\n'; 4_090], b"exec=1234\nexec=1\n".as_slice()].concat();
    let found = answers_to(&input);
    assert_eq!((found.len(), found[4_090]), (4_091, 0));
}

#[test]
fn far_too_long() {
    for bytes in [4_098, 8_192, 65_536 + 7, 500_000] {
        let input = b"exec=1\n".repeat(bytes / 7 + 1);
        assert_eq!(answers_to(&input[..bytes]).len(), 586);
    }
}

#[test]
fn in_pieces() {
    let session = Some(MODEL.as_bytes());
    let input = INPUT.as_bytes();
    for size in [1, 5, input.len()] {
        let pieces: Vec<&[u8]> = input.chunks(size).collect();
        assert_eq!(written_from_pieces(session, &pieces), WRITTEN.as_bytes());
    }
    assert_eq!(written_from_pieces(session, &[]), written(session, b""));
    let busy = busy();
    let long = b"exec=1\n".repeat(20_000);
    for size in [1_000, 4_095, 4_096, 4_097, 30_000] {
        let pieces: Vec<&[u8]> = long.chunks(size).take(8).collect();
        let found = written_from_pieces(Some(&busy), &pieces);
        assert_written(Some(&busy), &pieces.concat(), &found);
    }
}

/// Each line by itself, and all of them together.
#[test]
fn of_every_form() {
    const ACCEPTED: [&str; 4] = ["exec=1", "exec=01", "exec=000000001", "exec=0001"];
    const NONE: [&str; 41] = [
        "",
        " ",
        "=",
        "1",
        "=1",
        "exec",
        "exec=",
        "exec=1 ",
        " exec=1",
        "exec= 1",
        "exec =1",
        "exec=1\r",
        "exec=1\0",
        "exec=1\t",
        "Exec=1",
        "EXEC=1",
        "exec=+1",
        "exec=-1",
        "exec==1",
        "exec=1=1",
        "exec=x",
        "exec=1x",
        "exec=x1",
        "exec=1/",
        "exec=1:",
        "exec:1",
        "exe=1",
        "execs=1",
        "arrive=1x",
        "arrive=",
        "arrives=1",
        "bin=1",
        "starts=1",
        "deliver1",
        "delive=1",
        "kind=1",
        "1=1",
        "exec=0000000001",
        "exec=1000000000",
        "exec=4294967297",
        "exec=18446744073709551617",
    ];
    const OTHERS: [(&str, i32); 10] = [
        ("exec=0", 12),
        ("exec=2", 12),
        ("exec=257", 12),
        ("exec=65537", 12),
        ("exec=999999999", 12),
        ("arrive=1", 20),
        ("bind=01", 21),
        ("start=001", 23),
        ("deliver=000000001", 26),
        ("deliver=2", 12),
    ];
    let forms: Vec<(&str, i32)> = ACCEPTED
        .map(|line| (line, 0))
        .into_iter()
        .chain(NONE.map(|line| (line, 12)))
        .chain(OTHERS)
        .collect();
    for (line, answer) in &forms {
        let input = format!("{line}\n");
        assert_eq!(answers_to(input.as_bytes()), [*answer], "{line:?}");
    }
    let lines: Vec<&str> = forms.iter().map(|(line, _)| *line).collect();
    let expected: Vec<i32> = forms.iter().map(|(_, answer)| *answer).collect();
    assert_eq!(answers_to(lines.join("\n").as_bytes()), expected);
}
