//! Model files: the session's, a missing one, and those that are refused.

use boundary::session::{INPUT, MODEL, WRITTEN};
use boundary::texts::{dense, of_length};
use independent::{LINE_BYTES, TEXT_BYTES};

use super::program::{compared, written};

#[test]
fn the_session() {
    let found = written(Some(MODEL.as_bytes()), INPUT.as_bytes());
    assert_eq!(found, WRITTEN.as_bytes());
}

/// No line of the input is a choice then, and no line of the model is a good one.
#[test]
fn the_session_with_cr_at_line_ends() {
    let [model, input] = [MODEL, INPUT].map(|lines| lines.replace('\n', "\r\n"));
    let twelve = "answer=12\n".repeat(16) + "accepted=0\nrefused=16\nobjects=1\ncalls=1\n";
    let found = written(Some(MODEL.as_bytes()), input.as_bytes());
    assert_eq!(found, twelve.as_bytes());
    for input in [INPUT, &input] {
        let found = written(Some(model.as_bytes()), input.as_bytes());
        assert_eq!(found, b"refused=2\nline=1\n");
    }
}

#[test]
fn a_missing_one_is_empty() {
    for input in [INPUT, ""] {
        for model in [None, Some(b"".as_slice())] {
            let found = written(model, input.as_bytes());
            assert_eq!(found, b"refused=3\nline=1\n");
        }
    }
}

/// A valid text of 32,768 bytes is read whole; with one byte more it is too long, and so
/// is whatever is longer.
#[test]
fn long_ones() {
    let accepted = b"answer=0\naccepted=1\nrefused=0\nobjects=1\ncalls=1\n";
    for bytes in [TEXT_BYTES - 1, TEXT_BYTES] {
        assert_eq!(written(Some(&of_length(bytes)), b"exec=1"), accepted);
    }
    let too_long = b"refused=1\nline=0\n";
    assert_eq!(TEXT_BYTES + 1, 32_769);
    for text in [
        of_length(TEXT_BYTES + 1),
        vec![b'\n'; TEXT_BYTES + 1],
        [MODEL.as_bytes(), &[b'x'; TEXT_BYTES]].concat(),
        vec![0; 65_536 + MODEL.len()],
        vec![b'x'; 1_000_000],
    ] {
        assert_eq!(written(Some(&text), INPUT.as_bytes()), too_long);
    }
    compared(Some(&dense()), INPUT.as_bytes());
}

#[test]
fn refused_ones() {
    let session = MODEL.as_bytes();
    let long_line = [b"creol=1".as_slice(), &[b' '; LINE_BYTES], b"\n"].concat();
    for (text, refused, line) in [
        (session[..session.len() - 1].to_vec(), 2, 27),
        ([session, b"\n"].concat(), 3, 28),
        ([session, b"x"].concat(), 2, 28),
        (b"creol=2\n".to_vec(), 4, 1),
        (long_line, 2, 1),
        (MODEL.replace("get v0 a1", "get v0 a2").into_bytes(), 5, 15),
        (MODEL.replace("await v0?", "else").into_bytes(), 6, 14),
    ] {
        let expected = format!("refused={refused}\nline={line}\n");
        assert_eq!(compared(Some(&text), INPUT.as_bytes()), expected.as_bytes());
    }
}
