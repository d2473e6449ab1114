//! Open points of the text, each as it is read.

mod common;

use common::*;
use independent::judge;

#[test]
fn the_text_as_a_whole() {
    let long = |filling: u8| judge(&[filling; 32_769]);
    for filling in [b'\n', b'x', 0, 255] {
        assert_eq!(long(filling), refused(1, 0));
    }
    assert_eq!(judge(&[b'\n'; 32_768]), refused(3, 1));
    let mut padded = SESSION.as_bytes().to_vec();
    padded.resize(32_769, b'\n');
    assert_eq!(judge(&padded), refused(1, 0));
}

#[test]
fn line_by_line_and_the_lowest_number_there() {
    // A wrong key at line 10 comes before a bad byte at line 30, or at line 11.
    let text = session_with(10, "local=1") + "\n\n\u{7f}\n";
    assert_eq!(text.lines().nth(29), Some("\u{7f}"));
    assert_eq!(verdict(&text), (3, 10));
    let text = session_with(10, "local=1").replace("lines=5", "lines=\u{7f}");
    assert_eq!(verdict(&text), (3, 10));
    // 2 beats 3, and 3 beats 4, at one line.
    assert_eq!(verdict(&session_with(10, "local=\t1")), (2, 10));
    assert_eq!(verdict(&session_with(10, "local=x")), (3, 10));
    // 5 beats 6.
    let text = alone(&["fi 1", "return 0"]);
    assert_eq!(verdict(&text), (5, CODE_LINE));
    let text = alone(&["skip", "await"]);
    assert_eq!(verdict(&text), (5, CODE_LINE + 1));
}

#[test]
fn the_length_of_a_line() {
    let filled = |length: usize| {
        let mut value = "return 1".to_string();
        while value.len() + 5 + 2 <= length {
            value += "+1";
        }
        if value.len() + 5 < length {
            value += "0";
        }
        alone(&[&value])
    };
    assert!(filled(120).lines().any(|line| line.len() == 120));
    assert_eq!(verdict(&filled(120)), GOOD);
    assert!(filled(121).lines().any(|line| line.len() == 121));
    assert_eq!(verdict(&filled(121)), (2, CODE_LINE));
}

#[test]
fn the_end_of_the_text() {
    assert_eq!(verdict(&SESSION[..SESSION.len() - 1]), (2, 27));
    assert_eq!(verdict("creol=1"), (2, 1));
    assert_eq!(verdict("creol=1\n"), (3, 2));
    assert_eq!(verdict(""), (3, 1));
    assert_eq!(verdict(&format!("{SESSION}\n")), (3, 28));
    assert_eq!(verdict(&format!("{SESSION}x")), (2, 28));
    assert_eq!(verdict(&format!("{SESSION}x\n")), (3, 28));
    assert_eq!(verdict(&format!("{SESSION}\r\n")), (2, 28));
    for end in 0..SESSION.len() {
        let lines = SESSION[..end].matches('\n').count() as u32;
        let ends_in_lf = end == 0 || SESSION[..end].ends_with('\n');
        let expected = if ends_in_lf {
            (3, lines + 1)
        } else {
            (2, lines + 1)
        };
        assert_eq!(verdict(&SESSION[..end]), expected, "cut at {end}");
    }
}

#[test]
fn keys_and_numbers() {
    for line in [
        "attrs =2", "Attrs=2", "attrs", "", "=2", "attr=2", "attrss=2", " attrs=2",
    ] {
        assert_eq!(verdict(&session_with(4, line)), (3, 4), "{line}");
    }
    for line in [
        "attrs=",
        "attrs= 2",
        "attrs=2 ",
        "attrs=+2",
        "attrs=-0",
        "attrs==2",
        "attrs=02",
        "attrs=9",
        "attrs=258",
        "attrs=4294967298",
        "attrs=18446744073709551618",
        "attrs=2147483650",
    ] {
        assert_eq!(verdict(&session_with(4, line)), (4, 4), "{line}");
    }
    for (line, replacement) in [
        (1, "creol=2"),
        (1, "creol=0"),
        (2, "classes=0"),
        (2, "classes=17"),
        (3, "class=1"),
        (5, "given=1"),
        (6, "run=0"),
        (6, "run=2"),
        (7, "methods=0"),
        (7, "methods=9"),
        (8, "method=1"),
        (9, "params=1"),
        (10, "locals=9"),
        (11, "lines=0"),
        (11, "lines=65"),
        (17, "class=0"),
        (17, "class=2"),
        (19, "given=2"),
        (22, "method=1"),
        (23, "params=5"),
        (24, "locals=0"),
    ] {
        let expected = (4, line as u32);
        assert_eq!(
            verdict(&session_with(line, replacement)),
            expected,
            "{replacement}"
        );
    }
    // A count that lies is met where the next key is missed.
    assert_eq!(verdict(&session_with(11, "lines=4")), (6, 15));
    assert_eq!(verdict(&session_with(11, "lines=6")), (3, 17));
    assert_eq!(verdict(&session_with(2, "classes=3")), (3, 28));
    assert_eq!(verdict(&session_with(7, "methods=2")), (3, 17));
}

#[test]
fn the_512() {
    let full: Vec<&str> = [["skip"; 63].as_slice(), &["return 0"]].concat();
    let methods = [(0, 0, full.as_slice()); 8];
    let whole = Class {
        attrs: 0,
        given: 0,
        run: 1,
        methods: &methods,
    };
    let one_more = Class {
        attrs: 0,
        given: 0,
        run: 0,
        methods: &[(0, 0, &["no code"])],
    };
    let exactly = text_of(&[whole]);
    assert_eq!(verdict(&exactly), GOOD);
    let whole = Class {
        attrs: 0,
        given: 0,
        run: 1,
        methods: &methods,
    };
    let text = text_of(&[whole, one_more]);
    let line = text.lines().count() as u32 - 1;
    assert_eq!(verdict(&text), (4, line));
}
