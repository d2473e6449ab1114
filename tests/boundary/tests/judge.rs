//! The library's verdict on texts against the independent engine's: number and line.

#![cfg(have_creol)]

use boundary::session::MODEL;
use boundary::{creol, texts};
use independent::expression::Limits;
use independent::generate::{self, Random};
use independent::{Verdict, LINE_BYTES, TEXT_BYTES};

/// How often each number was given, so that the comparison cannot go empty.
#[derive(Debug, Default)]
struct Tally {
    texts: usize,
    met: [usize; 7],
}

impl Tally {
    fn compare(&mut self, text: &[u8]) -> Verdict {
        let expected = independent::judge(text);
        let verdict = creol::judge(text);
        if verdict != expected {
            panic!("{verdict:?} in place of {expected:?}: {}", shown(text));
        }
        self.texts += 1;
        self.met[usize::from(verdict.number)] += 1;
        verdict
    }

    fn compare_string(&mut self, text: &str) -> Verdict {
        self.compare(text.as_bytes())
    }

    /// That each of these numbers was given at least so often.
    fn demand(&self, numbers: &[usize], count: usize) {
        let is_met = |number: &usize| self.met[*number] >= count;
        assert!(numbers.iter().all(is_met), "{self:?}");
    }
}

/// The text, or its beginning and its length.
fn shown(text: &[u8]) -> String {
    let most = 4_000;
    let beginning = &text[..text.len().min(most)];
    format!("{} bytes\n{}", text.len(), beginning.escape_ascii())
}

/// The lines of a text without their LF.
fn lines_of(text: &[u8]) -> Vec<&[u8]> {
    let text = text.strip_suffix(b"\n").unwrap_or(text);
    text.split(|byte| *byte == b'\n').collect()
}

fn joined(lines: &[&[u8]]) -> Vec<u8> {
    let mut text = lines.join(&b'\n');
    text.push(b'\n');
    text
}

/// The text with one line, counted from 0, in another form.
fn with_line(text: &[u8], line: usize, replacement: &[u8]) -> Vec<u8> {
    let mut lines = lines_of(text);
    lines[line] = replacement;
    joined(&lines)
}

/// Generated texts, good ones and each with many faults; some past the limit.
#[test]
fn good_and_damaged_texts() {
    let mut tally = Tally::default();
    for seed in 0..9_000 {
        let mut random = Random::new(seed);
        let text = generate::text(&mut random);
        assert_eq!(tally.compare(&text), Verdict::ACCEPTED);
        for _ in 0..24 {
            let damaged = generate::damaged_text(&mut random, &text);
            tally.compare(&damaged);
        }
        if seed % 4 == 0 {
            let mut grown = text;
            let length = TEXT_BYTES + random.below(2);
            grown.resize(length, *random.pick(b"\n x="));
            tally.compare(&grown);
            grown.resize(length + random.below(70_000), b'\n');
            tally.compare(&grown);
        }
    }
    assert!(tally.texts >= 200_000, "{tally:?}");
    tally.demand(&[0], 5_000);
    tally.demand(&[1, 2, 3, 4, 5, 6], 1_000);
}

/// What follows the end in memory is the rest of the session: it must not be seen.
#[test]
fn the_session_cut_anywhere() {
    let mut tally = Tally::default();
    let session = MODEL.as_bytes();
    assert_eq!(tally.compare(session), Verdict::ACCEPTED);
    for end in 0..=session.len() {
        tally.compare(&session[..end]);
        tally.compare(&session[end..]);
    }
    tally.demand(&[2, 3], 20);
}

/// Every byte in every place, in place of what stands there, before it, and gone.
#[test]
fn the_session_with_every_byte_anywhere() {
    let mut tally = Tally::default();
    let session = MODEL.as_bytes();
    for place in 0..session.len() {
        let mut text = session.to_vec();
        for byte in 0..=255 {
            text[place] = byte;
            tally.compare(&text);
        }
        text.copy_from_slice(session);
        text.remove(place);
        tally.compare(&text);
        text.insert(place, 0);
        text.insert(place, 0);
        text[place + 1] = session[place];
        for byte in 0..=255 {
            text[place] = byte;
            tally.compare(&text);
        }
    }
    tally.demand(&[0, 2, 3, 4, 5], 100);
}

/// Lines gone, doubled, changed for one another, and others in their place.
#[test]
fn the_session_with_other_lines() {
    const OTHERS: [&str; 34] = [
        "",
        "=",
        "==",
        "x",
        "code",
        "code=",
        "code= ",
        "code==",
        "lines",
        "lines=",
        "attrs =2",
        "Attrs=2",
        " attrs=2",
        "attrs=2 ",
        "creol=1",
        "creol=2",
        "creol=01",
        "classes=2",
        "class=0",
        "class=1",
        "class=2",
        "method=0",
        "method=1",
        "run=0",
        "run=1",
        "code=skip",
        "code=if 1",
        "code=else",
        "code=fi",
        "code=while 1",
        "code=od",
        "code=return 0",
        "code=new a0 0",
        "code=new a0 1 1,2",
    ];
    let mut tally = Tally::default();
    let session = MODEL.as_bytes();
    let lines = lines_of(session);
    for first in 0..lines.len() {
        let mut fewer = lines.clone();
        fewer.remove(first);
        tally.compare(&joined(&fewer));
        tally.compare(&joined(&lines[..first]));
        for second in 0..lines.len() {
            let mut swapped = lines.clone();
            swapped.swap(first, second);
            tally.compare(&joined(&swapped));
            let mut more = lines.clone();
            more.insert(first, lines[second]);
            tally.compare(&joined(&more));
            for other in OTHERS {
                let text = with_line(session, first, other.as_bytes());
                tally.compare(&with_line(&text, second, lines[first]));
            }
        }
        for other in OTHERS {
            tally.compare(&with_line(session, first, other.as_bytes()));
            let mut more = lines.clone();
            more.insert(first, other.as_bytes());
            tally.compare(&joined(&more));
        }
    }
    tally.demand(&[0, 3, 4, 5, 6], 10);
}

/// Counts and indices far too large, just too large, too small, and in bad form.
#[test]
fn numbers_that_lie() {
    let mut numbers: Vec<String> = [
        "255",
        "256",
        "257",
        "258",
        "511",
        "512",
        "513",
        "1000",
        "32767",
        "32768",
        "65535",
        "65536",
        "65537",
        "65538",
        "65600",
        "2147483647",
        "2147483648",
        "4294967295",
        "4294967296",
        "4294967297",
        "4294967298",
        "9223372036854775807",
        "9223372036854775808",
        "18446744073709551615",
        "18446744073709551616",
        "18446744073709551617",
        "18446744073709551618",
        "340282366920938463463374607431768211457",
        "00",
        "01",
        "02",
        "-1",
        "-0",
        "+1",
        " 1",
        "1 ",
        "",
        "=1",
        "1=",
        "a",
        "0x1",
        "1e1",
        "1.0",
        "1,0",
        "1_",
    ]
    .map(str::to_string)
    .to_vec();
    numbers.extend((0..140).map(|number| number.to_string()));
    for length in [20, 40, 100, 112, 113, 114, 115, 116] {
        numbers.push("0".repeat(length));
        numbers.push("9".repeat(length));
        numbers.push(format!("1{}", "0".repeat(length - 1)));
        numbers.push(format!("{}1", "0".repeat(length - 1)));
    }
    let mut tally = Tally::default();
    let mut change = |text: &[u8], line: usize, number: &str| {
        let lines = lines_of(text);
        let key = lines[line].split(|byte| *byte == b'=').next();
        let changed = [key.unwrap_or_default(), b"=", number.as_bytes()].concat();
        tally.compare(&with_line(text, line, &changed));
    };
    let is_counted = |text: &[u8], line: usize| !lines_of(text)[line].starts_with(b"code=");
    let session = MODEL.as_bytes();
    for line in 0..lines_of(session).len() {
        if is_counted(session, line) {
            numbers
                .iter()
                .for_each(|number| change(session, line, number));
        }
    }
    for seed in 0..400 {
        let mut random = Random::new(1_000_000 + seed);
        let text = generate::text(&mut random);
        for _ in 0..50 {
            let line = random.below(lines_of(&text).len());
            if is_counted(&text, line) {
                change(&text, line, random.pick::<String>(&numbers));
            }
        }
    }
    tally.demand(&[0, 3, 4], 100);
}

/// The sum of all `lines=` near 512, and faults in such texts.
#[test]
fn sums_of_lines() {
    let mut tally = Tally::default();
    for lines in (440..600).chain([1_000, 2_000]) {
        let mut random = Random::new(2_000_000 + lines as u64);
        let text = generate::long_text(&mut random, lines);
        let verdict = tally.compare(&text);
        assert_eq!(verdict.is_accepted(), lines <= 512, "{lines} {verdict:?}");
        for _ in 0..20 {
            tally.compare(&generate::damaged_text(&mut random, &text));
        }
    }
    tally.demand(&[0, 3, 4], 50);
}

/// A text of so many classes, with so many methods each, and so many lines in each
/// of these. Class k is created with k % 3 arguments. The lines but the last are as
/// told by their number among all.
fn full_text(
    [classes, methods, lines]: [usize; 3],
    mut statement: impl FnMut(usize) -> String,
) -> Vec<u8> {
    let mut number = 0;
    let mut text = format!("creol=1\nclasses={classes}\n");
    for class in 0..classes {
        let (given, run) = (class % 3, usize::from(class % 2 == 0));
        text += &format!("class={class}\nattrs=8\ngiven={given}\nrun={run}\n");
        text += &format!("methods={methods}\n");
        for method in 0..methods {
            text += &format!("method={method}\nparams=0\nlocals=1\nlines={lines}\n");
            for _ in 1..lines {
                text += &format!("code={}\n", statement(number));
                number += 1;
            }
            text += "code=return 0\n";
        }
    }
    text.into_bytes()
}

/// As many classes, methods and lines as there may be, and one more; and as many
/// creations, all fitting but perhaps one.
#[test]
fn fullest_texts() {
    let mut tally = Tally::default();
    for counts in [
        [16, 8, 4],
        [16, 8, 5],
        [16, 8, 1],
        [17, 8, 1],
        [16, 9, 1],
        [16, 9, 3],
        [1, 8, 64],
        [1, 8, 65],
        [2, 4, 64],
        [8, 1, 64],
        [9, 1, 64],
        [16, 1, 32],
        [16, 1, 33],
        [16, 0, 1],
        [1, 1, 1],
        [1, 0, 1],
    ] {
        let [classes, methods, lines] = counts;
        let are_in_range = classes <= 16 && (1..=8).contains(&methods) && lines <= 64;
        let is_good = are_in_range && classes * methods * lines <= 512;
        let text = full_text(counts, |_| "skip".to_string());
        assert_eq!(tally.compare(&text).is_accepted(), is_good, "{counts:?}");
        let mut random = Random::new(8_000_000);
        for _ in 0..100 {
            tally.compare(&generate::damaged_text(&mut random, &text));
        }
        let created = (lines - 1) * classes * methods;
        for misfit in (0..=created).step_by(1 + created / 40) {
            let text = full_text(counts, |number| {
                let class = random.below(classes);
                let count = class % 3 + usize::from(number == misfit);
                let arguments = ["", " 1", " 1,2", " 1,2,3"][count];
                format!("new v0 {class}{arguments}")
            });
            let verdict = tally.compare(&text);
            let is_fitting = misfit == created;
            assert_eq!(verdict.is_accepted(), is_good && is_fitting, "{counts:?}");
        }
    }
    tally.demand(&[0, 3, 4, 5], 10);
}

/// Lines of 118 to 123 bytes anywhere, good but for their length, with any byte at
/// their end, and with no LF.
#[test]
fn lengths_of_lines() {
    let mut tally = Tally::default();
    let texts = [
        MODEL.as_bytes().to_vec(),
        generate::text(&mut Random::new(3_000_000)),
    ];
    for text in &texts {
        let lines = lines_of(text);
        for line in 0..lines.len() {
            for length in LINE_BYTES - 2..=LINE_BYTES + 3 {
                let mut long = lines[line].to_vec();
                if long.starts_with(b"code=") {
                    long = b"code=return 1".to_vec();
                    while long.len() + 2 <= length {
                        long.extend_from_slice(b"+1");
                    }
                }
                long.resize(length, b'0');
                tally.compare(&with_line(text, line, &long));
                let mut cut = joined(&lines[..line]);
                cut.extend_from_slice(&long);
                tally.compare(&cut);
                for byte in [0, 9, 10, 13, 31, 32, 126, 127, 128, 255] {
                    long[length - 1] = byte;
                    tally.compare(&with_line(text, line, &long));
                }
            }
        }
    }
    for length in LINE_BYTES - 3..=LINE_BYTES + 3 {
        let sum = format!("return {}1", "1+".repeat(LINE_BYTES));
        let mut value = sum[..length - "code=".len()].to_string();
        if value.ends_with('+') {
            value.replace_range(value.len() - 1.., "0");
        }
        let verdict = tally.compare_string(&texts::alone(&["skip", &value]));
        assert_eq!(verdict.is_accepted(), length <= LINE_BYTES, "{length}");
    }
    tally.demand(&[0, 2, 4], 100);
}

/// Texts of 32,768 bytes and about it, good but for their length, and past 65,536
/// so that a length cut to 16 bits would be a good text's.
#[test]
fn lengths_of_texts() {
    let mut tally = Tally::default();
    for length in (7_600..TEXT_BYTES + 200)
        .step_by(97)
        .chain(TEXT_BYTES - 20..TEXT_BYTES + 20)
    {
        let text = texts::of_length(length);
        assert_eq!(text.len(), length);
        let verdict = tally.compare(&text);
        let expected = Verdict {
            number: u8::from(length > TEXT_BYTES),
            line: 0,
        };
        assert_eq!(verdict, expected, "{length}");
    }
    let longest = texts::of_length(TEXT_BYTES);
    let mut random = Random::new(4_000_000);
    for _ in 0..1_000 {
        tally.compare(&generate::damaged_text(&mut random, &longest));
    }
    for filling in [b'\n', b' ', b'x', b'0', b'=', 0, 255] {
        for length in TEXT_BYTES - 2..=TEXT_BYTES + 2 {
            tally.compare(&vec![filling; length]);
            for start in [MODEL.as_bytes(), &longest[..TEXT_BYTES - 5]] {
                let mut text = start.to_vec();
                text.resize(length, filling);
                tally.compare(&text);
            }
        }
        for start in [MODEL.as_bytes(), &longest, b""] {
            for more in [65_536, 131_072] {
                let mut text = start.to_vec();
                text.resize(start.len() + more, filling);
                tally.compare(&text);
            }
        }
    }
    tally.demand(&[0, 1, 2], 40);
}

/// All orders of up to five block lines, and nests about as deep as they may be.
#[test]
fn blocks() {
    const STATEMENTS: [&str; 7] = ["if 1", "else", "fi", "while 1", "od", "skip", "return 0"];
    let mut tally = Tally::default();
    let mut orders: Vec<Vec<&str>> = vec![Vec::new()];
    for _ in 0..5 {
        let longer = |order: &Vec<&'static str>| {
            let order = order.clone();
            STATEMENTS.map(move |statement| [&order[..], &[statement]].concat())
        };
        orders = orders.iter().flat_map(longer).collect();
        for order in &mut orders {
            tally.compare_string(&texts::alone(order));
            order.push("return 0");
            tally.compare_string(&texts::alone(order));
            order.pop();
        }
    }
    for seed in 0..10_000 {
        let mut random = Random::new(5_000_000 + seed);
        let mut code = Vec::new();
        let mut closing = Vec::new();
        for _ in 0..random.between(6, 10) {
            if random.percent(50) {
                code.push("while 0");
                closing.push("od");
                continue;
            }
            code.push("if 1");
            closing.push("fi");
            match random.percent(50) {
                true => code.push("else"),
                false => closing.push("else"),
            }
        }
        code.extend(closing.iter().rev());
        code.push("return 0");
        if random.percent(50) {
            let place = random.below(code.len());
            match random.below(3) {
                0 => drop(code.remove(place)),
                1 => code.insert(place, *random.pick(&STATEMENTS)),
                _ => code[place] = *random.pick(&STATEMENTS),
            }
        }
        tally.compare_string(&texts::alone(&code));
    }
    tally.demand(&[0, 6], 1_000);
}

/// Statements of every form, and each with every byte of a line anywhere.
#[test]
fn statements() {
    const VALUES: [&str; 48] = [
        "skip",
        "set a0 1",
        "set v7 a7*(v0-1)<self+caller",
        "new a0 0",
        "new v0 0 1",
        "new v0 0 1,a0,(2)",
        "new a0 1",
        "new a0 10",
        "call a0 1 0",
        "call v0 a0+1 7 1",
        "call v0 (a0) 7 1,2,3,4",
        "call a0 1 7 1,2,3,4,5",
        "call a0 1 8",
        "call a0 1 70",
        "get a0 v0",
        "get a7 a7",
        "await wait",
        "await a0?&(v7?|[1<2])|wait",
        "await (1)",
        "await ([1])",
        "await [a0]&wait",
        "await (((((((wait)))))))",
        "await ((((((((wait))))))))",
        "await (((((((((wait)))))))))",
        "await (((([((((1))))]))))",
        "await ((([((((1))))])))",
        "return ((((((((1))))))))",
        "return (((((((((1)))))))))",
        "return 2147483647",
        "return 2147483648",
        "return 1<2<3",
        "return (1<2)<3",
        "return 46341*46341",
        "if 1",
        "else",
        "fi",
        "while a0<9",
        "od",
        "call a0 1 0 ((((((((1)))))))),((((((((1))))))))",
        "return self",
        "new a0 256",
        "new a0 65536",
        "new a0 4294967296",
        "new a0 00",
        "call a0 1 256",
        "call a0 1 4294967297",
        "call a0 1 01",
        "await [((((((((1))))))))]",
    ];
    let mut tally = Tally::default();
    for value in VALUES {
        let mut judge = |value: &[u8]| {
            // Alone, so that a block line may be 6; and as the last line.
            let mut text = texts::alone(&["", "return 0"]).into_bytes();
            let place = text.len() - "\ncode=return 0\n".len();
            text.splice(place..place, value.iter().copied());
            tally.compare(&text);
            let mut text = texts::alone(&["skip", ""]).into_bytes();
            let place = text.len() - 1;
            text.splice(place..place, value.iter().copied());
            tally.compare(&text);
        };
        let value = value.as_bytes();
        judge(value);
        for place in 0..=value.len() {
            judge(&value[..place]);
            for byte in 32..=126 {
                let (before, after) = value.split_at(place);
                judge(&[before, &[byte], after].concat());
                if !after.is_empty() {
                    judge(&[before, &[byte], &after[1..]].concat());
                }
            }
            if place < value.len() {
                judge(&[&value[..place], &value[place + 1..]].concat());
            }
        }
    }
    tally.demand(&[0, 5, 6], 1_000);
}

/// Creations with any number of arguments, of classes before and after; the first
/// misfit counts, but only in a text that passes otherwise.
#[test]
fn arguments_of_creations() {
    let mut tally = Tally::default();
    for seed in 0..20_000 {
        let mut random = Random::new(6_000_000 + seed);
        let classes = random.between(1, 5);
        let given: Vec<usize> = (0..classes)
            .map(|class| if class == 0 { 0 } else { random.below(9) })
            .collect();
        let misfits = *random.pick(&[0, 5, 20]);
        let mut text = format!("creol=1\nclasses={classes}\n");
        for (class, count) in given.iter().enumerate() {
            let run = usize::from(class == 0);
            let lines = random.between(1, 4);
            text += &format!("class={class}\nattrs=8\ngiven={count}\nrun={run}\nmethods=1\n");
            text += &format!("method=0\nparams=0\nlocals=1\nlines={lines}\n");
            for _ in 1..lines {
                // At times a class that does not exist, which is refused at once.
                let beyond = usize::from(random.percent(3));
                let made = random.below(classes + beyond);
                let fitting = given.get(made).copied().unwrap_or(0);
                let count = match random.percent(misfits) {
                    true => random.below(12),
                    false => fitting,
                };
                let arguments: Vec<String> = (0..count)
                    .map(|_| generate::expression(&mut random, ONE_OF_EACH, 5))
                    .collect();
                let space = if count > 0 { " " } else { "" };
                text += &format!("code=new v0 {made}{space}{}\n", arguments.join(","));
            }
            text += "code=return 0\n";
        }
        let text = text.into_bytes();
        tally.compare(&text);
        tally.compare(&generate::damaged_text(&mut random, &text));
    }
    tally.demand(&[0, 5], 5_000);
}

const ONE_OF_EACH: Limits = Limits {
    attrs: 1,
    locals: 1,
};

/// Bytes of no meaning, lines of no meaning, and lines of texts in no order.
#[test]
fn noise() {
    let mut tally = Tally::default();
    for seed in 0..10_000 {
        let mut random = Random::new(7_000_000 + seed);
        let length = random.below(400);
        let bytes: Vec<u8> = (0..length).map(|_| random.below(256) as u8).collect();
        tally.compare(&bytes);
        let printed: Vec<u8> = (0..length)
            .map(|_| match random.percent(4) {
                true => b'\n',
                false => random.between(32, 126) as u8,
            })
            .collect();
        tally.compare(&printed);
        let good = generate::text(&mut random);
        let lines = lines_of(&good);
        let drawn: Vec<&[u8]> = (0..random.below(40))
            .map(|_| *random.pick(&lines))
            .collect();
        tally.compare(&joined(&drawn));
        // Up to some line in order, then in none.
        let kept = random.below(lines.len());
        tally.compare(&joined(&[&lines[..kept], &drawn[..]].concat()));
        // After a good beginning, bytes of no meaning.
        let cut = random.below(good.len());
        tally.compare(&[&good[..cut], &bytes[..]].concat());
        tally.compare(&[&good[..cut], &printed[..]].concat());
    }
    tally.demand(&[2, 3, 4, 5, 6], 100);
}
