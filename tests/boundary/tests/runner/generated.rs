//! Generated models with choices from walks, and damaged ones.

use boundary::creol::{ARRIVE, BIND, DELIVER, EXEC, START};
use boundary::lists::{list, started};
use boundary::models;
use independent::generate::{self, Random};
use independent::{Choice, INPUT_BYTES};

use super::program::{answers, compared};

/// The line of a choice; of one that has none a line of another form.
fn line(choice: Choice) -> String {
    let name = match choice.kind {
        EXEC => "exec",
        ARRIVE => "arrive",
        BIND => "bind",
        START => "start",
        DELIVER => "deliver",
        kind => return format!("{kind}={}", choice.number),
    };
    format!("{name}={}", choice.number)
}

/// The line with a fault, or at times only with zeros before its number.
fn damaged(random: &mut Random, line: &str) -> String {
    match random.below(8) {
        0 => line.replace('=', "=0"),
        1 => line.replace('=', "=000000000"),
        2 => line.replace('=', ""),
        3 => line.to_uppercase(),
        4 => format!("{line}\r"),
        5 => format!(" {line}"),
        6 => line[..random.below(line.len())].to_string(),
        _ => String::new(),
    }
}

/// The bytes of a list, with some lines damaged, and with or without a last LF.
fn input(random: &mut Random, list: &[Choice]) -> Vec<u8> {
    let lines = list.iter().map(|choice| {
        let line = line(*choice);
        match random.percent(3) {
            true => damaged(random, &line),
            false => line,
        }
    });
    let mut input = lines.collect::<Vec<_>>().join("\n");
    input.push_str(if random.percent(50) { "\n" } else { "" });
    input.into_bytes()
}

/// Some lists are longer than what is read.
#[test]
fn models_with_their_choices() {
    let mut random = Random::new(41);
    let (mut accepted, mut refused, mut cut) = (0, 0, 0);
    for _ in 0..600 {
        let text = match random.percent(80) {
            true => models::short(&mut random),
            false => generate::text(&mut random),
        };
        let length = match random.percent(25) {
            true => random.between(400, 700),
            false => random.between(1, 300),
        };
        let list = list(&mut random, &text, &started(&text), length, 30);
        let input = input(&mut random, &list);
        let answers = answers(&compared(Some(&text), &input));
        cut += usize::from(input.len() > INPUT_BYTES);
        let zeros = answers.iter().filter(|answer| **answer == 0).count();
        accepted += zeros;
        refused += answers.len() - zeros;
    }
    println!("{accepted} accepted, {refused} refused, {cut} cut");
    assert!(accepted >= 15_000, "{accepted} accepted");
    assert!(refused >= 15_000, "{refused} refused");
    assert!(cut >= 50, "{cut} cut");
}

#[test]
fn damaged_models() {
    let mut random = Random::new(42);
    let mut refused = 0;
    for _ in 0..300 {
        let text = models::short(&mut random);
        let damaged = generate::damaged_text(&mut random, &text);
        let list = list(&mut random, &text, &started(&text), 20, 30);
        let input = input(&mut random, &list);
        let written = compared(Some(&damaged), &input);
        refused += usize::from(written.starts_with(b"refused="));
    }
    println!("{refused} refused");
    assert!((200..300).contains(&refused), "{refused} refused");
}

/// Bytes that are no list of choices, or hardly one.
#[test]
fn any_bytes() {
    const PARTS: [&[u8]; 14] = [
        b"exec=1\n",
        b"exec",
        b"start",
        b"arrive",
        b"bind",
        b"deliver",
        b"=",
        b"=",
        b"1",
        b"0",
        b"\n",
        b"\n",
        b"\r",
        b"\xff",
    ];
    let mut random = Random::new(43);
    let mut accepted = 0;
    for _ in 0..200 {
        let text = models::short(&mut random);
        let parts = random.between(1, 3_000);
        let input: Vec<u8> = match random.percent(70) {
            true => (0..parts)
                .flat_map(|_| *random.pick(&PARTS))
                .copied()
                .collect(),
            false => (0..parts).map(|_| random.bits() as u8).collect(),
        };
        let answers = answers(&compared(Some(&text), &input));
        accepted += answers.iter().filter(|answer| **answer == 0).count();
    }
    println!("{accepted} accepted");
    assert!(accepted >= 50, "{accepted} accepted");
}
