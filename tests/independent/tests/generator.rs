//! The generator: its texts are good, the same for the same seed, and have in
//! them what they should.

mod common;

use common::accepted;
use independent::generate::{self, Random};
use independent::{judge, Choice, TEXT_BYTES};

const TEXTS: u64 = 4_000;

fn text(seed: u64) -> String {
    let mut random = Random::new(seed);
    String::from_utf8(generate::text(&mut random)).expect("a text of ASCII")
}

#[test]
fn texts_are_good_and_repeatable() {
    for seed in 0..TEXTS {
        let text = text(seed);
        assert_eq!(judge(text.as_bytes()), accepted(), "{text}");
    }
    for seed in 0..50 {
        assert_eq!(text(seed), text(seed));
        assert_ne!(text(seed), text(seed + 1));
    }
}

#[test]
fn large_texts_are_nearly_as_long_as_they_may_be() {
    for seed in 0..50 {
        let text = generate::large_text(&mut Random::new(seed));
        assert_eq!(judge(&text), accepted());
        assert!(
            (30_000..=TEXT_BYTES).contains(&text.len()),
            "{}",
            text.len()
        );
    }
}

fn deepest(bytes: impl Iterator<Item = i32>) -> i32 {
    let depths = bytes.scan(0, |depth, change| {
        *depth += change;
        Some(*depth)
    });
    depths.max().unwrap_or(0)
}

fn brackets(line: &str) -> i32 {
    deepest(line.bytes().map(|byte| match byte {
        b'(' | b'[' => 1,
        b')' | b']' => -1,
        _ => 0,
    }))
}

fn blocks(text: &str) -> i32 {
    deepest(text.lines().map(|line| {
        if line.starts_with("code=if ") || line.starts_with("code=while ") {
            1
        } else if line == "code=fi" || line == "code=od" {
            -1
        } else {
            0
        }
    }))
}

#[test]
fn texts_have_in_them_what_they_should() {
    const HELD: [&str; 34] = [
        "classes=1\n",
        "classes=2\n",
        "classes=16\n",
        "attrs=0\n",
        "attrs=8\n",
        "given=4\n",
        "run=0\n",
        "methods=0\n",
        "methods=8\n",
        "params=4\n",
        "locals=0\n",
        "locals=8\n",
        "lines=1\n",
        "code=skip\n",
        "code=set v",
        "code=set a",
        "code=new v",
        "code=get v",
        "code=get a",
        "code=await wait\n",
        "code=await v0?\n",
        "code=await wait|",
        "?|",
        "?&",
        "&(",
        "|(",
        "([",
        "self",
        "caller",
        "2147483647",
        "0-2147483647-1",
        "46341*46341",
        "code=call a0 0 ",
        "code=while self\n",
    ];
    let mut held = [0; HELD.len()];
    let (mut deep_blocks, mut deep_brackets, mut lines, mut bytes) = (0, 0, 0, 0);
    for seed in 0..TEXTS {
        let text = text(seed);
        for (count, part) in held.iter_mut().zip(HELD) {
            *count += usize::from(text.contains(part));
        }
        deep_blocks += usize::from(blocks(&text) == 8);
        deep_brackets += usize::from(text.lines().any(|line| brackets(line) == 8));
        lines = lines.max(text.matches("code=").count());
        bytes = bytes.max(text.len());
    }
    for (count, part) in held.iter().zip(HELD) {
        assert!(*count >= 10, "{part:?} is in {count} texts");
    }
    println!(
        "deep blocks {deep_blocks}, deep brackets {deep_brackets}, lines {lines}, bytes {bytes}"
    );
    assert!(
        deep_blocks >= 20 && deep_brackets >= 20,
        "{deep_blocks} {deep_brackets}"
    );
    assert!(lines >= 400, "{lines}");
}

#[test]
fn choices_are_good_and_bad() {
    let mut random = Random::new(0);
    let cells = common::started(common::SESSION);
    let choices = generate::choices(&mut random, &cells, 2_000);
    let count = |test: fn(&Choice) -> bool| choices.iter().filter(|choice| test(choice)).count();
    for kind in 1..=5 {
        assert!(choices
            .iter()
            .any(|choice| choice.kind == kind && choice.number == 1));
    }
    assert!(count(|choice| !(1..=5).contains(&choice.kind)) >= 20);
    assert!(count(|choice| choice.number < 0) >= 10);
    assert!(count(|choice| choice.number > 128) >= 10);
    assert!(count(|choice| *choice == Choice { kind: 1, number: 1 }) >= 1_000);
}
