//! Expressions and guards by themselves: their values, and the places of refusals.

mod common;

use common::alone;
use independent::code;
use independent::configuration::{Configuration, Stage, CELLS};
use independent::expression::{self, Limits, Surroundings, Trees};
use independent::generate::{self, Random};
use independent::{guard, place, start};

const ALL: Limits = Limits {
    attrs: 8,
    locals: 8,
};

/// Values at the ends of the range, labels and objects, good and bad.
const VALUES: [i32; 14] = [
    0,
    1,
    2,
    3,
    5,
    -1,
    46_340,
    46_341,
    65_536,
    1 << 30,
    i32::MAX,
    i32::MIN,
    128,
    129,
];

/// One object with one running call, its variables random.
fn surrounded(random: &mut Random) -> Configuration {
    let mut cells = vec![0; CELLS];
    start(alone(&["await wait", "return 0"]).as_bytes(), &mut cells);
    for variable in 0..8 {
        cells[4 + variable] = *random.pick(&VALUES);
        cells[common::call_cell(1, 8 + variable)] = *random.pick(&VALUES);
    }
    cells[common::call_cell(1, 6)] = random.below(2) as i32;
    // Replies, one of them in and object 1's own.
    cells[1] = 3;
    for (label, stage) in [(2, 6), (3, 5 + random.below(3) as i32)] {
        cells[common::call_cell(label, 0)] = stage;
        cells[common::call_cell(label, 1)] = 1;
        cells[common::call_cell(label, 2)] = 1;
        cells[common::call_cell(label, 5)] = 1;
    }
    Configuration::decode(&cells).expect("rows")
}

/// Works a term out from its end backwards, splitting at the last join of the
/// lowest rank that stands outside brackets; it shares nothing with the parser.
struct ByHand<'c> {
    rows: &'c Configuration,
}

impl ByHand<'_> {
    fn split<'t>(&self, term: &'t [u8], joins: &[u8]) -> Option<(&'t [u8], u8, &'t [u8])> {
        let mut open = 0;
        for (place, byte) in term.iter().enumerate().rev() {
            match byte {
                b')' | b']' => open += 1,
                b'(' | b'[' => open -= 1,
                _ if open == 0 && joins.contains(byte) => {
                    return Some((&term[..place], *byte, &term[place + 1..]));
                }
                _ => {}
            }
        }
        None
    }

    fn value(&self, term: &[u8]) -> Option<i128> {
        for joins in [b"<=".as_slice(), b"+-", b"*"] {
            if let Some((left, join, right)) = self.split(term, joins) {
                let (left, right) = (self.value(left)?, self.value(right)?);
                let result = match join {
                    b'<' => i128::from(left < right),
                    b'=' => i128::from(left == right),
                    b'+' => left + right,
                    b'-' => left - right,
                    _ => left * right,
                };
                return (i128::from(i32::MIN)..=i128::from(i32::MAX))
                    .contains(&result)
                    .then_some(result);
            }
        }
        Some(match term[0] {
            b'(' => return self.value(&term[1..term.len() - 1]),
            b's' => 1,
            b'c' => 0,
            b'a' | b'v' => self.variable(term),
            _ => std::str::from_utf8(term).unwrap().parse().unwrap(),
        })
    }

    fn variable(&self, name: &[u8]) -> i128 {
        let index = usize::from(name[1] - b'0');
        i128::from(match name[0] {
            b'a' => self.rows.objects()[0].attributes[index],
            _ => self.rows.calls()[0].locals[index],
        })
    }

    fn enabled(&self, term: &[u8]) -> Option<bool> {
        for joins in [b"|", b"&"] {
            if let Some((left, join, right)) = self.split(term, joins) {
                let (left, right) = (self.enabled(left), self.enabled(right));
                return match join {
                    b'|' => Some(left? | right?),
                    _ => Some(left? & right?),
                };
            }
        }
        Some(match term[0] {
            b'(' => return self.enabled(&term[1..term.len() - 1]),
            b'[' => self.value(&term[1..term.len() - 1])? != 0,
            b'w' => self.rows.calls()[0].cleared,
            _ => match self.variable(term) {
                label @ 1..=3 => self.rows.calls()[label as usize - 1].stage == Stage::ReplyIn,
                _ => false,
            },
        })
    }
}

#[test]
fn values_of_expressions() {
    let (mut good, mut out_of_range) = (0, 0);
    for seed in 0..40_000 {
        let mut random = Random::new(seed);
        let rows = surrounded(&mut random);
        let term = generate::expression(&mut random, ALL, 115);
        let parsed = expression::parse(term.as_bytes(), ALL).expect(&term);
        let surroundings = Surroundings::of(&rows, 1, 1).expect("in use");
        let value = expression::evaluate(&parsed, &surroundings);
        let by_hand = ByHand { rows: &rows }.value(term.as_bytes());
        assert_eq!(value.map(i128::from), by_hand, "{term}");
        good += usize::from(value.is_some());
        out_of_range += usize::from(value.is_none());
    }
    assert!(
        good > 10_000 && out_of_range > 2_000,
        "{good} {out_of_range}"
    );
}

#[test]
fn values_of_guards() {
    let mut met = [0; 3];
    for seed in 0..40_000 {
        let mut random = Random::new(50_000 + seed);
        let rows = surrounded(&mut random);
        let term = generate::guard(&mut random, ALL, 115);
        let parsed = guard::parse(term.as_bytes(), ALL).expect(&term);
        let surroundings = Surroundings::of(&rows, 1, 1).expect("in use");
        let enabled = guard::evaluate(&parsed, &surroundings);
        assert_eq!(
            enabled,
            ByHand { rows: &rows }.enabled(term.as_bytes()),
            "{term}"
        );
        met[enabled.map_or(2, usize::from)] += 1;
    }
    assert!(met.iter().all(|count| *count > 1_000), "{met:?}");
}

#[test]
fn surroundings_are_in_use() {
    let rows = surrounded(&mut Random::new(0));
    for (object, label) in [(0, 1), (2, 1), (1, 0), (1, 4), (-1, 1), (1, i32::MAX)] {
        assert!(Surroundings::of(&rows, object, label).is_none());
    }
}

fn limits(random: &mut Random) -> Limits {
    Limits {
        attrs: random.below(9) as u8,
        locals: random.below(9) as u8,
    }
}

/// A good term with a fault, or noise.
fn faulty(random: &mut Random, limits: Limits, is_guard: bool) -> Vec<u8> {
    let mut bytes = match random.below(4) {
        0 => return generate::noise(random, 40),
        _ if is_guard => generate::guard(random, limits, 60).into_bytes(),
        _ => generate::expression(random, limits, 60).into_bytes(),
    };
    let place = random.below(bytes.len() + 1);
    let end = (place + random.below(3)).min(bytes.len());
    let noise = generate::noise(random, 3);
    bytes.splice(place..end, noise);
    bytes
}

/// Whether something can follow these bytes so that the whole is good.
fn has_continuation(bytes: &[u8], is_good: impl Fn(&[u8]) -> bool) -> bool {
    const NEXT: [&str; 27] = [
        "", "0", "0?", "?", "wait", "ait", "it", "t", "self", "elf", "lf", "f", "caller", "aller",
        "ller", "ler", "er", "r", "a0", "v0", "a0?", "v0?", "[0]", "1", "9", "8", "7",
    ];
    NEXT.iter().any(|next| {
        let mut whole = [bytes, next.as_bytes()].concat();
        let mut open = Vec::new();
        for byte in &whole {
            match byte {
                b'(' => open.push(b')'),
                b'[' => open.push(b']'),
                b')' | b']' => drop(open.pop()),
                _ => {}
            }
        }
        whole.extend(open.iter().rev());
        is_good(&whole)
    })
}

fn check_place(bytes: &[u8], place: Option<usize>, is_good: impl Fn(&[u8]) -> bool) {
    let shown = String::from_utf8_lossy(bytes);
    assert_eq!(place.is_none(), is_good(bytes), "{shown}");
    let Some(place) = place else { return };
    assert!(place <= bytes.len());
    assert!(
        has_continuation(&bytes[..place], &is_good),
        "{shown} before {place}"
    );
    if place < bytes.len() {
        // A variable that does not exist is known by its digit and placed at its letter.
        let is_variable = matches!(bytes[place], b'a' | b'v')
            && bytes.get(place + 1).is_some_and(u8::is_ascii_digit);
        let end = place + 1 + usize::from(is_variable);
        assert!(
            !has_continuation(&bytes[..end], &is_good),
            "{shown} at {place}"
        );
    }
}

#[test]
fn places_of_refusals() {
    for seed in 0..60_000 {
        let mut random = Random::new(seed);
        let limits = limits(&mut random);
        let bytes = faulty(&mut random, limits, false);
        let is_good = |bytes: &[u8]| expression::parse(bytes, limits).is_some();
        check_place(&bytes, place::expression(&bytes, limits), is_good);
        let bytes = faulty(&mut random, limits, true);
        let is_good = |bytes: &[u8]| guard::parse(bytes, limits).is_some();
        check_place(&bytes, place::guard(&bytes, limits), is_good);
    }
}

#[test]
fn places_in_code() {
    let limits = Limits {
        attrs: 2,
        locals: 1,
    };
    for (value, expected) in [
        ("skip", None),
        ("skip ", Some(4)),
        ("ski", Some(3)),
        ("skop", Some(2)),
        ("", Some(0)),
        ("x", Some(0)),
        ("set", Some(3)),
        ("sett", Some(3)),
        ("set a0", Some(6)),
        ("set a2 1", Some(4)),
        ("set b0 1", Some(4)),
        ("set ax 1", Some(5)),
        ("set a0 1<2<3", Some(10)),
        ("set a0 2147483648", Some(16)),
        ("set a0 01", Some(8)),
        ("set a0 1+v1", Some(9)),
        ("set a0 (1", Some(9)),
        ("set a0 1)", Some(8)),
        ("set a0 (((((((((1)))))))))", Some(15)),
        ("new a0 3", Some(7)),
        ("new a0 20", Some(8)),
        ("new a0 2 1,", Some(11)),
        ("new a0 2 1,2,3,4,5,6", None),
        ("new a0 2 ", Some(9)),
        ("call a0 1 8", Some(10)),
        ("call a0 1 0 1,2,3,4", None),
        ("call a0 1 0 1,2,3,4,5", Some(19)),
        ("get a0 1", Some(7)),
        ("await (1)", Some(7)),
        ("await v0", Some(8)),
        ("await waif", Some(9)),
        ("await (((((((([1]))))))))", Some(14)),
        ("fo", Some(1)),
        ("return 1 ", Some(8)),
        ("return selg", Some(10)),
    ] {
        assert_eq!(
            place::code(value.as_bytes(), limits, 3),
            expected,
            "{value}"
        );
    }
}

#[test]
fn places_and_statements_agree() {
    let mut good = 0;
    for seed in 0..3_000 {
        let mut random = Random::new(seed);
        let text = generate::text(&mut random);
        let text = generate::damaged_text(&mut random, &text);
        let limits = limits(&mut random);
        let classes = random.between(1, 16) as u8;
        for line in text.split(|byte| *byte == b'\n') {
            if let Some(value) = line
                .strip_prefix(b"code=")
                .filter(|value| value.len() <= 115)
            {
                let parsed = code::parse(value, limits, classes, &mut Trees::default());
                let place = place::code(value, limits, classes);
                assert_eq!(
                    parsed.is_some(),
                    place.is_none(),
                    "{}",
                    String::from_utf8_lossy(value)
                );
                good += usize::from(parsed.is_some());
            }
        }
    }
    assert!(good > 5_000, "{good}");
}
