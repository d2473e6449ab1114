//! The readers of terms against the independent engine.
//!
//! The engine speaks of whole byte strings: whether one is a term, what its value
//! is, and, of one that is none, the place where it fails: the first byte from
//! which no continuation is valid, or its length where it ends too soon. The
//! library's readers begin at a place of a text and read as far as the grammar
//! goes. What they have to answer follows from what the engine says of `rest`,
//! the text from that place on:
//!
//! - The rest is a term. Then it is read to its end, with its value.
//! - The rest is none, and fails at q. What stands before q can be continued to a
//!   term, so a reader from the left has refused nothing yet; the byte at q
//!   continues it to none, so no reader goes past it. Thus the reading ended at q.
//!   If what stands before q is a term, it was read, and the byte at q is for
//!   whoever reads on; if not, the reader has refused at q.
//! - With one exception. Where the byte at q is a digit that makes a decimal too
//!   large, the shorter decimal before it is a term, but not the decimal that stands
//!   there: this is a refusal at q. (After a 0 no digit belongs to the decimal, so
//!   `01` is a 0 and a byte for whoever reads on.)
//!
//! A variable that does not exist is placed at its letter, where an operand is due;
//! what stands before it is no term, so this is a refusal like others.
//!
//! Limits are 0 to 8 each, as a text has them. The engine reads strings no longer
//! than a line, so no rest is longer.

#![cfg(have_probe)]

mod raw;

use boundary::probe::{Asked, Limits, Reading};
use independent::expression::{self, Surroundings};
use independent::generate::{self, Random};
use independent::{guard, place, LINE_BYTES};
use raw::{Lent, Raw};

const CASES: usize = 150_000;

#[derive(Clone, Copy, PartialEq, Eq)]
enum Kind {
    Expression,
    Guard,
}

impl Kind {
    fn generated(self, random: &mut Random, limits: Limits, bytes: usize) -> Vec<u8> {
        match self {
            Kind::Expression => generate::expression(random, limits, bytes),
            Kind::Guard => generate::guard(random, limits, bytes),
        }
        .into_bytes()
    }

    fn joins(self) -> &'static [u8] {
        match self {
            Kind::Expression => b"+-*",
            Kind::Guard => b"&|",
        }
    }

    fn is_term(self, bytes: &[u8], limits: Limits) -> bool {
        match self {
            Kind::Expression => expression::parse(bytes, limits).is_some(),
            Kind::Guard => guard::parse(bytes, limits).is_some(),
        }
    }

    fn place(self, bytes: &[u8], limits: Limits) -> Option<usize> {
        match self {
            Kind::Expression => place::expression(bytes, limits),
            Kind::Guard => place::guard(bytes, limits),
        }
    }

    /// The value of a term in raw cells.
    fn value(self, term: &[u8], raw: Raw) -> Option<i32> {
        match self {
            Kind::Expression => raw.value(term),
            Kind::Guard => raw.enabled(term).map(i32::from),
        }
    }

    /// The engine's own value of a term, in rows.
    fn value_in_rows(self, term: &[u8], limits: Limits, around: &Surroundings) -> Option<i32> {
        match self {
            Kind::Expression => {
                let parsed = expression::parse(term, limits).expect("a term");
                expression::evaluate(&parsed, around)
            }
            Kind::Guard => {
                let parsed = guard::parse(term, limits).expect("a term");
                guard::evaluate(&parsed, around).map(i32::from)
            }
        }
    }
}

/// What a reading begins with. The text stands in longer memory: what lies behind
/// it there may continue a term, and must not be seen.
struct Case<'c> {
    memory: Vec<u8>,
    length: usize,
    at: usize,
    limits: Limits,
    lent: &'c Lent,
    object: u8,
    label: u32,
}

impl Case<'_> {
    fn text(&self) -> &[u8] {
        &self.memory[..self.length]
    }

    fn read(&self, kind: Kind) -> Reading {
        let asked = Asked {
            text: self.text(),
            at: self.at,
            limits: self.limits,
            cells: self.lent.cells(),
            object: self.object,
            label: self.label,
        };
        match kind {
            Kind::Expression => asked.expression(),
            Kind::Guard => asked.guard(),
        }
    }

    /// The answer that the head of this file derives.
    fn expected(&self, kind: Kind) -> Reading {
        let rest = &self.text()[self.at..];
        let failed = kind.place(rest, self.limits);
        let length = failed.unwrap_or(rest.len());
        let (term, end) = (&rest[..length], self.at + length);
        if !kind.is_term(term, self.limits) || is_in_decimal(rest, length) {
            assert!(failed.is_some(), "the engine disagrees with itself");
            return Reading::Refused { place: end };
        }
        match self.value(kind, term) {
            Some(value) => Reading::Value { end, value },
            None => Reading::OutOfRange { end },
        }
    }

    /// The value in raw cells, and, where the cells are rows, the engine's too.
    fn value(&self, kind: Kind, term: &[u8]) -> Option<i32> {
        let raw = Raw {
            cells: self.lent.cells(),
            object: self.object,
            label: self.label,
        };
        let value = kind.value(term, raw);
        if let Some(around) = self.surroundings() {
            let in_rows = kind.value_in_rows(term, self.limits, &around);
            assert_eq!(value, in_rows, "{}", self.shown());
        }
        value
    }

    fn surroundings(&self) -> Option<Surroundings<'_>> {
        let rows = self.lent.rows.as_ref()?;
        Surroundings::of(rows, i32::from(self.object), self.label as i32)
    }

    fn shown(&self) -> String {
        let (before, rest) = self.text().split_at(self.at);
        format!(
            "\"{}\" after {} bytes, {:?}, object {}, label {}, {} cells that begin {:?}",
            rest.escape_ascii(),
            before.len(),
            self.limits,
            self.object,
            self.label,
            self.lent.cells().len(),
            &self.lent.cells()[..self.lent.cells().len().min(2)],
        )
    }
}

/// Whether a decimal that goes on at this place has begun before it.
fn is_in_decimal(bytes: &[u8], place: usize) -> bool {
    let is_digit = |byte: &u8| byte.is_ascii_digit();
    let digits = bytes[..place].iter().rev().take_while(|b| is_digit(b));
    let from = place - digits.count();
    let is_variable = from > 0 && matches!(bytes[from - 1], b'a' | b'v');
    from < place && bytes[from] != b'0' && !is_variable && bytes.get(place).is_some_and(is_digit)
}

#[test]
fn decimals_that_go_on() {
    for (bytes, place, expected) in [
        ("2147483648", 9, true),
        ("1+2147483648", 11, true),
        ("01", 1, false),
        ("1+01", 3, false),
        ("a12", 2, false),
        ("12", 2, false),
        ("1x", 1, false),
        ("", 0, false),
        ("8", 0, false),
    ] {
        assert_eq!(is_in_decimal(bytes.as_bytes(), place), expected, "{bytes}");
    }
}

/// How often each outcome was met, so that the comparison cannot go empty.
#[derive(Debug, Default)]
struct Tally {
    values: usize,
    zeros: usize,
    out_of_range: usize,
    refused: usize,
    /// Terms that end before the text does.
    stopped: usize,
    /// Terms in cells that are rows.
    in_rows: usize,
}

impl Tally {
    fn compare(&mut self, kind: Kind, case: &Case) {
        let expected = case.expected(kind);
        assert_eq!(case.read(kind), expected, "{}", case.shown());
        match expected {
            Reading::Value { value, .. } => {
                self.values += 1;
                self.zeros += usize::from(value == 0);
            }
            Reading::OutOfRange { .. } => self.out_of_range += 1,
            Reading::Refused { .. } => self.refused += 1,
        }
        if let Reading::Value { end, .. } | Reading::OutOfRange { end } = expected {
            self.stopped += usize::from(end < case.length);
            self.in_rows += usize::from(case.surroundings().is_some());
        }
    }
}

/// A byte, mostly one of the grammar's.
fn byte(random: &mut Random) -> u8 {
    match random.percent(80) {
        true => *random.pick(b"0123456789av()[]&|?<=+-*, selfcallerwait"),
        false => random.below(256) as u8,
    }
}

/// Operands of any kind joined without brackets, so that rank and grouping show.
fn flat(random: &mut Random, kind: Kind, limits: Limits, most: usize) -> Vec<u8> {
    let mut term = Vec::new();
    for index in 0..random.between(2, most) {
        if index > 0 {
            term.push(match (kind, random.below(24)) {
                (Kind::Expression, 0) => *random.pick(b"<="),
                (Kind::Expression, 1..=10) => b'*',
                _ => *random.pick(kind.joins()),
            });
        }
        match (kind, random.below(5)) {
            (Kind::Expression, 0) => term.extend(random.below(100).to_string().into_bytes()),
            (Kind::Guard, 0) => {
                term.push(b'[');
                term.extend(flat(random, Kind::Expression, limits, 5));
                term.push(b']');
            }
            _ => term.extend(kind.generated(random, limits, 5)),
        }
    }
    term
}

/// Brackets about as deep as they may be, some of them left open.
fn tower(random: &mut Random, kind: Kind, limits: Limits) -> Vec<u8> {
    let depth = random.between(6, 10);
    let guards = match kind {
        Kind::Expression => 0,
        Kind::Guard => random.below(depth + 1),
    };
    let mut term = Vec::new();
    let mut open = Vec::new();
    for level in 0..depth {
        let is_square = kind == Kind::Guard && level == guards;
        open.push(if is_square { b']' } else { b')' });
        term.push(if is_square { b'[' } else { b'(' });
        if random.percent(10) {
            let inside = match level < guards {
                true => "wait&",
                false => *random.pick(&["1+", "0*", "2<"]),
            };
            term.extend_from_slice(inside.as_bytes());
        }
    }
    let inside = match guards == depth {
        true => Kind::Guard,
        false => Kind::Expression,
    };
    term.extend(inside.generated(random, limits, 12));
    let closing = match random.percent(80) {
        true => depth,
        false => random.below(depth + 1),
    };
    term.extend(open.iter().rev().take(closing));
    term
}

/// Pieces at the edge of the grammar and of the range.
const EDGES: [&str; 30] = [
    "2147483647",
    "2147483648",
    "2147483650",
    "21474836470",
    "4294967295",
    "4294967296",
    "4294967297",
    "18446744073709551615",
    "18446744073709551617",
    "99999999999999999999999999999999999999999999",
    "00",
    "01",
    "0",
    "1<2<3",
    "1=1=1",
    "(1<2)<3",
    "2147483647+1-1",
    "0*(2147483647+1)",
    "0-2147483647-1",
    "(0-2147483647-1)*(0-1)",
    "0-(0-2147483647-1)",
    "46341*46341",
    "46340*46340",
    "65536*65536",
    "1<2147483647+1",
    "sel",
    "calle",
    "selfself",
    "a",
    "v8",
];

fn edge(random: &mut Random, kind: Kind) -> Vec<u8> {
    let edge = *random.pick(&EDGES);
    match (kind, random.below(5)) {
        (Kind::Expression, 0) => format!("({edge})"),
        (Kind::Expression, 1) => format!("1+{edge}*0"),
        (Kind::Expression, _) => edge.to_string(),
        (Kind::Guard, 0) => format!("wait|[{edge}]"),
        (Kind::Guard, 1) => format!("([{edge}]&wait)"),
        (Kind::Guard, 2) => format!("a0?&[{edge}]|[1]"),
        (Kind::Guard, 3) => random
            .pick(&["wai", "waitwait", "a0??", "(1)", "[wait]", "[1", "()", "[]"])
            .to_string(),
        (Kind::Guard, _) => format!("[{edge}]"),
    }
    .into_bytes()
}

fn damage(random: &mut Random, bytes: &mut Vec<u8>) {
    for _ in 0..1 + random.weighted(&[75, 20, 5]) {
        let place = random.below(bytes.len());
        let byte = byte(random);
        match random.below(6) {
            _ if bytes.is_empty() => bytes.push(byte),
            0 | 1 => bytes[place] = byte,
            2 => bytes.insert(place, byte),
            3 => drop(bytes.remove(place)),
            4 => bytes.truncate(place),
            _ => {
                let end = (place + random.below(3)).min(bytes.len());
                bytes.splice(place..end, generate::noise(random, 3));
            }
        }
    }
}

/// What a reading begins with and what follows: a term, good or not.
fn rest(random: &mut Random, kind: Kind, limits: Limits) -> Vec<u8> {
    let mut rest = match random.weighted(&[45, 20, 8, 7, 5]) {
        0 => {
            let bytes = *random.pick(&[12, 40, LINE_BYTES]);
            kind.generated(random, limits, bytes)
        }
        1 => flat(random, kind, limits, 16),
        2 => tower(random, kind, limits),
        3 => edge(random, kind),
        _ => generate::noise(random, 40),
    };
    match random.weighted(&[45, 25, 30]) {
        0 => {}
        1 => {
            rest.push(byte(random));
            rest.extend(generate::noise(random, 8));
        }
        _ => damage(random, &mut rest),
    }
    rest.truncate(LINE_BYTES);
    rest
}

fn case<'c>(random: &mut Random, kind: Kind, pool: &'c [Lent]) -> Case<'c> {
    let limits = Limits {
        attrs: random.below(9) as u8,
        locals: random.below(9) as u8,
    };
    let at = match random.percent(50) {
        true => 0,
        false => random.below(60),
    };
    let mut memory: Vec<u8> = (0..at).map(|_| byte(random)).collect();
    // At times the term is written for other variables than there are.
    let written_for = match random.percent(85) {
        true => limits,
        false => Limits {
            attrs: 8,
            locals: 8,
        },
    };
    memory.extend(rest(random, kind, written_for));
    let length = memory.len();
    memory.extend_from_slice(random.pick(&["+1", "0", "?", ")", "]", "&wait"]).as_bytes());
    let lent = random.pick(pool);
    let (object, label) = lent.place(random);
    Case {
        memory,
        length,
        at,
        limits,
        lent,
        object,
        label,
    }
}

fn pool(random: &mut Random) -> Vec<Lent> {
    (0..400).map(|_| Lent::random(random)).collect()
}

fn random_terms(kind: Kind, seed: u64) {
    let mut random = Random::new(seed);
    let pool = pool(&mut random);
    let mut tally = Tally::default();
    for _ in 0..CASES {
        let case = case(&mut random, kind, &pool);
        tally.compare(kind, &case);
    }
    assert!(tally.values + tally.out_of_range >= 50_000, "{tally:?}");
    assert!(tally.refused >= 20_000, "{tally:?}");
    assert!(tally.out_of_range >= 2_000, "{tally:?}");
    assert!(tally.zeros >= 5_000, "{tally:?}");
    assert!(tally.values - tally.zeros >= 5_000, "{tally:?}");
    assert!(tally.stopped >= 5_000, "{tally:?}");
    assert!(tally.in_rows >= 10_000, "{tally:?}");
    assert!(tally.values - tally.in_rows >= 10_000, "{tally:?}");
}

#[test]
fn random_expressions() {
    random_terms(Kind::Expression, 1);
}

#[test]
fn random_guards() {
    random_terms(Kind::Guard, 2);
}

/// Every text of up to four bytes from the grammar's.
#[test]
fn every_short_text() {
    const BYTES: &[u8] = b"0129av()[]&|?<=+-*";
    let mut random = Random::new(3);
    let pool = pool(&mut random);
    let mut tally = Tally::default();
    let mut texts = vec![Vec::new()];
    for _ in 0..4 {
        let longer = |text: &Vec<u8>| {
            let text = text.clone();
            BYTES.iter().map(move |byte| [&text[..], &[*byte]].concat())
        };
        texts = texts.iter().flat_map(longer).collect();
        for text in &texts {
            let lent = random.pick(&pool);
            let (object, label) = lent.place(&mut random);
            let limits = Limits {
                attrs: random.below(3) as u8,
                locals: random.below(3) as u8,
            };
            let case = Case {
                memory: text.clone(),
                length: text.len(),
                at: 0,
                limits,
                lent,
                object,
                label,
            };
            tally.compare(Kind::Expression, &case);
            tally.compare(Kind::Guard, &case);
        }
    }
    assert!(
        tally.values >= 10_000 && tally.refused >= 50_000,
        "{tally:?}"
    );
}

/// Every byte that can follow a term, or stand where an operand is due.
#[test]
fn every_next_byte() {
    let mut random = Random::new(4);
    let pool = pool(&mut random);
    let mut tally = Tally::default();
    for _ in 0..300 {
        for kind in [Kind::Expression, Kind::Guard] {
            let case = case(&mut random, kind, &pool);
            for byte in 0..=255 {
                let mut memory = case.text().to_vec();
                memory.push(byte);
                memory.truncate(case.at + LINE_BYTES);
                tally.compare(
                    kind,
                    &Case {
                        length: memory.len(),
                        memory,
                        ..case
                    },
                );
            }
        }
    }
    assert!(
        tally.values >= 10_000 && tally.refused >= 10_000,
        "{tally:?}"
    );
}

/// Cells that are missing read as 0, and so do all where none are lent.
#[test]
fn no_cells() {
    let mut random = Random::new(5);
    let none: Vec<Lent> = std::iter::repeat_with(|| Lent::random(&mut random))
        .filter(|lent| lent.cells().is_empty())
        .take(3)
        .collect();
    let mut tally = Tally::default();
    for _ in 0..5_000 {
        for kind in [Kind::Expression, Kind::Guard] {
            let case = case(&mut random, kind, &none);
            tally.compare(kind, &case);
        }
    }
    assert!(tally.values >= 2_000 && tally.refused >= 500, "{tally:?}");
}

/// A place past the end is refused there, whatever stands in memory behind the text.
#[test]
fn a_place_past_the_end() {
    let memory = b"1+2*a0?wait([1])";
    for length in 0..memory.len() {
        for place in length + 1..memory.len() + 4 {
            let asked = Asked {
                text: &memory[..length],
                at: place,
                limits: Limits {
                    attrs: 8,
                    locals: 8,
                },
                cells: &[],
                object: 1,
                label: 1,
            };
            assert_eq!(asked.expression(), Reading::Refused { place });
            assert_eq!(asked.guard(), Reading::Refused { place });
        }
    }
}
