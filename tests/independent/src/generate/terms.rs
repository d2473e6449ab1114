//! Random expressions and guards, as bytes.

use crate::expression::{Limits, BRACKETS};

use super::random::Random;

/// Numbers at which sums and products leave the range, or just do not.
const EDGES: [&str; 8] = [
    "2147483647",
    "2147483646",
    "1073741824",
    "46340",
    "46341",
    "65536",
    "32768",
    "(0-2147483647-1)",
];

/// A valid expression of at most so many bytes.
pub fn expression(random: &mut Random, limits: Limits, bytes: usize) -> String {
    fitting(
        random,
        bytes,
        "0",
        |terms| terms.expression(BRACKETS),
        limits,
    )
}

/// A valid guard of at most so many bytes, these being at least 4.
pub fn guard(random: &mut Random, limits: Limits, bytes: usize) -> String {
    fitting(random, bytes, "wait", |terms| terms.guard(BRACKETS), limits)
}

/// Bytes of the grammar in no order that it knows.
pub fn noise(random: &mut Random, bytes: usize) -> Vec<u8> {
    const PIECES: [&str; 36] = [
        "a0",
        "a1",
        "a7",
        "v0",
        "v1",
        "v7",
        "a",
        "v",
        "8",
        "9",
        "0",
        "1",
        "7",
        "00",
        "self",
        "caller",
        "sel",
        "call",
        "wait",
        "wai",
        "?",
        "(",
        "(",
        ")",
        "[",
        "]",
        "+",
        "-",
        "*",
        "<",
        "=",
        "&",
        "|",
        " ",
        ",",
        "2147483648",
    ];
    let mut noise = Vec::new();
    for _ in 0..random.below(8) {
        noise.extend_from_slice(random.pick(&PIECES).as_bytes());
    }
    noise.truncate(bytes);
    noise
}

fn fitting(
    random: &mut Random,
    bytes: usize,
    fallback: &str,
    write: impl Fn(&mut Terms<'_>) -> String,
    limits: Limits,
) -> String {
    for _ in 0..4 {
        let wild = random.percent(12);
        let term = write(&mut Terms {
            random,
            limits,
            wild,
        });
        if term.len() <= bytes {
            return term;
        }
    }
    fallback.to_string()
}

struct Terms<'r> {
    random: &'r mut Random,
    limits: Limits,
    /// Large and deep, where a tame term is small so that it stays in range.
    wild: bool,
}

impl Terms<'_> {
    fn expression(&mut self, brackets: u32) -> String {
        let left = self.sum(brackets);
        if self.random.percent(70) {
            return left;
        }
        let join = *self.random.pick(&['<', '=']);
        let right = self.sum(brackets);
        format!("{left}{join}{right}")
    }

    fn sum(&mut self, brackets: u32) -> String {
        let mut sum = self.product(brackets);
        while self.random.percent(if self.wild { 40 } else { 25 }) {
            sum.push(*self.random.pick(&['+', '+', '-']));
            sum += &self.product(brackets);
        }
        sum
    }

    fn product(&mut self, brackets: u32) -> String {
        let mut product = self.factor(brackets);
        while self.random.percent(if self.wild { 25 } else { 6 }) {
            product.push('*');
            product += &self.factor(brackets);
        }
        product
    }

    fn factor(&mut self, brackets: u32) -> String {
        let round = match (self.wild, brackets) {
            (_, 0) => 0,
            (true, _) => 40,
            (false, _) => 8,
        };
        let edge = if self.wild && brackets > 0 { 15 } else { 0 };
        match self.random.weighted(&[35, 40, 4, 4, round, edge]) {
            0 => self.random.below(5).to_string(),
            1 => variable(self.random, self.limits).unwrap_or_else(|| "1".to_string()),
            2 => "self".to_string(),
            3 => "caller".to_string(),
            4 => format!("({})", self.expression(brackets - 1)),
            _ => self.random.pick(&EDGES).to_string(),
        }
    }

    fn guard(&mut self, brackets: u32) -> String {
        let mut guard = self.conjunction(brackets);
        while self.random.percent(if self.wild { 40 } else { 25 }) {
            guard.push('|');
            guard += &self.conjunction(brackets);
        }
        guard
    }

    fn conjunction(&mut self, brackets: u32) -> String {
        let mut conjunction = self.atom(brackets);
        while self.random.percent(if self.wild { 35 } else { 20 }) {
            conjunction.push('&');
            conjunction += &self.atom(brackets);
        }
        conjunction
    }

    fn atom(&mut self, brackets: u32) -> String {
        let bracketed = if brackets == 0 { 0 } else { 1 };
        let round = if self.wild { 40 } else { 8 };
        match self
            .random
            .weighted(&[15, 40, 30 * bracketed, round * bracketed])
        {
            0 => "wait".to_string(),
            1 => match variable(self.random, self.limits) {
                Some(variable) => format!("{variable}?"),
                None => "wait".to_string(),
            },
            2 => format!("[{}]", self.expression(brackets - 1)),
            _ => format!("({})", self.guard(brackets - 1)),
        }
    }
}

/// Any variable under the limits.
pub fn variable(random: &mut Random, limits: Limits) -> Option<String> {
    let attrs = usize::from(limits.attrs);
    let count = attrs + usize::from(limits.locals);
    if count == 0 {
        return None;
    }
    let index = random.below(count);
    Some(if index < attrs {
        format!("a{index}")
    } else {
        format!("v{}", index - attrs)
    })
}
