//! The place of a refusal in a code value, an expression or a guard: the first
//! byte from which no continuation of any length is valid, or the length of what
//! ends too soon. A variable that does not exist is placed at its letter.
//!
//! Written as an automaton over bytes, apart from the parsers, so that each can
//! be held against the other.

use crate::code::{CALL_ARGUMENTS, METHOD_INDICES};
use crate::expression::{Limits, BRACKETS};

/// Where a refused expression fails; None where it is good.
pub fn expression(bytes: &[u8], limits: Limits) -> Option<usize> {
    whole(bytes, term(bytes, 0, limits, Frame::expression()))
}

/// Where a refused guard fails; None where it is good.
pub fn guard(bytes: &[u8], limits: Limits) -> Option<usize> {
    whole(bytes, term(bytes, 0, limits, Frame::Guard))
}

/// Where a refused code value fails; None where it is in the grammar.
pub fn code(value: &[u8], limits: Limits, classes: u8) -> Option<usize> {
    whole(value, statement(value, limits, classes))
}

/// The place after what is good, or the place where it fails.
type Walked = Result<usize, usize>;

fn whole(bytes: &[u8], walked: Walked) -> Option<usize> {
    match walked {
        Ok(end) if end == bytes.len() => None,
        Ok(place) | Err(place) => Some(place),
    }
}

/// What follows a statement's word, each with a space before it.
#[derive(Clone, Copy)]
enum Part {
    Variable,
    Expression,
    Guard,
    IndexBelow(u8),
    /// So many expressions or fewer, joined by commas.
    Arguments(usize),
}

fn statement(value: &[u8], limits: Limits, classes: u8) -> Walked {
    use Part::{Arguments, Expression, Guard, IndexBelow, Variable};
    let words: [(&[u8], &[Part]); 12] = [
        (b"skip", &[]),
        (b"set", &[Variable, Expression]),
        (
            b"new",
            &[Variable, IndexBelow(classes), Arguments(usize::MAX)],
        ),
        (
            b"call",
            &[
                Variable,
                Expression,
                IndexBelow(METHOD_INDICES),
                Arguments(CALL_ARGUMENTS),
            ],
        ),
        (b"get", &[Variable, Variable]),
        (b"await", &[Guard]),
        (b"if", &[Expression]),
        (b"else", &[]),
        (b"fi", &[]),
        (b"while", &[Expression]),
        (b"od", &[]),
        (b"return", &[Expression]),
    ];
    let Some((word, parts)) = words.iter().find(|(word, _)| value.starts_with(word)) else {
        // No word begins another, so a value fails where it leaves the last word.
        let common = |word: &[u8]| word.iter().zip(value).take_while(|(a, b)| a == b).count();
        return Err(words
            .iter()
            .map(|(word, _)| common(word))
            .max()
            .unwrap_or(0));
    };
    let mut at = word.len();
    for part in *parts {
        if matches!(part, Part::Arguments(_)) && at == value.len() {
            return Ok(at);
        }
        if value.get(at) != Some(&b' ') {
            return Err(at);
        }
        at = walk(value, at + 1, limits, *part)?;
    }
    Ok(at)
}

fn walk(value: &[u8], at: usize, limits: Limits, part: Part) -> Walked {
    match part {
        Part::Variable => variable(value, at, limits),
        Part::Expression => term(value, at, limits, Frame::expression()),
        Part::Guard => term(value, at, limits, Frame::Guard),
        Part::IndexBelow(bound) => decimal_below(value, at, i64::from(bound)),
        Part::Arguments(most) => {
            let mut at = term(value, at, limits, Frame::expression())?;
            let mut count = 1;
            while count < most && value.get(at) == Some(&b',') {
                at = term(value, at + 1, limits, Frame::expression())?;
                count += 1;
            }
            Ok(at)
        }
    }
}

fn variable(bytes: &[u8], at: usize, limits: Limits) -> Walked {
    let limit = match bytes.get(at) {
        Some(b'a') => limits.attrs.min(8),
        Some(b'v') => limits.locals.min(8),
        _ => return Err(at),
    };
    match bytes.get(at + 1) {
        _ if limit == 0 => Err(at),
        Some(digit @ b'0'..=b'9') if digit - b'0' < limit => Ok(at + 2),
        Some(b'0'..=b'9') => Err(at),
        _ => Err(at + 1),
    }
}

fn decimal_below(bytes: &[u8], from: usize, bound: i64) -> Walked {
    let mut number = 0;
    let mut at = from;
    while let Some(digit @ b'0'..=b'9') = bytes.get(at) {
        let is_after_zero = at > from && number == 0;
        number = number * 10 + i64::from(digit - b'0');
        if is_after_zero || number >= bound {
            return Err(at);
        }
        at += 1;
    }
    if at == from {
        return Err(at);
    }
    Ok(at)
}

fn word(bytes: &[u8], at: usize, word: &[u8]) -> Walked {
    let rest = &bytes[at..];
    match word.iter().zip(rest).take_while(|(a, b)| a == b).count() {
        common if common == word.len() => Ok(at + common),
        common => Err(at + common),
    }
}

/// What an open bracket, or the whole, holds.
#[derive(Clone, Copy, PartialEq, Eq)]
enum Frame {
    /// With the bracket that closes it, and whether it has had its comparison.
    Expression {
        close: u8,
        compared: bool,
    },
    Guard,
}

impl Frame {
    /// The frame of a whole expression, which no byte closes.
    fn expression() -> Frame {
        Frame::within(0)
    }

    fn within(close: u8) -> Frame {
        Frame::Expression {
            close,
            compared: false,
        }
    }

    fn close(self) -> u8 {
        match self {
            Frame::Expression { close, .. } => close,
            Frame::Guard => b')',
        }
    }
}

/// Walks over an expression or a guard until it is complete and the next byte
/// cannot belong to it.
fn term(bytes: &[u8], from: usize, limits: Limits, outermost: Frame) -> Walked {
    let mut outer: Vec<Frame> = Vec::new();
    let mut frame = outermost;
    let mut at = from;
    loop {
        // An operand: its opening brackets, then what stands inside them all.
        while let Some(inner) = bytes.get(at).and_then(|byte| opened(frame, *byte)) {
            if outer.len() == BRACKETS as usize {
                return Err(at);
            }
            outer.push(frame);
            frame = inner;
            at += 1;
        }
        at = operand(bytes, at, limits, frame)?;
        // Brackets that close after it.
        while bytes.get(at) == Some(&frame.close()) {
            let Some(around) = outer.pop() else { break };
            frame = around;
            at += 1;
        }
        // A join, or the end.
        let join = bytes.get(at).copied();
        match (&mut frame, join) {
            (Frame::Guard, Some(b'&' | b'|')) => {}
            (Frame::Expression { .. }, Some(b'+' | b'-' | b'*')) => {}
            (Frame::Expression { compared, .. }, Some(b'<' | b'=')) if !*compared => {
                *compared = true;
            }
            _ if outer.is_empty() => return Ok(at),
            _ => return Err(at),
        }
        at += 1;
    }
}

/// The frame that this byte opens in an operand's place.
fn opened(frame: Frame, byte: u8) -> Option<Frame> {
    match (frame, byte) {
        (Frame::Expression { .. }, b'(') => Some(Frame::within(b')')),
        (Frame::Guard, b'[') => Some(Frame::within(b']')),
        (Frame::Guard, b'(') => Some(Frame::Guard),
        _ => None,
    }
}

fn operand(bytes: &[u8], at: usize, limits: Limits, frame: Frame) -> Walked {
    match (frame, bytes.get(at)) {
        (Frame::Guard, Some(b'w')) => word(bytes, at, b"wait"),
        (Frame::Guard, _) => {
            let end = variable(bytes, at, limits)?;
            word(bytes, end, b"?")
        }
        (_, Some(b'0'..=b'9')) => decimal_below(bytes, at, 1 << 31),
        (_, Some(b's')) => word(bytes, at, b"self"),
        (_, Some(b'c')) => word(bytes, at, b"caller"),
        _ => variable(bytes, at, limits),
    }
}
