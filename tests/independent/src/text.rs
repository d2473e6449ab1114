//! Bytes of the model text: lines with their keys and numbers, and the reader
//! that carries a value and a place in it.

use std::ops::RangeInclusive;

use crate::refusal::{Refusal, Verdict};

/// The longest text.
pub const TEXT_BYTES: usize = 32_768;
/// The longest line, its LF not counted.
pub const LINE_BYTES: usize = 120;

/// The lines of a text, taken one after the other.
pub struct Lines<'t> {
    rest: &'t [u8],
    /// The line taken last, counted from 1.
    number: u32,
}

impl<'t> Lines<'t> {
    pub fn of(text: &'t [u8]) -> Result<Lines<'t>, Verdict> {
        if text.len() > TEXT_BYTES {
            return Err(Refusal::TextTooLong.into());
        }
        Ok(Lines {
            rest: text,
            number: 0,
        })
    }

    /// The line taken last.
    pub fn number(&self) -> u32 {
        self.number
    }

    /// A refusal at the line taken last.
    pub fn refused(&self, refusal: Refusal) -> Verdict {
        Verdict::at_line(refusal, self.number)
    }

    /// The next line's value, if its key is the expected one.
    pub fn value(&mut self, key: &[u8]) -> Result<&'t [u8], Verdict> {
        let line = self.line()?;
        // No key holds `=`, so this is the comparison up to the first `=`.
        line.strip_prefix(key)
            .and_then(|rest| rest.strip_prefix(b"="))
            .ok_or_else(|| self.refused(Refusal::WrongKey))
    }

    /// The next line's number, if its key is the expected one and it lies in the range.
    pub fn number_in(&mut self, key: &[u8], range: RangeInclusive<u8>) -> Result<u8, Verdict> {
        let value = self.value(key)?;
        whole_decimal(value)
            .and_then(|number| u8::try_from(number).ok())
            .filter(|number| range.contains(number))
            .ok_or_else(|| self.refused(Refusal::WrongNumber))
    }

    /// The text must end after the line taken last.
    pub fn end(&mut self) -> Result<(), Verdict> {
        if self.rest.is_empty() {
            return Ok(());
        }
        self.line()?;
        Err(self.refused(Refusal::WrongKey))
    }

    fn line(&mut self) -> Result<&'t [u8], Verdict> {
        self.number += 1;
        if self.rest.is_empty() {
            return Err(self.refused(Refusal::WrongKey));
        }
        // A line that is good ends within this many bytes, its LF among them.
        let window = &self.rest[..self.rest.len().min(LINE_BYTES + 1)];
        let end = window.iter().position(|byte| !matches!(byte, 32..=126));
        let end = end.filter(|end| window[*end] == b'\n');
        let end = end.ok_or_else(|| self.refused(Refusal::BrokenLine))?;
        self.rest = &self.rest[end + 1..];
        Ok(&window[..end])
    }
}

fn whole_decimal(bytes: &[u8]) -> Option<i32> {
    let mut reader = Reader::of(bytes);
    let number = reader.decimal()?;
    reader.is_at_end().then_some(number)
}

/// How many attributes and locals a piece of code may name.
#[derive(Clone, Copy, Debug, PartialEq, Eq)]
pub struct Limits {
    pub attrs: u8,
    pub locals: u8,
}

/// A variable of an object or of a call; its index is below 8.
#[derive(Clone, Copy, Debug, PartialEq, Eq)]
pub enum Variable {
    Attribute(u8),
    Local(u8),
}

/// A value and the place up to which it is read.
pub struct Reader<'t> {
    bytes: &'t [u8],
    place: usize,
}

impl<'t> Reader<'t> {
    pub fn of(bytes: &'t [u8]) -> Reader<'t> {
        Reader { bytes, place: 0 }
    }

    pub fn is_at_end(&self) -> bool {
        self.place == self.bytes.len()
    }

    pub fn peek(&self) -> Option<u8> {
        self.bytes.get(self.place).copied()
    }

    /// Passes over the byte just seen by `peek`.
    pub fn advance(&mut self) {
        self.place += 1;
    }

    pub fn take(&mut self, byte: u8) -> bool {
        let found = self.peek() == Some(byte);
        self.place += usize::from(found);
        found
    }

    pub fn take_word(&mut self, word: &[u8]) -> bool {
        let found = self.bytes[self.place..].starts_with(word);
        self.place += if found { word.len() } else { 0 };
        found
    }

    /// A decimal 0..2147483647. After a leading 0 it ends; whoever reads on
    /// meets the next digit where none can stand.
    pub fn decimal(&mut self) -> Option<i32> {
        let mut number = self.digit()?;
        if number == 0 {
            return Some(0);
        }
        while let Some(digit) = self.digit() {
            number = number.checked_mul(10)?.checked_add(digit)?;
        }
        Some(number)
    }

    fn digit(&mut self) -> Option<i32> {
        let byte = self.peek().filter(u8::is_ascii_digit)?;
        self.advance();
        Some(i32::from(byte - b'0'))
    }

    /// A variable that exists under the limits, these being at most 8.
    pub fn variable(&mut self, limits: Limits) -> Option<Variable> {
        let letter = self.peek()?;
        self.advance();
        let index = self.digit()? as u8;
        match letter {
            b'a' if index < limits.attrs.min(8) => Some(Variable::Attribute(index)),
            b'v' if index < limits.locals.min(8) => Some(Variable::Local(index)),
            _ => None,
        }
    }
}
