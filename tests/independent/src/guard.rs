//! Guards: trees, their parser and whether they are enabled.

use crate::expression::{ExpressionId, Limits, Surroundings, Trees, Variable, BRACKETS};
use crate::text::{Reader, LINE_BYTES};

/// One node of a guard; its parts are nodes of the same [`Trees`].
#[derive(Clone, Copy, Debug, PartialEq, Eq)]
pub enum Guard {
    Wait,
    Reply(Variable),
    Holds(ExpressionId),
    And(GuardId, GuardId),
    Or(GuardId, GuardId),
}

/// Where a node stands in its [`Trees`].
#[derive(Clone, Copy, Debug, PartialEq, Eq)]
pub struct GuardId(u32);

/// A guard that stands alone.
#[derive(Clone, Debug, PartialEq, Eq)]
pub struct ParsedGuard {
    trees: Trees,
    root: GuardId,
}

/// Reads a whole byte string, no longer than a line, as one guard.
pub fn parse(bytes: &[u8], limits: Limits) -> Option<ParsedGuard> {
    if bytes.len() > LINE_BYTES {
        return None;
    }
    let mut trees = Trees::default();
    let mut reader = Reader::of(bytes);
    let root = trees.read_guard(&mut reader, limits, BRACKETS)?;
    reader.is_at_end().then_some(ParsedGuard { trees, root })
}

/// Whether the guard is enabled, or None where a result in any atom is out of range.
pub fn evaluate(guard: &ParsedGuard, surroundings: &Surroundings) -> Option<bool> {
    guard.trees.enabled(guard.root, surroundings)
}

impl Trees {
    fn guard_node(&mut self, guard: Guard) -> GuardId {
        let id = GuardId(self.guards.len() as u32);
        self.guards.push(guard);
        id
    }

    /// Conjunctions joined by `|`.
    pub(crate) fn read_guard(
        &mut self,
        reader: &mut Reader,
        limits: Limits,
        brackets: u32,
    ) -> Option<GuardId> {
        let mut left = self.read_conjunction(reader, limits, brackets)?;
        while reader.take(b'|') {
            let right = self.read_conjunction(reader, limits, brackets)?;
            left = self.guard_node(Guard::Or(left, right));
        }
        Some(left)
    }

    fn read_conjunction(
        &mut self,
        reader: &mut Reader,
        limits: Limits,
        brackets: u32,
    ) -> Option<GuardId> {
        let mut left = self.read_atom(reader, limits, brackets)?;
        while reader.take(b'&') {
            let right = self.read_atom(reader, limits, brackets)?;
            left = self.guard_node(Guard::And(left, right));
        }
        Some(left)
    }

    fn read_atom(&mut self, reader: &mut Reader, limits: Limits, brackets: u32) -> Option<GuardId> {
        let leaf = match reader.peek()? {
            b'(' => {
                let inside = brackets.checked_sub(1)?;
                reader.advance();
                let inner = self.read_guard(reader, limits, inside)?;
                return reader.take(b')').then_some(inner);
            }
            b'[' => {
                let inside = brackets.checked_sub(1)?;
                reader.advance();
                let inner = self.read_expression(reader, limits, inside)?;
                if !reader.take(b']') {
                    return None;
                }
                Guard::Holds(inner)
            }
            b'w' if reader.take_word(b"wait") => Guard::Wait,
            _ => {
                let variable = reader.variable(limits)?;
                if !reader.take(b'?') {
                    return None;
                }
                Guard::Reply(variable)
            }
        };
        Some(self.guard_node(leaf))
    }

    /// Every atom is worked out, also where the truth is already settled: a
    /// result out of range anywhere in the guard counts.
    pub(crate) fn enabled(&self, id: GuardId, surroundings: &Surroundings) -> Option<bool> {
        match self.guards[id.0 as usize] {
            Guard::Wait => Some(surroundings.call.cleared),
            Guard::Reply(variable) => {
                let label = surroundings.variable(variable);
                let reply = surroundings
                    .configuration
                    .reply(label, surroundings.object_number);
                Some(reply.is_some())
            }
            Guard::Holds(expression) => Some(self.value(expression, surroundings)? != 0),
            Guard::And(left, right) => {
                let left = self.enabled(left, surroundings)?;
                let right = self.enabled(right, surroundings)?;
                Some(left && right)
            }
            Guard::Or(left, right) => {
                let left = self.enabled(left, surroundings)?;
                let right = self.enabled(right, surroundings)?;
                Some(left || right)
            }
        }
    }
}
