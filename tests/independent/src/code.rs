//! Code lines: statements, and the partners of their blocks.

use crate::expression::{Arguments, ExpressionId, Limits, Trees, Variable, BRACKETS};
use crate::guard::GuardId;
use crate::text::Reader;

/// Blocks, ifs and whiles together, nest at most so deep.
pub const OPEN_BLOCKS: usize = 8;
/// The most arguments of a call.
pub const CALL_ARGUMENTS: usize = 4;
/// Methods are named by indices below this, whether a class has them or not.
pub const METHOD_INDICES: u8 = 8;

/// What a code line does. A block's line knows the line where it goes on.
#[derive(Clone, Copy, Debug, PartialEq, Eq)]
pub enum Statement {
    Skip,
    Set {
        target: Variable,
        value: ExpressionId,
    },
    New {
        target: Variable,
        class: u8,
        arguments: Arguments,
    },
    Call {
        target: Variable,
        callee: ExpressionId,
        method: u8,
        arguments: Arguments,
    },
    Get {
        label: Variable,
        target: Variable,
    },
    Await(GuardId),
    If {
        condition: ExpressionId,
        /// The line after its `else`.
        otherwise: u8,
    },
    Else {
        /// The line after its `fi`.
        after: u8,
    },
    Fi,
    While {
        condition: ExpressionId,
        /// The line after its `od`.
        after: u8,
    },
    Od {
        /// Its `while`.
        back: u8,
    },
    Return(ExpressionId),
}

/// Reads a code value; None where it is outside the grammar. Where the lines of
/// a block go on is not known from the value alone: [`Blocks`] fills it in.
pub fn parse(value: &[u8], limits: Limits, classes: u8, trees: &mut Trees) -> Option<Statement> {
    let word_length = value
        .iter()
        .position(|byte| *byte == b' ')
        .unwrap_or(value.len());
    let (word, rest) = value.split_at(word_length);
    let mut line = CodeReader {
        reader: Reader::of(rest),
        limits,
        trees,
    };
    let statement = match word {
        b"skip" => Statement::Skip,
        b"set" => Statement::Set {
            target: line.variable()?,
            value: line.expression()?,
        },
        b"new" => Statement::New {
            target: line.variable()?,
            class: line.index_below(classes)?,
            arguments: line.arguments()?,
        },
        b"call" => Statement::Call {
            target: line.variable()?,
            callee: line.expression()?,
            method: line.index_below(METHOD_INDICES)?,
            arguments: line
                .arguments()
                .filter(|arguments| arguments.count() <= CALL_ARGUMENTS)?,
        },
        b"get" => Statement::Get {
            label: line.variable()?,
            target: line.variable()?,
        },
        b"await" => Statement::Await(line.guard()?),
        b"if" => Statement::If {
            condition: line.expression()?,
            otherwise: 0,
        },
        b"else" => Statement::Else { after: 0 },
        b"fi" => Statement::Fi,
        b"while" => Statement::While {
            condition: line.expression()?,
            after: 0,
        },
        b"od" => Statement::Od { back: 0 },
        b"return" => Statement::Return(line.expression()?),
        _ => return None,
    };
    line.reader.is_at_end().then_some(statement)
}

/// Reads what follows a statement's word, each part with the space before it.
struct CodeReader<'t, 'm> {
    reader: Reader<'t>,
    limits: Limits,
    trees: &'m mut Trees,
}

impl CodeReader<'_, '_> {
    fn space(&mut self) -> Option<()> {
        self.reader.take(b' ').then_some(())
    }

    fn variable(&mut self) -> Option<Variable> {
        self.space()?;
        self.reader.variable(self.limits)
    }

    fn index_below(&mut self, bound: u8) -> Option<u8> {
        self.space()?;
        let index = u8::try_from(self.reader.decimal()?).ok()?;
        (index < bound).then_some(index)
    }

    fn expression(&mut self) -> Option<ExpressionId> {
        self.space()?;
        self.bare_expression()
    }

    fn bare_expression(&mut self) -> Option<ExpressionId> {
        self.trees
            .read_expression(&mut self.reader, self.limits, BRACKETS)
    }

    fn guard(&mut self) -> Option<GuardId> {
        self.space()?;
        self.trees
            .read_guard(&mut self.reader, self.limits, BRACKETS)
    }

    /// None of them, or a space and one or more joined by commas.
    fn arguments(&mut self) -> Option<Arguments> {
        let mut arguments = self.trees.no_arguments();
        if self.reader.is_at_end() {
            return Some(arguments);
        }
        let first = self.expression()?;
        self.trees.add_argument(&mut arguments, first);
        while self.reader.take(b',') {
            let next = self.bare_expression()?;
            self.trees.add_argument(&mut arguments, next);
        }
        Some(arguments)
    }
}

/// The blocks that are open while a method's lines are read.
#[derive(Default)]
pub struct Blocks {
    open: [Option<Open>; OPEN_BLOCKS],
    depth: usize,
}

/// The line that a block's next partner has to fit.
#[derive(Clone, Copy)]
enum Open {
    If(u8),
    Else(u8),
    While(u8),
}

impl Blocks {
    pub fn are_closed(&self) -> bool {
        self.depth == 0
    }

    /// Enters the method's latest line and tells its partners where they go on;
    /// None where the line cannot stand where it stands.
    pub fn enter(&mut self, code: &mut [Statement]) -> Option<()> {
        let (latest, earlier) = code.split_last_mut()?;
        // A method has at most 64 lines.
        let line = earlier.len() as u8;
        match latest {
            Statement::If { .. } => self.push(Open::If(line)),
            Statement::While { .. } => self.push(Open::While(line)),
            Statement::Else { .. } => {
                let Open::If(partner) = self.pop()? else {
                    return None;
                };
                if let Statement::If { otherwise, .. } = &mut earlier[usize::from(partner)] {
                    *otherwise = line + 1;
                }
                self.push(Open::Else(line))
            }
            Statement::Fi => {
                let Open::Else(partner) = self.pop()? else {
                    return None;
                };
                if let Statement::Else { after } = &mut earlier[usize::from(partner)] {
                    *after = line + 1;
                }
                Some(())
            }
            Statement::Od { back } => {
                let Open::While(partner) = self.pop()? else {
                    return None;
                };
                if let Statement::While { after, .. } = &mut earlier[usize::from(partner)] {
                    *after = line + 1;
                }
                *back = partner;
                Some(())
            }
            _ => Some(()),
        }
    }

    fn push(&mut self, block: Open) -> Option<()> {
        *self.open.get_mut(self.depth)? = Some(block);
        self.depth += 1;
        Some(())
    }

    fn pop(&mut self) -> Option<Open> {
        self.depth = self.depth.checked_sub(1)?;
        self.open[self.depth]
    }
}
