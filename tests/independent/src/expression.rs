//! Expressions: trees, their parser and their values.

use crate::configuration::{Call, Configuration, Object, ObjectNumber};
use crate::guard::Guard;
pub use crate::text::{Limits, Variable};
use crate::text::{Reader, LINE_BYTES};

/// At most so many brackets, round and square together, are open at once.
pub const BRACKETS: u32 = 8;

/// One node of an expression; its operands are nodes of the same [`Trees`].
#[derive(Clone, Copy, Debug, PartialEq, Eq)]
pub enum Expression {
    Number(i32),
    Variable(Variable),
    Myself,
    Caller,
    Joined(Join, ExpressionId, ExpressionId),
}

/// What joins two operands.
#[derive(Clone, Copy, Debug, PartialEq, Eq)]
pub enum Join {
    Plus,
    Minus,
    Times,
    Less,
    Equal,
}

impl Join {
    /// The result, with room for any that is out of range.
    fn apply(self, left: i32, right: i32) -> i64 {
        let (left, right) = (i64::from(left), i64::from(right));
        match self {
            Join::Plus => left + right,
            Join::Minus => left - right,
            Join::Times => left * right,
            Join::Less => i64::from(left < right),
            Join::Equal => i64::from(left == right),
        }
    }
}

/// Where a node stands in its [`Trees`].
#[derive(Clone, Copy, Debug, PartialEq, Eq)]
pub struct ExpressionId(u32);

/// The arguments of a `new` or a `call`: neighbours in their [`Trees`].
#[derive(Clone, Copy, Debug, PartialEq, Eq)]
pub struct Arguments {
    first: u32,
    count: u32,
}

impl Arguments {
    pub fn count(self) -> usize {
        self.count as usize
    }
}

/// All nodes of a model's expressions and guards, side by side, so that reading
/// a text does not allocate for every node.
#[derive(Clone, Debug, Default, PartialEq, Eq)]
pub struct Trees {
    expressions: Vec<Expression>,
    arguments: Vec<ExpressionId>,
    pub(crate) guards: Vec<Guard>,
}

/// What an expression or a guard is worked out in: an object and one of its calls.
#[derive(Clone, Copy)]
pub struct Surroundings<'c> {
    pub(crate) configuration: &'c Configuration,
    pub(crate) object_number: ObjectNumber,
    pub(crate) object: &'c Object,
    pub(crate) call: &'c Call,
}

impl<'c> Surroundings<'c> {
    /// None where the object or the label is not in use.
    pub fn of(configuration: &'c Configuration, object: i32, label: i32) -> Option<Self> {
        let object_number = configuration.object_number(object)?;
        let label = configuration.label(label)?;
        Some(Surroundings {
            configuration,
            object_number,
            object: configuration.object(object_number),
            call: configuration.call(label),
        })
    }

    pub(crate) fn variable(&self, variable: Variable) -> i32 {
        match variable {
            Variable::Attribute(index) => self.object.attributes[usize::from(index)],
            Variable::Local(index) => self.call.locals[usize::from(index)],
        }
    }
}

/// An expression that stands alone.
#[derive(Clone, Debug, PartialEq, Eq)]
pub struct ParsedExpression {
    trees: Trees,
    root: ExpressionId,
}

/// Reads a whole byte string as one expression. One longer than a line stands in
/// no text and is refused; so the trees stay as shallow as a line is short.
pub fn parse(bytes: &[u8], limits: Limits) -> Option<ParsedExpression> {
    if bytes.len() > LINE_BYTES {
        return None;
    }
    let mut trees = Trees::default();
    let mut reader = Reader::of(bytes);
    let root = trees.read_expression(&mut reader, limits, BRACKETS)?;
    reader
        .is_at_end()
        .then_some(ParsedExpression { trees, root })
}

/// The value, or None where an intermediate result is out of range.
pub fn evaluate(expression: &ParsedExpression, surroundings: &Surroundings) -> Option<i32> {
    expression.trees.value(expression.root, surroundings)
}

impl Trees {
    fn node(&mut self, expression: Expression) -> ExpressionId {
        // A text has fewer bytes than a u32 counts, and a node takes a byte of it.
        let id = ExpressionId(self.expressions.len() as u32);
        self.expressions.push(expression);
        id
    }

    pub(crate) fn no_arguments(&self) -> Arguments {
        Arguments {
            first: self.arguments.len() as u32,
            count: 0,
        }
    }

    /// Adds to a list that is still the last one.
    pub(crate) fn add_argument(&mut self, list: &mut Arguments, argument: ExpressionId) {
        self.arguments.push(argument);
        list.count += 1;
    }

    pub(crate) fn arguments(&self, list: Arguments) -> &[ExpressionId] {
        let first = list.first as usize;
        &self.arguments[first..first + list.count()]
    }

    /// A sum, or two sums joined by one `<` or `=`.
    pub(crate) fn read_expression(
        &mut self,
        reader: &mut Reader,
        limits: Limits,
        brackets: u32,
    ) -> Option<ExpressionId> {
        let left = self.read_sum(reader, limits, brackets)?;
        let join = match reader.peek() {
            Some(b'<') => Join::Less,
            Some(b'=') => Join::Equal,
            _ => return Some(left),
        };
        reader.advance();
        let right = self.read_sum(reader, limits, brackets)?;
        Some(self.node(Expression::Joined(join, left, right)))
    }

    fn read_sum(
        &mut self,
        reader: &mut Reader,
        limits: Limits,
        brackets: u32,
    ) -> Option<ExpressionId> {
        let mut left = self.read_product(reader, limits, brackets)?;
        loop {
            let join = match reader.peek() {
                Some(b'+') => Join::Plus,
                Some(b'-') => Join::Minus,
                _ => return Some(left),
            };
            reader.advance();
            let right = self.read_product(reader, limits, brackets)?;
            left = self.node(Expression::Joined(join, left, right));
        }
    }

    fn read_product(
        &mut self,
        reader: &mut Reader,
        limits: Limits,
        brackets: u32,
    ) -> Option<ExpressionId> {
        let mut left = self.read_factor(reader, limits, brackets)?;
        while reader.take(b'*') {
            let right = self.read_factor(reader, limits, brackets)?;
            left = self.node(Expression::Joined(Join::Times, left, right));
        }
        Some(left)
    }

    fn read_factor(
        &mut self,
        reader: &mut Reader,
        limits: Limits,
        brackets: u32,
    ) -> Option<ExpressionId> {
        let leaf = match reader.peek()? {
            b'(' => {
                let inside = brackets.checked_sub(1)?;
                reader.advance();
                let inner = self.read_expression(reader, limits, inside)?;
                return reader.take(b')').then_some(inner);
            }
            b'0'..=b'9' => Expression::Number(reader.decimal()?),
            b'a' | b'v' => Expression::Variable(reader.variable(limits)?),
            b's' if reader.take_word(b"self") => Expression::Myself,
            b'c' if reader.take_word(b"caller") => Expression::Caller,
            _ => return None,
        };
        Some(self.node(leaf))
    }

    /// The value, worked out from the left; None where a result is out of range.
    pub(crate) fn value(&self, id: ExpressionId, surroundings: &Surroundings) -> Option<i32> {
        match self.expressions[id.0 as usize] {
            Expression::Number(number) => Some(number),
            Expression::Variable(variable) => Some(surroundings.variable(variable)),
            Expression::Myself => Some(surroundings.object_number.cell()),
            Expression::Caller => Some(ObjectNumber::cell_of(surroundings.call.caller)),
            Expression::Joined(join, left, right) => {
                let left = self.value(left, surroundings)?;
                let right = self.value(right, surroundings)?;
                i32::try_from(join.apply(left, right)).ok()
            }
        }
    }
}
