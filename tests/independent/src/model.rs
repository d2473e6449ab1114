//! The model: classes and methods, read from the text.

use crate::code::{self, Blocks, Statement};
use crate::expression::{Limits, Trees};
use crate::refusal::{Refusal, Verdict};
use crate::text::Lines;

const CLASSES: u8 = 16;
const ATTRS: u8 = 8;
const METHODS: u8 = 8;
const PARAMS: u8 = 4;
const LOCALS: u8 = 8;
/// The most lines of one method, and of all methods together.
const METHOD_LINES: u8 = 64;
const MODEL_LINES: u32 = 512;

/// A model whose text has passed every test.
#[derive(Clone, Debug, PartialEq, Eq)]
pub struct Model {
    pub classes: Vec<Class>,
    pub trees: Trees,
}

#[derive(Clone, Debug, PartialEq, Eq)]
pub struct Class {
    pub attrs: u8,
    pub given: u8,
    pub run: bool,
    pub methods: Vec<Method>,
}

/// The last line is a `return` outside all blocks.
#[derive(Clone, Debug, PartialEq, Eq)]
pub struct Method {
    pub params: u8,
    pub locals: u8,
    pub code: Vec<Statement>,
}

impl Class {
    /// The method that a call with this index and this many arguments binds to.
    pub fn binds(&self, method: u8, args: u8) -> Option<&Method> {
        self.methods
            .get(usize::from(method))
            .filter(|found| found.params == args)
    }
}

impl Model {
    /// Reads a text, or tells its first failing line and the lowest number there.
    pub fn read(text: &[u8]) -> Result<Model, Verdict> {
        let mut reading = Reading {
            lines: Lines::of(text)?,
            classes: 0,
            total_lines: 0,
            trees: Trees::default(),
            creations: Vec::new(),
        };
        let classes = reading.model()?;
        reading.creations_are_fitting(&classes)?;
        Ok(Model {
            classes,
            trees: reading.trees,
        })
    }
}

/// A text while it is read.
struct Reading<'t> {
    lines: Lines<'t>,
    /// The number of classes that the text announces.
    classes: u8,
    total_lines: u32,
    trees: Trees,
    /// Every `new`, kept until all classes are known.
    creations: Vec<Creation>,
}

struct Creation {
    line: u32,
    class: u8,
    arguments: usize,
}

impl Reading<'_> {
    fn model(&mut self) -> Result<Vec<Class>, Verdict> {
        self.lines.number_in(b"creol", 1..=1)?;
        self.classes = self.lines.number_in(b"classes", 1..=CLASSES)?;
        let mut classes = Vec::with_capacity(usize::from(self.classes));
        for index in 0..self.classes {
            classes.push(self.class(index)?);
        }
        self.lines.end()?;
        Ok(classes)
    }

    fn class(&mut self, index: u8) -> Result<Class, Verdict> {
        let is_first = index == 0;
        self.lines.number_in(b"class", index..=index)?;
        let attrs = self.lines.number_in(b"attrs", 0..=ATTRS)?;
        let given = self
            .lines
            .number_in(b"given", 0..=if is_first { 0 } else { attrs })?;
        let run = self.lines.number_in(b"run", u8::from(is_first)..=1)?;
        let count = self.lines.number_in(b"methods", run..=METHODS)?;
        let mut methods = Vec::with_capacity(usize::from(count));
        for method in 0..count {
            let is_run = run == 1 && method == 0;
            methods.push(self.method(method, is_run, attrs)?);
        }
        Ok(Class {
            attrs,
            given,
            run: run == 1,
            methods,
        })
    }

    fn method(&mut self, index: u8, is_run: bool, attrs: u8) -> Result<Method, Verdict> {
        self.lines.number_in(b"method", index..=index)?;
        let params = self
            .lines
            .number_in(b"params", 0..=if is_run { 0 } else { PARAMS })?;
        let locals = self.lines.number_in(b"locals", params..=LOCALS)?;
        let count = self.lines.number_in(b"lines", 1..=METHOD_LINES)?;
        self.total_lines += u32::from(count);
        if self.total_lines > MODEL_LINES {
            return Err(self.lines.refused(Refusal::WrongNumber));
        }
        let code = self.code(usize::from(count), Limits { attrs, locals })?;
        Ok(Method {
            params,
            locals,
            code,
        })
    }

    fn code(&mut self, count: usize, limits: Limits) -> Result<Vec<Statement>, Verdict> {
        let mut code = Vec::with_capacity(count);
        let mut blocks = Blocks::default();
        for _ in 0..count {
            let value = self.lines.value(b"code")?;
            let statement = code::parse(value, limits, self.classes, &mut self.trees)
                .ok_or_else(|| self.lines.refused(Refusal::WrongCode))?;
            if let Statement::New {
                class, arguments, ..
            } = &statement
            {
                self.creations.push(Creation {
                    line: self.lines.number(),
                    class: *class,
                    arguments: arguments.count(),
                });
            }
            code.push(statement);
            blocks
                .enter(&mut code)
                .ok_or_else(|| self.lines.refused(Refusal::WrongBlocks))?;
        }
        let ends_in_return = matches!(code.last(), Some(Statement::Return(_)));
        if !ends_in_return || !blocks.are_closed() {
            return Err(self.lines.refused(Refusal::WrongBlocks));
        }
        Ok(code)
    }

    /// A `new` may name a class that comes later in the text, so its number of
    /// arguments is judged last.
    fn creations_are_fitting(&self, classes: &[Class]) -> Result<(), Verdict> {
        let misfit = self.creations.iter().find(|creation| {
            let class = &classes[usize::from(creation.class)];
            creation.arguments != usize::from(class.given)
        });
        match misfit {
            Some(creation) => Err(Verdict::at_line(Refusal::WrongCode, creation.line)),
            None => Ok(()),
        }
    }
}
