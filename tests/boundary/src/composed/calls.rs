//! The calls of a composed configuration.

use independent::code::Statement;
use independent::configuration::Stage;
use independent::model::Method;

use super::{Composer, Place};
use crate::places::{
    call_cell, object_cell, ARGS, CALLEE, CALLER, CLEARED, LINE, LOCALS, METHOD, RUNNING, STAGE,
    VALUE,
};

impl Composer<'_> {
    /// The call that stands at the place.
    pub fn run_at(&mut self, label: usize, place: Place) {
        self.bound_at(label, self.object, place.method, Stage::Running, place.line);
    }

    /// A call of any stage that can stand there; rather often its reply is in.
    pub fn call(&mut self, label: usize) {
        let callee = self.random.between(1, self.objects);
        let is_idle = self.cells[object_cell(callee, RUNNING)] == 0;
        let methods = &self.class_of(callee).methods;
        let stage = 1 + self.random.weighted(&[1, 1, 1, 1, 1, 3, 1]);
        let stage = Stage::of(stage as i32).expect("a stage");
        match stage {
            Stage::Invoked | Stage::Queued => self.unbound(label, callee, stage),
            _ if methods.is_empty() => self.unbound(label, callee, Stage::Queued),
            Stage::Running if !is_idle => self.unbound(label, callee, Stage::Invoked),
            _ => {
                let method = self.random.below(methods.len());
                let line = self.line(&methods[method], stage);
                self.bound_at(label, callee, method, stage, line);
            }
        }
    }

    /// Some object; rather often the one that runs at the place, so that it has replies.
    fn caller(&mut self) -> usize {
        match self.random.percent(40) {
            true => self.object,
            false => self.random.between(1, self.objects),
        }
    }

    /// A call of a method that need not exist.
    fn unbound(&mut self, label: usize, callee: usize, stage: Stage) {
        let caller = self.caller();
        let methods = &self.class_of(callee).methods;
        let method = match self.random.percent(70) {
            true => self.random.below(methods.len()),
            false => self.random.below(8),
        };
        let args = match methods.get(method) {
            Some(method) if self.random.percent(70) => usize::from(method.params),
            _ => self.random.below(5),
        };
        self.row(label, stage, [caller, callee, method, args]);
        self.values(call_cell(label, LOCALS), args as u8);
    }

    /// A line at which a call of this stage can be.
    fn line(&mut self, method: &Method, stage: Stage) -> usize {
        let is_such = |line: &usize| match stage {
            Stage::Bound => is_await(&method.code[*line]),
            Stage::Running => true,
            _ => matches!(method.code[*line], Statement::Return(_)),
        };
        let lines: Vec<usize> = (0..method.code.len()).filter(is_such).collect();
        match lines.is_empty() {
            true => 0,
            false => *self.random.pick(&lines),
        }
    }

    fn bound_at(&mut self, label: usize, callee: usize, index: usize, stage: Stage, line: usize) {
        let class = self.class_of(callee);
        let method = &class.methods[index];
        let may_be_nobodys = matches!(stage, Stage::Bound | Stage::Running | Stage::Taken)
            && index == 0
            && class.run;
        let caller = match may_be_nobodys && self.random.percent(50) {
            true => 0,
            false => self.caller(),
        };
        let args = usize::from(method.params);
        self.row(label, stage, [caller, callee, index, args]);
        self.values(call_cell(label, LOCALS), method.locals);
        // In stage 3 a call that has not waited stands at its first line.
        let may_be_cleared = stage <= Stage::Running && is_await(&method.code[line]);
        let is_cleared = may_be_cleared && self.random.percent(70);
        let is_first = stage == Stage::Bound && !is_cleared;
        self.cells[call_cell(label, LINE)] = if is_first { 0 } else { line as i32 };
        self.cells[call_cell(label, CLEARED)] = i32::from(is_cleared);
        if stage == Stage::Running {
            self.cells[object_cell(callee, RUNNING)] = label as i32;
        }
        if stage >= Stage::Answered {
            self.cells[call_cell(label, VALUE)] = self.value();
        }
    }

    fn row(&mut self, label: usize, stage: Stage, numbers: [usize; 4]) {
        self.cells[call_cell(label, STAGE)] = stage as i32;
        for (field, number) in [CALLER, CALLEE, METHOD, ARGS].into_iter().zip(numbers) {
            self.cells[call_cell(label, field)] = number as i32;
        }
    }
}

fn is_await(statement: &Statement) -> bool {
    matches!(statement, Statement::Await(_))
}
