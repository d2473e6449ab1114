//! The conditions under which rows are a configuration of a model.

use crate::code::Statement;
use crate::configuration::{are_zero, Call, Configuration, Label, Object, ObjectNumber, Stage};
use crate::model::{Class, Model};

impl Configuration {
    /// Whether these rows are a configuration of the model.
    pub fn is_of(&self, model: &Model) -> bool {
        let mut objects = self.numbered_objects();
        let mut calls = self.labelled_calls();
        objects.all(|(number, object)| self.object_is_of(model, number, object))
            && calls.all(|(label, call)| self.call_is_of(model, label, call))
    }

    fn object_is_of(&self, model: &Model, number: ObjectNumber, object: &Object) -> bool {
        let Some(class) = model.classes.get(usize::from(object.class)) else {
            return false;
        };
        let runs_its_own = object.running.is_none_or(|label| {
            let call = self.call(label);
            call.stage == Stage::Running && call.callee == number
        });
        runs_its_own && are_zero(&object.attributes[usize::from(class.attrs)..])
    }

    fn call_is_of(&self, model: &Model, label: Label, call: &Call) -> bool {
        let callee = self.object(call.callee);
        let Some(class) = model.classes.get(usize::from(callee.class)) else {
            return false;
        };
        let is_running_there = call.stage != Stage::Running || callee.running == Some(label);
        let has_its_value = call.value == 0 || call.stage >= Stage::Answered;
        let is_at_its_place = match call.stage {
            Stage::Invoked | Stage::Queued => call.is_unbound(),
            _ => call.is_bound_in(class),
        };
        is_running_there && has_its_value && is_at_its_place && call.has_its_caller(class)
    }
}

impl Call {
    /// Nobody calls method 0 of a class with run 1, and nobody is answered.
    fn has_its_caller(&self, class: &Class) -> bool {
        let may_be_nobody = matches!(self.stage, Stage::Bound | Stage::Running | Stage::Taken);
        self.caller.is_some() || (may_be_nobody && self.method == 0 && class.run)
    }

    /// Stages 1 and 2: there are arguments, and nothing has been performed.
    fn is_unbound(&self) -> bool {
        self.line == 0 && !self.cleared && are_zero(&self.locals[usize::from(self.args)..])
    }

    /// From stage 3 on: a place in a method of the callee's class.
    fn is_bound_in(&self, class: &Class) -> bool {
        let Some(method) = class.binds(self.method, self.args) else {
            return false;
        };
        let Some(statement) = method.code.get(usize::from(self.line)) else {
            return false;
        };
        are_zero(&self.locals[usize::from(method.locals)..]) && self.stands_at(statement)
    }

    fn stands_at(&self, statement: &Statement) -> bool {
        let is_await = matches!(statement, Statement::Await(_));
        match self.stage {
            Stage::Invoked | Stage::Queued => false,
            // A call waits in stage 3 at its first line, or where it was suspended.
            Stage::Bound if !self.cleared => self.line == 0,
            Stage::Bound => is_await,
            Stage::Running => is_await || !self.cleared,
            Stage::Answered | Stage::ReplyIn | Stage::Taken => {
                !self.cleared && matches!(statement, Statement::Return(_))
            }
        }
    }
}
