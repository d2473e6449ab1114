//! The rules: exec, arrive, bind, start and deliver. A rule makes all its tests
//! before it changes a row, so a refused one leaves the rows as they were.

use crate::code::Statement;
use crate::configuration::{Call, Configuration, Label, ObjectNumber, Stage, VARIABLES};
use crate::expression::{Arguments, ExpressionId, Surroundings, Variable};
use crate::model::Model;
use crate::refusal::Refusal;

/// A rule with the object or label that it is applied to.
#[derive(Clone, Copy, Debug, PartialEq, Eq)]
pub enum Instance {
    Exec(ObjectNumber),
    Arrive(Label),
    Bind(Label),
    Start(Label),
    Deliver(Label),
}

impl Instance {
    pub const EXEC: i32 = 1;
    pub const ARRIVE: i32 = 2;
    pub const BIND: i32 = 3;
    pub const START: i32 = 4;
    pub const DELIVER: i32 = 5;

    /// The rule instance that a choice names, if its kind and its object or
    /// label are in use.
    pub fn of(kind: i32, number: i32, configuration: &Configuration) -> Option<Instance> {
        match kind {
            Self::EXEC => configuration.object_number(number).map(Instance::Exec),
            Self::ARRIVE => configuration.label(number).map(Instance::Arrive),
            Self::BIND => configuration.label(number).map(Instance::Bind),
            Self::START => configuration.label(number).map(Instance::Start),
            Self::DELIVER => configuration.label(number).map(Instance::Deliver),
            _ => None,
        }
    }
}

/// One step on the rows of a configuration of this model.
pub fn step(
    model: &Model,
    configuration: &mut Configuration,
    kind: i32,
    number: i32,
) -> Result<(), Refusal> {
    match Instance::of(kind, number, configuration).ok_or(Refusal::NotInUse)? {
        Instance::Exec(object) => exec(model, configuration, object),
        Instance::Arrive(label) => arrive(configuration, label),
        Instance::Bind(label) => bind(model, configuration, label),
        Instance::Start(label) => start(model, configuration, label),
        Instance::Deliver(label) => deliver(configuration, label),
    }
}

fn arrive(configuration: &mut Configuration, label: Label) -> Result<(), Refusal> {
    let call = configuration.call_mut(label);
    demand(call.stage == Stage::Invoked, Refusal::NotInvoked)?;
    call.stage = Stage::Queued;
    Ok(())
}

fn bind(model: &Model, configuration: &mut Configuration, label: Label) -> Result<(), Refusal> {
    let call = configuration.call(label);
    demand(call.stage == Stage::Queued, Refusal::NotQueued)?;
    let class = &model.classes[usize::from(configuration.object(call.callee).class)];
    let is_there = class.binds(call.method, call.args).is_some();
    demand(is_there, Refusal::NoSuchMethod)?;
    configuration.call_mut(label).stage = Stage::Bound;
    Ok(())
}

fn start(model: &Model, configuration: &mut Configuration, label: Label) -> Result<(), Refusal> {
    let call = configuration.call(label);
    let callee = call.callee;
    demand(call.stage == Stage::Bound, Refusal::NotBound)?;
    let is_idle = configuration.object(callee).running.is_none();
    demand(is_idle, Refusal::ObjectBusy)?;
    demand(is_ready(model, configuration, label)?, Refusal::NotReady)?;
    configuration.call_mut(label).stage = Stage::Running;
    configuration.object_mut(callee).running = Some(label);
    Ok(())
}

/// A call is ready unless its line is an `await` whose guard is not enabled.
fn is_ready(model: &Model, configuration: &Configuration, label: Label) -> Result<bool, Refusal> {
    let frame = Frame::of(model, configuration, label)?;
    match frame.statement {
        Statement::Await(guard) => model
            .trees
            .enabled(guard, &frame.surroundings)
            .ok_or(Refusal::OutOfRange),
        _ => Ok(true),
    }
}

fn deliver(configuration: &mut Configuration, label: Label) -> Result<(), Refusal> {
    let call = configuration.call_mut(label);
    demand(call.stage == Stage::Answered, Refusal::NotAnswered)?;
    call.stage = Stage::ReplyIn;
    Ok(())
}

/// A call at its line, and what its expressions are worked out in.
struct Frame<'m, 'c> {
    model: &'m Model,
    statement: Statement,
    surroundings: Surroundings<'c>,
}

impl<'m, 'c> Frame<'m, 'c> {
    fn of(
        model: &'m Model,
        configuration: &'c Configuration,
        label: Label,
    ) -> Result<Frame<'m, 'c>, Refusal> {
        let call = configuration.call(label);
        let object = configuration.object(call.callee);
        let method = &model.classes[usize::from(object.class)].methods[usize::from(call.method)];
        let statement = method.code.get(usize::from(call.line));
        Ok(Frame {
            model,
            statement: *statement.ok_or(Refusal::PastTheEnd)?,
            surroundings: Surroundings {
                configuration,
                object_number: call.callee,
                object,
                call,
            },
        })
    }

    fn value(&self, expression: ExpressionId) -> Result<i32, Refusal> {
        let value = self.model.trees.value(expression, &self.surroundings);
        value.ok_or(Refusal::OutOfRange)
    }

    /// The arguments from variable 0 on; the text has tested that there are no
    /// more of them than variables.
    fn arguments(&self, list: Arguments) -> Result<[i32; VARIABLES], Refusal> {
        let mut values = [0; VARIABLES];
        for (value, argument) in values.iter_mut().zip(self.model.trees.arguments(list)) {
            *value = self.value(*argument)?;
        }
        Ok(values)
    }
}

/// The object's running call performs its line.
fn exec(
    model: &Model,
    configuration: &mut Configuration,
    object: ObjectNumber,
) -> Result<(), Refusal> {
    let running = configuration.object(object).running;
    let label = running.ok_or(Refusal::ObjectIdle)?;
    let frame = Frame::of(model, configuration, label)?;
    let next = frame.surroundings.call.line + 1;
    // The values are worked out first, over the rows as they are; then they are stored.
    let line = match frame.statement {
        Statement::Skip | Statement::Fi => next,
        Statement::If {
            condition,
            otherwise,
        } => jump(frame.value(condition)?, next, otherwise),
        Statement::While { condition, after } => jump(frame.value(condition)?, next, after),
        Statement::Else { after } => after,
        Statement::Od { back } => back,
        Statement::Set { target, value } => {
            let value = frame.value(value)?;
            store(configuration, label, target, value);
            next
        }
        Statement::New {
            target,
            class,
            arguments,
        } => {
            let attributes = frame.arguments(arguments)?;
            let created = create(model, configuration, class, attributes)?;
            store(configuration, label, target, created.cell());
            next
        }
        Statement::Call {
            target,
            callee,
            method,
            arguments,
        } => {
            let callee = frame.value(callee)?;
            let locals = frame.arguments(arguments)?;
            let args = arguments.count() as u8;
            let issued = issue(configuration, object, callee, method, args, locals)?;
            store(configuration, label, target, issued.cell());
            next
        }
        Statement::Get {
            label: named,
            target,
        } => {
            let named = frame.surroundings.variable(named);
            let value = take(configuration, object, named)?;
            store(configuration, label, target, value);
            next
        }
        Statement::Await(guard) => {
            let enabled = model.trees.enabled(guard, &frame.surroundings);
            if enabled.ok_or(Refusal::OutOfRange)? {
                configuration.call_mut(label).cleared = false;
                next
            } else {
                suspend(configuration, object, label);
                return Ok(());
            }
        }
        Statement::Return(value) => {
            let value = frame.value(value)?;
            finish(configuration, object, label, value);
            return Ok(());
        }
    };
    configuration.call_mut(label).line = line;
    Ok(())
}

fn create(
    model: &Model,
    configuration: &mut Configuration,
    class: u8,
    attributes: [i32; VARIABLES],
) -> Result<ObjectNumber, Refusal> {
    let has_run = model.classes[usize::from(class)].run;
    let has_label = !has_run || configuration.has_call_row();
    demand(configuration.has_object_row(), Refusal::ObjectRowsFull)?;
    demand(has_label, Refusal::CallRowsFull)?;
    let created = configuration.add_object(class, attributes);
    if has_run {
        configuration.add_run(created);
    }
    Ok(created)
}

fn issue(
    configuration: &mut Configuration,
    caller: ObjectNumber,
    callee: i32,
    method: u8,
    args: u8,
    locals: [i32; VARIABLES],
) -> Result<Label, Refusal> {
    let callee = configuration.object_number(callee);
    let callee = callee.ok_or(Refusal::CalleeIsNoObject)?;
    demand(configuration.has_call_row(), Refusal::CallRowsFull)?;
    Ok(configuration.add_call(Call {
        stage: Stage::Invoked,
        caller: Some(caller),
        callee,
        method,
        args,
        line: 0,
        cleared: false,
        value: 0,
        locals,
    }))
}

/// Takes the reply to a call of this object; the value stays in the row, and the
/// stage says that the reply is gone.
fn take(
    configuration: &mut Configuration,
    object: ObjectNumber,
    named: i32,
) -> Result<i32, Refusal> {
    let reply = configuration.reply(named, object);
    let answered = configuration.call_mut(reply.ok_or(Refusal::ReplyNotIn)?);
    answered.stage = Stage::Taken;
    Ok(answered.value)
}

fn suspend(configuration: &mut Configuration, object: ObjectNumber, label: Label) {
    let call = configuration.call_mut(label);
    call.stage = Stage::Bound;
    call.cleared = true;
    configuration.object_mut(object).running = None;
}

/// Where nobody called, nobody takes the reply.
fn finish(configuration: &mut Configuration, object: ObjectNumber, label: Label, value: i32) {
    let call = configuration.call_mut(label);
    call.value = value;
    call.stage = match call.caller {
        Some(_) => Stage::Answered,
        None => Stage::Taken,
    };
    configuration.object_mut(object).running = None;
}

/// An expression is true when it is not 0.
fn jump(condition: i32, to_true: u8, to_false: u8) -> u8 {
    if condition != 0 {
        to_true
    } else {
        to_false
    }
}

fn store(configuration: &mut Configuration, label: Label, variable: Variable, value: i32) {
    match variable {
        Variable::Attribute(index) => {
            let callee = configuration.call(label).callee;
            configuration.object_mut(callee).attributes[usize::from(index)] = value;
        }
        Variable::Local(index) => {
            configuration.call_mut(label).locals[usize::from(index)] = value;
        }
    }
}

fn demand(condition: bool, refusal: Refusal) -> Result<(), Refusal> {
    if condition {
        Ok(())
    } else {
        Err(refusal)
    }
}
