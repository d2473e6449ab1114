//! Random code of one method.

use crate::expression::Limits;
use crate::text::LINE_BYTES;

use super::model::{Plan, Role};
use super::random::Random;
use super::terms::{expression, guard, variable};

/// What is left of a line for its longest part, words and variables aside.
const TERM_BYTES: usize = LINE_BYTES - 25;
/// So many bytes for each argument of a list.
const ARGUMENT_BYTES: usize = 11;
const DEEPEST: usize = 8;

/// At most `room` lines, but always the `return` at the end.
pub(super) fn code(
    random: &mut Random,
    plan: &Plan,
    class: usize,
    method: usize,
    room: usize,
) -> Vec<String> {
    let class_plan = &plan.classes[class];
    let method_plan = &class_plan.methods[method];
    let limits = Limits {
        attrs: class_plan.attrs as u8,
        locals: method_plan.locals as u8,
    };
    let mut writer = Writer {
        random,
        plan,
        class,
        is_leaf: method_plan.is_leaf,
        limits,
        code: Vec::new(),
        attributes: beliefs(&class_plan.given),
        locals: beliefs(&method_plan.params),
    };
    let room = match method_plan.is_leaf {
        true => room.saturating_sub(1).min(6),
        false => room.saturating_sub(1),
    };
    let is_run = class_plan.run && method == 0;
    if is_run {
        writer.opening(room);
    }
    if writer.random.percent(8) {
        writer.tower(room);
    }
    writer.block(room, DEEPEST);
    let value = writer.value();
    writer.push(format!("return {value}"));
    writer.code
}

fn beliefs(known: &[Role]) -> [Role; 8] {
    let mut roles = [Role::Number; 8];
    roles[..known.len()].copy_from_slice(known);
    roles
}

struct Writer<'r> {
    random: &'r mut Random,
    plan: &'r Plan,
    class: usize,
    is_leaf: bool,
    limits: Limits,
    code: Vec<String>,
    attributes: [Role; 8],
    locals: [Role; 8],
}

impl Writer<'_> {
    fn push(&mut self, line: String) {
        self.code.push(line);
    }

    fn line(&mut self, line: &str) {
        self.push(line.to_string());
    }

    /// A few objects and exchanges at once, so that a run has something to do.
    fn opening(&mut self, room: usize) {
        for _ in 0..self.random.between(0, 2) {
            if self.code.len() < room {
                self.create();
            }
        }
        for _ in 0..self.random.between(0, 2) {
            if self.code.len() + 3 <= room {
                self.exchange();
            }
        }
    }

    /// Blocks as deep as they may be, with next to nothing inside.
    fn tower(&mut self, room: usize) {
        let mut closing = Vec::new();
        while closing.len() < DEEPEST && self.code.len() + 2 * closing.len() + 3 <= room {
            let condition = self.random.pick(&["1", "0", "1", "self"]).to_string();
            if self.random.percent(70) {
                self.push(format!("if {condition}"));
                closing.push(["else", "fi"].as_slice());
            } else {
                self.line("while 0");
                closing.push(["od"].as_slice());
            }
        }
        for lines in closing.into_iter().rev() {
            lines.iter().for_each(|line| self.line(line));
        }
    }

    /// Statements until the code has `end` lines or it is enough; `depth` blocks
    /// may still be opened.
    fn block(&mut self, end: usize, depth: usize) {
        while self.code.len() < end && self.random.percent(92) {
            let room = end - self.code.len();
            let weights = match self.is_leaf {
                true => [8, 50, 0, 0, 0, 0, 0, 0, 20, 10, 0, 0, 3],
                false => [3, 15, 8, 14, 22, 7, 7, 5, 9, 8, 3, 1, 1],
            };
            match self.random.weighted(&weights) {
                0 => self.line("skip"),
                1 => self.set(),
                2 => self.create(),
                3 => self.call(),
                4 if room >= 3 => self.exchange(),
                5 => self.take(),
                6 => self.await_reply(),
                7 => self.await_any(),
                8 if room >= 3 && depth > 0 => self.choose(end, depth - 1),
                9 if room >= 5 && depth > 0 => self.count(end, depth - 1),
                10 if room >= 3 && depth > 0 => self.repeat(depth),
                11 => self.wild_call(),
                12 => {
                    let value = self.value();
                    self.push(format!("return {value}"));
                }
                _ => self.set(),
            }
        }
    }

    fn choose(&mut self, end: usize, depth: usize) {
        let condition = self.condition();
        let first_end = self.code.len() + 1 + self.random.below(end - self.code.len() - 2);
        self.push(format!("if {condition}"));
        self.block(first_end, depth);
        self.line("else");
        self.block(end - 1, depth);
        self.line("fi");
    }

    /// A loop that ends, unless its body plays with the counter.
    fn count(&mut self, end: usize, depth: usize) {
        let Some(counter) = variable(self.random, self.limits) else {
            return self.line("skip");
        };
        let turns = self.random.between(1, 6);
        self.learn(&counter, Role::Number);
        self.push(format!("set {counter} 0"));
        self.push(format!("while {counter}<{turns}"));
        let body_end = self.code.len() + self.random.below(end - self.code.len() - 1);
        self.block(body_end, depth);
        self.push(format!("set {counter} {counter}+1"));
        self.line("od");
    }

    /// A loop without an end, which fills the rows.
    fn repeat(&mut self, depth: usize) {
        let condition = self.random.pick(&["1", "self", "1=1"]).to_string();
        self.push(format!("while {condition}"));
        match self.random.below(3) {
            0 => self.create(),
            1 => self.block(self.code.len() + 1, depth - 1),
            _ => self.call(),
        }
        self.line("od");
    }

    fn set(&mut self) {
        let Some(target) = variable(self.random, self.limits) else {
            return self.line("skip");
        };
        if self.random.percent(15) {
            // A label or an object is handed on.
            if let Some(source) = variable(self.random, self.limits) {
                let role = self.believed(&source);
                self.push(format!("set {target} {source}"));
                return self.learn(&target, role);
            }
        }
        let value = self.value();
        self.push(format!("set {target} {value}"));
        self.learn(&target, Role::Number);
    }

    fn create(&mut self) {
        let Some(target) = variable(self.random, self.limits) else {
            return self.line("skip");
        };
        // Mostly a later class, so that creations come to an end.
        let classes = self.plan.classes.len();
        let class = match self.class + 1 < classes && self.random.percent(92) {
            true => self.random.between(self.class + 1, classes - 1),
            false if self.random.percent(70) => return self.set(),
            false => self.random.below(classes),
        };
        let arguments = self.arguments(&self.plan.classes[class].given);
        self.push(format!("new {target} {class}{arguments}"));
        self.learn(&target, Role::Object(class));
    }

    /// A call that fits, to an object that is known; any call where none is.
    fn call(&mut self) {
        let Some(target) = variable(self.random, self.limits) else {
            return self.line("skip");
        };
        let mut callees = vec![("self".to_string(), self.class)];
        for name in self.names() {
            if let Role::Object(class) = self.believed(&name) {
                callees.extend([(name.clone(), class), (name, class)]);
            }
        }
        let (callee, class) = self.random.pick(&callees).clone();
        let methods = &self.plan.classes[class].methods;
        let leaves: Vec<usize> = (0..methods.len())
            .filter(|method| methods[*method].is_leaf)
            .collect();
        let method = match leaves.is_empty() {
            _ if methods.is_empty() => return self.wild_call(),
            false if self.random.percent(80) => *self.random.pick(&leaves),
            _ => self.random.below(methods.len()),
        };
        let arguments = self.arguments(&methods[method].params);
        self.push(format!("call {target} {callee} {method}{arguments}"));
        self.learn(&target, Role::Label);
    }

    /// A call of nobody knows whom, of a method that may not exist.
    fn wild_call(&mut self) {
        let Some(target) = variable(self.random, self.limits) else {
            return self.line("skip");
        };
        let callee = match self.random.below(6) {
            0 => "0".to_string(),
            1 => "caller".to_string(),
            2 => self.random.below(40).to_string(),
            3 => expression(self.random, self.limits, 20),
            _ => "self".to_string(),
        };
        let method = self.random.below(8);
        let count = self.random.below(5);
        let arguments = self.arguments(&[Role::Number; 4][..count]);
        self.push(format!("call {target} {callee} {method}{arguments}"));
        self.learn(&target, Role::Label);
    }

    /// A call, its await and its get.
    fn exchange(&mut self) {
        self.call();
        let issued = self.code.last().and_then(|line| line.strip_prefix("call "));
        let Some(label) = issued.map(|rest| rest[..2].to_string()) else {
            return;
        };
        self.await_label(&label);
        self.take_label(&label);
    }

    fn take(&mut self) {
        match self.label() {
            Some(label) => self.take_label(&label),
            None => self.set(),
        }
    }

    fn take_label(&mut self, label: &str) {
        let target = variable(self.random, self.limits).unwrap_or_else(|| label.to_string());
        self.push(format!("get {label} {target}"));
        // A second get would block the object for good; a few of them are enough.
        if self.random.percent(90) {
            self.learn(label, Role::Number);
        }
        self.learn(&target, Role::Number);
    }

    fn await_reply(&mut self) {
        match self.label() {
            Some(label) => self.await_label(&label),
            None => self.await_any(),
        }
    }

    fn await_label(&mut self, label: &str) {
        let more = if self.random.percent(15) {
            let join = *self.random.pick(&['|', '|', '&']);
            format!("{join}{}", guard(self.random, self.limits, 40))
        } else {
            String::new()
        };
        self.push(format!("await {label}?{more}"));
    }

    fn await_any(&mut self) {
        let guard = match self.random.below(4) {
            0 | 1 => "wait".to_string(),
            2 => format!("wait|{}", guard(self.random, self.limits, TERM_BYTES - 5)),
            _ => guard(self.random, self.limits, TERM_BYTES),
        };
        self.push(format!("await {guard}"));
    }

    fn condition(&mut self) -> String {
        expression(self.random, self.limits, TERM_BYTES)
    }

    fn value(&mut self) -> String {
        match self.random.below(100) {
            // At the ends of the range, from which a later sum leaves it.
            0..=2 => "2147483647".to_string(),
            3 => "0-2147483647-1".to_string(),
            4 => "46340*46340".to_string(),
            5 => "46341*46341".to_string(),
            _ => expression(self.random, self.limits, TERM_BYTES),
        }
    }

    /// The list with its leading space, mostly in the roles asked for.
    fn arguments(&mut self, roles: &[Role]) -> String {
        let arguments: Vec<String> = roles.iter().map(|role| self.argument(*role)).collect();
        match arguments.is_empty() {
            true => String::new(),
            false => format!(" {}", arguments.join(",")),
        }
    }

    fn argument(&mut self, role: Role) -> String {
        let mut fitting: Vec<String> = self
            .names()
            .into_iter()
            .filter(|name| self.believed(name) == role)
            .collect();
        if role == Role::Object(self.class) {
            fitting.push("self".to_string());
        }
        if fitting.is_empty()
            || self
                .random
                .percent(if role == Role::Number { 50 } else { 5 })
        {
            return expression(self.random, self.limits, ARGUMENT_BYTES);
        }
        self.random.pick(&fitting).clone()
    }

    /// A variable believed to hold a label, rarely another; None where none is believed to.
    fn label(&mut self) -> Option<String> {
        let labels: Vec<String> = self
            .names()
            .into_iter()
            .filter(|name| self.believed(name) == Role::Label)
            .collect();
        match labels.is_empty() {
            _ if self.random.percent(3) => variable(self.random, self.limits),
            true => None,
            false => Some(self.random.pick(&labels).clone()),
        }
    }

    fn names(&self) -> Vec<String> {
        let attributes = (0..self.limits.attrs).map(|index| format!("a{index}"));
        let locals = (0..self.limits.locals).map(|index| format!("v{index}"));
        attributes.chain(locals).collect()
    }

    fn believed(&self, name: &str) -> Role {
        let index = usize::from(name.as_bytes()[1] - b'0');
        match name.starts_with('a') {
            true => self.attributes[index],
            false => self.locals[index],
        }
    }

    fn learn(&mut self, name: &str, role: Role) {
        let index = usize::from(name.as_bytes()[1] - b'0');
        match name.starts_with('a') {
            true => self.attributes[index] = role,
            false => self.locals[index] = role,
        }
    }
}
