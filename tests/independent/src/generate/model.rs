//! Random model texts.

use std::fmt::{Display, Write};

use crate::text::{Limits, TEXT_BYTES};

use super::random::Random;
use super::{method, terms};

/// All `lines=` together.
const MODEL_LINES: usize = 512;

/// What is decided about every class before code is written, so that code can
/// create and call with the right arguments.
pub(super) struct Plan {
    pub classes: Vec<ClassPlan>,
}

pub(super) struct ClassPlan {
    pub attrs: usize,
    /// What the arguments of its creation are meant to be.
    pub given: Vec<Role>,
    pub run: bool,
    pub methods: Vec<MethodPlan>,
}

pub(super) struct MethodPlan {
    /// What the arguments of a call are meant to be.
    pub params: Vec<Role>,
    pub locals: usize,
    /// Neither calls nor waits, so that whoever calls it gets an answer.
    pub is_leaf: bool,
}

/// What a variable is believed to hold. Nothing depends on its being so; the
/// belief only makes a run get further.
#[derive(Clone, Copy, PartialEq, Eq)]
pub(super) enum Role {
    Number,
    Object(usize),
    Label,
}

/// A valid model text.
pub fn text(random: &mut Random) -> Vec<u8> {
    let mut scale = random.weighted(&[0, 45, 35, 15, 5]);
    loop {
        let plan = plan(random, scale);
        let mut methods_left: usize = plan.classes.iter().map(|class| class.methods.len()).sum();
        let mut lines_left = MODEL_LINES;
        let mut codes = Vec::new();
        for (class, class_plan) in plan.classes.iter().enumerate() {
            for method in 0..class_plan.methods.len() {
                // Each method still to come needs its `return`.
                methods_left -= 1;
                let room = method_room(random, scale).min(lines_left - methods_left);
                let code = method::code(random, &plan, class, method, room);
                lines_left -= code.len();
                codes.push(code);
            }
        }
        let text = write(&plan, &codes);
        if text.len() <= TEXT_BYTES {
            return text;
        }
        scale = scale.saturating_sub(1);
    }
}

/// A text that is valid but perhaps for the sum of its `lines=`, which is this
/// one, or 2,000 where it is more.
pub fn long_text(random: &mut Random, lines: usize) -> Vec<u8> {
    let mut left = lines.clamp(1, 2_000);
    let mut codes = Vec::new();
    while left > 0 {
        let count = random.between(61, 64).min(left);
        let mut code = vec!["skip".to_string(); count];
        code[count - 1] = "return 0".to_string();
        codes.push(code);
        left -= count;
    }
    let mut classes = Vec::new();
    let mut methods = codes.len();
    while methods > 0 {
        let count = methods.min(8);
        classes.push(ClassPlan {
            attrs: 0,
            given: Vec::new(),
            run: classes.is_empty(),
            methods: (0..count)
                .map(|_| MethodPlan {
                    params: Vec::new(),
                    locals: 0,
                    is_leaf: true,
                })
                .collect(),
        });
        methods -= count;
    }
    write(&Plan { classes }, &codes)
}

/// A valid text close to the longest there is, its lines evenly long.
pub fn large_text(random: &mut Random) -> Vec<u8> {
    const LONGEST: usize = 50;
    let limits = Limits {
        attrs: 8,
        locals: 8,
    };
    let mut codes = Vec::new();
    for _ in 0..8 {
        let mut code = Vec::new();
        for _ in 0..63 {
            let mut sum = terms::expression(random, limits, 4);
            while sum.len() + 8 <= LONGEST {
                let join = *random.pick(&['+', '-', '*']);
                let next = terms::expression(random, limits, 5);
                sum += &format!("{join}({next})");
            }
            let target = random.pick(&["a0", "a7", "v0", "v7"]);
            code.push(format!("set {target} ({sum})"));
        }
        code.push("return a0".to_string());
        codes.push(code);
    }
    let methods = (0..codes.len()).map(|_| MethodPlan {
        params: Vec::new(),
        locals: 8,
        is_leaf: true,
    });
    let class = ClassPlan {
        attrs: 8,
        given: Vec::new(),
        run: true,
        methods: methods.collect(),
    };
    let classes = vec![class];
    write(&Plan { classes }, &codes)
}

fn method_room(random: &mut Random, scale: usize) -> usize {
    match scale {
        0 => 1,
        1 => random.between(3, 12),
        2 => random.between(2, 20),
        3 => random.between(1, 30),
        _ => random.between(1, 64),
    }
}

fn plan(random: &mut Random, scale: usize) -> Plan {
    let count = match scale {
        0 | 1 => random.between(1, 3),
        2 => random.between(2, 5),
        3 => random.between(1, 8),
        _ => random.between(1, 16),
    };
    let most_methods = if scale > 2 { 8 } else { 3 };
    Plan {
        classes: (0..count)
            .map(|class| class_plan(random, class, count, most_methods))
            .collect(),
    }
}

fn class_plan(random: &mut Random, class: usize, classes: usize, most: usize) -> ClassPlan {
    let attrs = if random.percent(10) {
        random.between(0, 8)
    } else {
        random.between(1, 4)
    };
    let run = class == 0 || random.percent(35);
    let fewest = usize::from(run || random.percent(90));
    let methods = random.between(fewest, most);
    let given = if class == 0 {
        0
    } else {
        random.between(0, attrs)
    };
    ClassPlan {
        attrs,
        given: roles(random, given, classes),
        run,
        methods: (0..methods)
            .map(|method| {
                let params = match (run, method) {
                    (true, 0) => 0,
                    _ => random.weighted(&[30, 35, 20, 10, 5]),
                };
                let locals = if random.percent(20) {
                    random.between(params, 8)
                } else {
                    random.between(params.max(1), params.max(4))
                };
                MethodPlan {
                    params: roles(random, params, classes),
                    locals,
                    is_leaf: !(run && method == 0) && random.percent(50),
                }
            })
            .collect(),
    }
}

fn roles(random: &mut Random, count: usize, classes: usize) -> Vec<Role> {
    (0..count)
        .map(|_| match random.weighted(&[60, 32, 8]) {
            0 => Role::Number,
            1 => Role::Object(random.below(classes)),
            _ => Role::Label,
        })
        .collect()
}

fn write(plan: &Plan, codes: &[Vec<String>]) -> Vec<u8> {
    let mut text = Text::default();
    let mut codes = codes.iter();
    text.line("creol", 1);
    text.line("classes", plan.classes.len());
    for (index, class) in plan.classes.iter().enumerate() {
        text.line("class", index);
        text.line("attrs", class.attrs);
        text.line("given", class.given.len());
        text.line("run", usize::from(class.run));
        text.line("methods", class.methods.len());
        for (index, method) in class.methods.iter().enumerate() {
            let code = codes.next().map_or(&[][..], Vec::as_slice);
            text.line("method", index);
            text.line("params", method.params.len());
            text.line("locals", method.locals);
            text.line("lines", code.len());
            for statement in code {
                text.line("code", statement);
            }
        }
    }
    text.written.into_bytes()
}

#[derive(Default)]
struct Text {
    written: String,
}

impl Text {
    fn line(&mut self, key: &str, value: impl Display) {
        // Writing to a string does not fail.
        let _ = writeln!(self.written, "{key}={value}");
    }
}
