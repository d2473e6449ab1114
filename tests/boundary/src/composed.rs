//! Configurations of a model that need not be reached by any run: whatever rows the
//! conditions of document 01 allow.

mod calls;

use independent::configuration::{CALL_ROWS, CELLS, OBJECT_ROWS};
use independent::generate::Random;
use independent::model::{Class, Model};

use crate::places::{object_cell, ATTRIBUTES, CALLS, CLASS, OBJECTS};

/// Values at the ends of the range, and where sums and products leave it.
pub const EDGES: [i32; 14] = [
    i32::MIN,
    i32::MIN + 1,
    i32::MAX,
    i32::MAX - 1,
    -1,
    -2,
    46_340,
    46_341,
    -46_341,
    65_536,
    1 << 30,
    256,
    257,
    129,
];

/// A line of a model.
#[derive(Clone, Copy, Debug)]
pub struct Place {
    pub class: usize,
    pub method: usize,
    pub line: usize,
}

/// Every line of a model.
pub fn places(model: &Model) -> Vec<Place> {
    let mut places = Vec::new();
    for (class, of_class) in model.classes.iter().enumerate() {
        for (method, of_method) in of_class.methods.iter().enumerate() {
            let lines = 0..of_method.code.len();
            places.extend(lines.map(|line| Place {
                class,
                method,
                line,
            }));
        }
    }
    places
}

/// A configuration in which some object runs a call at this line, and that object.
pub fn running_at(random: &mut Random, model: &Model, place: Place) -> (Vec<i32>, i32) {
    let objects = rows(random, OBJECT_ROWS);
    let calls = rows(random, CALL_ROWS);
    let object = random.between(1, objects);
    let label = random.between(1, calls);
    let mut composer = Composer {
        random,
        model,
        objects,
        calls,
        object,
        cells: vec![0; CELLS],
    };
    composer.cells[OBJECTS] = objects as i32;
    composer.cells[CALLS] = calls as i32;
    for other in 1..=objects {
        let class = match other == object {
            true => place.class,
            false => composer.random.below(model.classes.len()),
        };
        composer.idle(other, class);
    }
    composer.run_at(label, place);
    for other in (1..=calls).filter(|other| *other != label) {
        composer.call(other);
    }
    (composer.cells, object as i32)
}

/// So many rows in use: few, any number, or all.
fn rows(random: &mut Random, most: usize) -> usize {
    match random.below(4) {
        0 | 1 => random.between(1, 5),
        2 => random.between(1, most),
        _ => most,
    }
}

struct Composer<'c> {
    random: &'c mut Random,
    model: &'c Model,
    objects: usize,
    calls: usize,
    /// The object that runs at the place.
    object: usize,
    cells: Vec<i32>,
}

impl<'c> Composer<'c> {
    /// A label or an object, in use or nearly, a small number, or one at the edge.
    fn value(&mut self) -> i32 {
        match self.random.below(10) {
            0..=3 => self.random.below(self.calls + 2) as i32,
            4 | 5 => self.random.below(self.objects + 2) as i32,
            6 | 7 => self.random.below(6) as i32 - 2,
            8 => *self.random.pick(&EDGES),
            _ => self.random.bits() as i32,
        }
    }

    fn values(&mut self, from: usize, count: u8) {
        for place in from..from + usize::from(count) {
            self.cells[place] = self.value();
        }
    }

    /// An object of this class that runs nothing.
    fn idle(&mut self, object: usize, class: usize) {
        self.cells[object_cell(object, CLASS)] = class as i32;
        let attrs = self.model.classes[class].attrs;
        self.values(object_cell(object, ATTRIBUTES), attrs);
    }

    fn class_of(&self, object: usize) -> &'c Class {
        &self.model.classes[self.cells[object_cell(object, CLASS)] as usize]
    }
}
