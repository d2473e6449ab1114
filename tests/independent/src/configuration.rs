//! The configuration: rows of objects and calls, decoded from cells and encoded
//! back.

use crate::code::{CALL_ARGUMENTS, METHOD_INDICES};

pub const OBJECT_ROWS: usize = 32;
pub const CALL_ROWS: usize = 128;
/// The cells before the rows: objects, and calls issued.
const HEADER_CELLS: usize = 2;
const OBJECT_CELLS: usize = 10;
const CALL_CELLS: usize = 16;
const CALLS_FROM: usize = HEADER_CELLS + OBJECT_ROWS * OBJECT_CELLS;
/// The cells of a configuration.
pub const CELLS: usize = CALLS_FROM + CALL_ROWS * CALL_CELLS;

/// Attributes of an object, and locals of a call.
pub const VARIABLES: usize = 8;

/// An object in use, counted from 1. Object 0 is nobody: `None` of an option.
#[derive(Clone, Copy, Debug, PartialEq, Eq)]
pub struct ObjectNumber(u8);

/// A call issued, counted from 1, apart from the objects.
#[derive(Clone, Copy, Debug, PartialEq, Eq)]
pub struct Label(u8);

impl ObjectNumber {
    pub fn cell(self) -> i32 {
        i32::from(self.0)
    }

    pub fn cell_of(object: Option<ObjectNumber>) -> i32 {
        object.map_or(0, ObjectNumber::cell)
    }

    fn row(self) -> usize {
        usize::from(self.0) - 1
    }
}

impl Label {
    pub fn cell(self) -> i32 {
        i32::from(self.0)
    }

    pub fn cell_of(label: Option<Label>) -> i32 {
        label.map_or(0, Label::cell)
    }

    fn row(self) -> usize {
        usize::from(self.0) - 1
    }
}

/// How far a call has come; the discriminant is its cell.
#[derive(Clone, Copy, Debug, PartialEq, Eq, PartialOrd, Ord)]
pub enum Stage {
    Invoked = 1,
    Queued = 2,
    /// Bound, or suspended at an `await`.
    Bound = 3,
    Running = 4,
    Answered = 5,
    ReplyIn = 6,
    Taken = 7,
}

impl Stage {
    pub fn of(cell: i32) -> Option<Stage> {
        Some(match cell {
            1 => Stage::Invoked,
            2 => Stage::Queued,
            3 => Stage::Bound,
            4 => Stage::Running,
            5 => Stage::Answered,
            6 => Stage::ReplyIn,
            7 => Stage::Taken,
            _ => return None,
        })
    }
}

#[derive(Clone, Debug, PartialEq, Eq)]
pub struct Object {
    pub class: u8,
    pub running: Option<Label>,
    pub attributes: [i32; VARIABLES],
}

#[derive(Clone, Debug, PartialEq, Eq)]
pub struct Call {
    pub stage: Stage,
    pub caller: Option<ObjectNumber>,
    pub callee: ObjectNumber,
    pub method: u8,
    pub args: u8,
    pub line: u8,
    pub cleared: bool,
    pub value: i32,
    pub locals: [i32; VARIABLES],
}

/// Row i, from 0, is object i+1 or label i+1.
#[derive(Clone, Debug, PartialEq, Eq)]
pub struct Configuration {
    objects: Vec<Object>,
    calls: Vec<Call>,
}

impl Configuration {
    /// One object of class 0, which runs its method 0 as call 1.
    pub fn at_start() -> Configuration {
        let mut configuration = Configuration {
            objects: Vec::with_capacity(OBJECT_ROWS),
            calls: Vec::with_capacity(CALL_ROWS),
        };
        let first = configuration.add_object(0, [0; VARIABLES]);
        configuration.add_run(first);
        configuration
    }

    pub fn objects(&self) -> &[Object] {
        &self.objects
    }

    pub fn calls(&self) -> &[Call] {
        &self.calls
    }

    pub(crate) fn numbered_objects(&self) -> impl Iterator<Item = (ObjectNumber, &Object)> {
        (1..).map(ObjectNumber).zip(&self.objects)
    }

    pub(crate) fn labelled_calls(&self) -> impl Iterator<Item = (Label, &Call)> {
        (1..).map(Label).zip(&self.calls)
    }

    pub fn object_number(&self, cell: i32) -> Option<ObjectNumber> {
        number_in_use(cell, self.objects.len()).map(ObjectNumber)
    }

    pub fn label(&self, cell: i32) -> Option<Label> {
        number_in_use(cell, self.calls.len()).map(Label)
    }

    pub fn object(&self, object: ObjectNumber) -> &Object {
        &self.objects[object.row()]
    }

    pub fn call(&self, label: Label) -> &Call {
        &self.calls[label.row()]
    }

    pub(crate) fn object_mut(&mut self, object: ObjectNumber) -> &mut Object {
        &mut self.objects[object.row()]
    }

    pub(crate) fn call_mut(&mut self, label: Label) -> &mut Call {
        &mut self.calls[label.row()]
    }

    /// The label that the cell names, if its reply is in and the call was this object's.
    pub(crate) fn reply(&self, cell: i32, object: ObjectNumber) -> Option<Label> {
        self.label(cell).filter(|label| {
            let call = self.call(*label);
            call.stage == Stage::ReplyIn && call.caller == Some(object)
        })
    }

    pub(crate) fn has_object_row(&self) -> bool {
        self.objects.len() < OBJECT_ROWS
    }

    pub(crate) fn has_call_row(&self) -> bool {
        self.calls.len() < CALL_ROWS
    }

    /// The next object; there must be a row for it.
    pub(crate) fn add_object(&mut self, class: u8, attributes: [i32; VARIABLES]) -> ObjectNumber {
        self.objects.push(Object {
            class,
            running: None,
            attributes,
        });
        ObjectNumber(self.objects.len() as u8)
    }

    /// The next label; there must be a row for it.
    pub(crate) fn add_call(&mut self, call: Call) -> Label {
        self.calls.push(call);
        Label(self.calls.len() as u8)
    }

    /// The next label, for method 0 of an object that is running from its creation on.
    pub(crate) fn add_run(&mut self, object: ObjectNumber) {
        let label = self.add_call(Call {
            stage: Stage::Running,
            caller: None,
            callee: object,
            method: 0,
            args: 0,
            line: 0,
            cleared: false,
            value: 0,
            locals: [0; VARIABLES],
        });
        self.object_mut(object).running = Some(label);
    }

    /// The rows of these cells, or None where the cells are none of any model:
    /// another length, a cell that its field cannot hold, an unused cell that is
    /// not 0.
    pub fn decode(cells: &[i32]) -> Option<Configuration> {
        if cells.len() != CELLS {
            return None;
        }
        let object_count = count(cells[0], OBJECT_ROWS)?;
        let call_count = count(cells[1], CALL_ROWS)?;
        let (object_cells, unused_objects) =
            cells[HEADER_CELLS..CALLS_FROM].split_at(object_count * OBJECT_CELLS);
        let (call_cells, unused_calls) = cells[CALLS_FROM..].split_at(call_count * CALL_CELLS);
        if !are_zero(unused_objects) || !are_zero(unused_calls) {
            return None;
        }
        let mut objects = Vec::with_capacity(OBJECT_ROWS);
        for row in object_cells.chunks_exact(OBJECT_CELLS) {
            objects.push(Object::decode(row, call_count)?);
        }
        let mut calls = Vec::with_capacity(CALL_ROWS);
        for row in call_cells.chunks_exact(CALL_CELLS) {
            calls.push(Call::decode(row, object_count)?);
        }
        Some(Configuration { objects, calls })
    }

    /// Writes every one of the cells.
    pub fn encode(&self, cells: &mut [i32; CELLS]) {
        cells[0] = self.objects.len() as i32;
        cells[1] = self.calls.len() as i32;
        let (objects, unused) =
            cells[HEADER_CELLS..CALLS_FROM].split_at_mut(self.objects.len() * OBJECT_CELLS);
        for (object, row) in self
            .objects
            .iter()
            .zip(objects.chunks_exact_mut(OBJECT_CELLS))
        {
            object.encode(row);
        }
        unused.fill(0);
        let (calls, unused) = cells[CALLS_FROM..].split_at_mut(self.calls.len() * CALL_CELLS);
        for (call, row) in self.calls.iter().zip(calls.chunks_exact_mut(CALL_CELLS)) {
            call.encode(row);
        }
        unused.fill(0);
    }
}

/// A count of rows: at least 1, at most so many.
fn count(cell: i32, rows: usize) -> Option<usize> {
    usize::try_from(cell)
        .ok()
        .filter(|count| (1..=rows).contains(count))
}

fn number_in_use(cell: i32, in_use: usize) -> Option<u8> {
    u8::try_from(cell)
        .ok()
        .filter(|number| (1..=in_use).contains(&usize::from(*number)))
}

/// A cell that names a row, or 0 for none.
fn number_or_none(cell: i32, in_use: usize) -> Option<Option<u8>> {
    match cell {
        0 => Some(None),
        _ => number_in_use(cell, in_use).map(Some),
    }
}

pub(crate) fn are_zero(cells: &[i32]) -> bool {
    // Most of the cells are unused: one pass without a branch is the fastest.
    cells.iter().fold(0, |bits, cell| bits | cell) == 0
}

fn variables(cells: &[i32]) -> Option<[i32; VARIABLES]> {
    cells.try_into().ok()
}

impl Object {
    fn decode(row: &[i32], calls: usize) -> Option<Object> {
        Some(Object {
            class: u8::try_from(row[0]).ok()?,
            running: number_or_none(row[1], calls)?.map(Label),
            attributes: variables(&row[2..])?,
        })
    }

    fn encode(&self, row: &mut [i32]) {
        row[0] = i32::from(self.class);
        row[1] = Label::cell_of(self.running);
        row[2..].copy_from_slice(&self.attributes);
    }
}

impl Call {
    fn decode(row: &[i32], objects: usize) -> Option<Call> {
        let small = |cell| u8::try_from(cell).ok();
        Some(Call {
            stage: Stage::of(row[0])?,
            caller: number_or_none(row[1], objects)?.map(ObjectNumber),
            callee: number_in_use(row[2], objects).map(ObjectNumber)?,
            method: small(row[3]).filter(|method| *method < METHOD_INDICES)?,
            args: small(row[4]).filter(|args| usize::from(*args) <= CALL_ARGUMENTS)?,
            line: small(row[5])?,
            cleared: match row[6] {
                0 => false,
                1 => true,
                _ => return None,
            },
            value: row[7],
            locals: variables(&row[8..])?,
        })
    }

    fn encode(&self, row: &mut [i32]) {
        row[0] = self.stage as i32;
        row[1] = ObjectNumber::cell_of(self.caller);
        row[2] = self.callee.cell();
        row[3] = i32::from(self.method);
        row[4] = i32::from(self.args);
        row[5] = i32::from(self.line);
        row[6] = i32::from(self.cleared);
        row[7] = self.value;
        row[8..].copy_from_slice(&self.locals);
    }
}
