//! The places of cells in a configuration.

/// The cells before the rows: how many objects and how many calls there are.
pub const OBJECTS: usize = 0;
pub const CALLS: usize = 1;

/// The fields of an object's row.
pub const CLASS: usize = 0;
pub const RUNNING: usize = 1;
pub const ATTRIBUTES: usize = 2;

/// The fields of a call's row.
pub const STAGE: usize = 0;
pub const CALLER: usize = 1;
pub const CALLEE: usize = 2;
pub const METHOD: usize = 3;
pub const ARGS: usize = 4;
pub const LINE: usize = 5;
pub const CLEARED: usize = 6;
pub const VALUE: usize = 7;
pub const LOCALS: usize = 8;

/// The cell of a field of an object's row, the objects counted from 1.
pub fn object_cell(object: usize, field: usize) -> usize {
    2 + 10 * (object - 1) + field
}

/// The cell of a field of a call's row, the labels counted from 1.
pub fn call_cell(label: usize, field: usize) -> usize {
    2 + 32 * 10 + 16 * (label - 1) + field
}
