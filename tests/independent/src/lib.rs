//! An independent engine for the Creol step machine.
//!
//! The text is read once to a [`model::Model`] of classes, methods and
//! statements; the cells are decoded to a [`configuration::Configuration`] of
//! typed rows; a step works on the rows; the rows are encoded back. Every entry
//! is total: it answers any text, any cells and any choice.

#![forbid(unsafe_code)]

pub mod code;
mod conditions;
pub mod configuration;
mod entries;
pub mod expression;
pub mod generate;
pub mod guard;
pub mod model;
pub mod place;
mod refusal;
mod rules;
mod runner;
mod text;

pub use entries::{drive, judge, run, start, step, Choice, Drive, BUDGET_LIMIT};
pub use refusal::{Refusal, Verdict};
pub use runner::{runner, INPUT_BYTES};
pub use text::{LINE_BYTES, TEXT_BYTES};
