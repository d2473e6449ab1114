//! The proved libraries as safe Rust functions.
//!
//! `creol` and `probe` each wrap one static library. A library that was not there
//! when this package was built leaves its wrappers out (see `build.rs`); what decodes
//! its answers is there always. The other modules are what the tests and the
//! benchmark share.

#![deny(unsafe_op_in_unsafe_fn)]

pub mod choices;
pub mod composed;
pub mod creol;
pub mod damage;
pub mod lent;
pub mod lists;
pub mod models;
pub mod places;
pub mod probe;
pub mod session;
pub mod texts;
