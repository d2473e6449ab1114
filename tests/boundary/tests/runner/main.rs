//! The program against the independent engine's runner: the bytes that it writes for a
//! file `model` and an input.

#![cfg(have_runner)]

mod program;

mod generated;
mod inputs;
mod models;
