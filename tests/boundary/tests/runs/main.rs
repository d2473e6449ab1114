//! The library's run and drive against the independent engine's: the verdict, every lent
//! cell and every answer afterwards, and steps and quiet of a drive.
//!
//! The engines are lent the same (`both`), and what they give is counted (`tally`). The
//! choices come from walks, good ones and bad ones.

#![cfg(have_creol)]

mod both;
mod tally;

mod by_steps;
mod drives;
mod generated;
mod lengths;
mod marked;
mod own_choices;
mod refused;
mod refused_drives;
