//! The library's start and step against the independent engine's: the verdict, and
//! every lent cell afterwards.
//!
//! The engines take the same steps in the same cells, side by side (`both`), and what
//! they give is counted (`tally`). The cells are reached by walks, composed of any rows
//! that the conditions allow, and damaged.

#![cfg(have_creol)]

mod both;
mod tally;
mod walk;

mod damaged;
mod every;
mod lines;
mod marked;
mod refused;
mod starts;
mod walks;
