//! Random texts, choices and cells, the same for the same seed.
//!
//! Models are valid and are written so that their runs get far; damage is done
//! afterwards, by functions of its own.

mod choices;
mod damage;
mod method;
mod model;
mod random;
mod terms;

pub use choices::{choice, choices, configuration, reached};
pub use damage::{damaged_cells, damaged_text};
pub use model::{large_text, long_text, text};
pub use random::Random;
pub use terms::{expression, guard, noise};
