//! The runner by the independent engine: the file `model` in the working directory
//! and the choices from standard input, as the proved program reads them.

use std::fs;
use std::io::{self, Read, Write};

fn main() -> io::Result<()> {
    // A missing model file reads as empty.
    let model = fs::read("model").unwrap_or_default();
    let mut choices = Vec::new();
    io::stdin().read_to_end(&mut choices)?;
    io::stdout().write_all(&independent::runner(&model, &choices))
}
