//! Tells the tests whether the runner's program is there.
//!
//! `rt run` in crates/runner writes `crates/runner/out/runner`. Where it is missing,
//! the tests that run it are left out. Where CREOL_REQUIRE names `runner` it must be
//! there: a gate that builds it cannot pass without it.

use std::env;
use std::path::Path;

const PROGRAM: &str = "runner";

fn main() {
    println!("cargo:rerun-if-changed=build.rs");
    println!("cargo:rerun-if-env-changed=CREOL_REQUIRE");
    println!("cargo:rustc-check-cfg=cfg(have_runner)");
    let required = env::var("CREOL_REQUIRE").unwrap_or_default();
    let package = env::var("CARGO_MANIFEST_DIR").expect("cargo names the package's directory");
    let program = Path::new(&package).join("../../crates/runner/out").join(PROGRAM);
    println!("cargo:rerun-if-changed={}", program.display());
    if program.is_file() {
        println!("cargo:rustc-cfg=have_runner");
    } else if required.split_whitespace().any(|name| name == PROGRAM) {
        panic!("crates/{PROGRAM}/out/{PROGRAM} is missing: run `rt run` in crates/{PROGRAM}");
    }
}
