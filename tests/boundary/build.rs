//! Links the proved libraries that are there, finds the proved program, and tells the
//! code which of them are there.
//!
//! `rt lib` in crates/NAME writes `crates/NAME/out/libNAME.a`, and `rt run` in
//! crates/NAME the program `crates/NAME/out/NAME`. One that is missing leaves its
//! tests out, so that the others can be run without it. One that CREOL_REQUIRE names
//! must be there: a gate names those that it builds, and then cannot pass by leaving
//! their tests out.

use std::env;
use std::path::Path;

const LIBRARIES: [&str; 2] = ["probe", "creol"];
const PROGRAM: &str = "runner";

fn main() {
    println!("cargo:rerun-if-changed=build.rs");
    println!("cargo:rerun-if-env-changed=CREOL_REQUIRE");
    let package = env::var("CARGO_MANIFEST_DIR").expect("cargo names the package's directory");
    let crates = Path::new(&package).join("../../crates");
    for name in LIBRARIES {
        let directory = crates.join(name).join("out");
        println!("cargo:rustc-link-search=native={}", directory.display());
        let archive = directory.join(format!("lib{name}.a"));
        if is_there(name, &archive, "lib") {
            println!("cargo:rustc-link-lib=static={name}");
        }
    }
    let program = crates.join(PROGRAM).join("out").join(PROGRAM);
    if is_there(PROGRAM, &program, "run") {
        println!("cargo:rustc-env=CREOL_RUNNER={}", program.display());
    }
}

/// Whether the file is there, which the code is told; panics where it has to be.
fn is_there(name: &str, file: &Path, command: &str) -> bool {
    println!("cargo:rerun-if-changed={}", file.display());
    println!("cargo:rustc-check-cfg=cfg(have_{name})");
    let required = env::var("CREOL_REQUIRE").unwrap_or_default();
    if file.is_file() {
        println!("cargo:rustc-cfg=have_{name}");
        return true;
    }
    if required.split_whitespace().any(|word| word == name) {
        panic!(
            "{} is missing: run `rt {command}` in crates/{name}",
            file.display()
        );
    }
    false
}
