//! The map in docs/ARCHITECTURE.md: every file that the documents name is there, and every name that stands beside files
//! of the map is a name in one of them.

use std::fs;
use std::path::{Path, PathBuf};

fn root() -> PathBuf {
    Path::new(env!("CARGO_MANIFEST_DIR")).join("../..")
}

fn is_part_of_a_name(c: char) -> bool {
    c.is_alphanumeric() || "_-'>=◌".contains(c)
}

/// The crates' files that a text names, as `layout/specs/Layout.antt`.
fn files_in(text: &str) -> Vec<String> {
    let kinds = ["/specs/", "/src/", "/proofs/"];
    text.split(|c: char| !(c.is_alphanumeric() || "/_.+-".contains(c)))
        .map(|word| word.trim_end_matches('.').to_string())
        .filter(|word| kinds.iter().any(|kind| word.contains(kind)))
        .filter(|word| word.ends_with(".antt") || word.ends_with(".rt"))
        .collect()
}

/// What stands in backticks and is one name.
fn names_in(cell: &str) -> Vec<String> {
    cell.split('`')
        .skip(1)
        .step_by(2)
        .filter(|name| !name.is_empty() && name.chars().all(is_part_of_a_name))
        .map(str::to_string)
        .collect()
}

fn has_name(text: &str, name: &str) -> bool {
    text.split(|c: char| !is_part_of_a_name(c))
        .any(|word| word == name)
}

#[test]
fn every_file_that_a_document_names_is_there() {
    let mut named = 0;
    for document in [
        "README.md",
        "docs/ARCHITECTURE.md",
        "docs/PROMISES.md",
        "docs/DECISIONS.md",
        "docs/PROOFS.md",
    ] {
        for file in files_in(&fs::read_to_string(root().join(document)).expect(document)) {
            let path = file.strip_prefix("crates/").unwrap_or(&file);
            assert!(
                root().join("crates").join(path).is_file(),
                "{document} names {file}"
            );
            named += 1;
        }
    }
    assert!(named > 100, "only {named} files are named");
}

#[test]
fn every_name_of_the_map_is_in_a_file_beside_it() {
    let map = fs::read_to_string(root().join("docs/ARCHITECTURE.md")).expect("the map");
    let mut found = 0;
    for row in map.lines().filter(|line| line.starts_with("| \"")) {
        let cells: Vec<&str> = row.trim_matches('|').split(" | ").collect();
        let Some(names) = cells.get(1) else { continue };
        // What is "not yet" there, or "Not yet", names the crate that it will stand in.
        let names = names.split("ot yet").next().unwrap_or_default();
        let files = files_in(row);
        let texts: Vec<String> = files
            .iter()
            .map(|file| fs::read_to_string(root().join("crates").join(file)).expect(file))
            .collect();
        for name in names_in(names) {
            if !texts.is_empty() && cells.len() == 3 {
                assert!(
                    texts.iter().any(|text| has_name(text, &name)),
                    "`{name}` is in none of {files:?}: {row}"
                );
                found += 1;
            }
        }
    }
    assert!(found > 200, "only {found} names are in the map");
}
