//! Every folder of models/, run and compared with its `expected` and its README.

use std::fs;
use std::path::{Path, PathBuf};

use models::example::Example;
use models::folder::{names, Folder, FILES};
use models::{read, root, Faults};

const INDEX: &str = "README.md";

/// The folders of models/, each whole.
fn folders() -> Vec<Folder> {
    let models = root().join("models");
    let names = names(&models).expect("models/");
    let folders: Vec<Folder> = names
        .iter()
        .filter(|name| *name != INDEX)
        .map(|name| Folder::read(&models.join(name)).unwrap_or_else(|fault| panic!("{fault}")))
        .collect();
    assert!(folders.len() >= 12, "only {} models", folders.len());
    folders
}

fn demand_none(faults: Faults) {
    assert!(faults.is_empty(), "{}", faults.join("\n"));
}

fn stand_in() -> &'static Path {
    Path::new(env!("CARGO_BIN_EXE_independent-runner"))
}

fn by_program(program: &Path) {
    let faults = folders()
        .iter()
        .flat_map(|folder| folder.example.by_program(program, &folder.path))
        .collect();
    demand_none(faults);
}

#[test]
fn by_the_independent_engine() {
    let folders = folders();
    let faults = folders
        .iter()
        .flat_map(|folder| folder.example.by_independent());
    demand_none(faults.collect());
}

#[test]
fn by_a_program_that_stands_in_for_the_runner() {
    by_program(stand_in());
}

#[cfg(have_runner)]
#[test]
fn by_the_runner() {
    by_program(&root().join("crates/runner/out/runner"));
}

#[test]
fn by_the_readmes() {
    let folders = folders();
    let faults = folders.iter().flat_map(Folder::readme_faults);
    demand_none(faults.collect());
}

#[test]
fn by_the_entries_step_by_step() {
    let folders = folders();
    let faults = folders
        .iter()
        .flat_map(|folder| folder.example.by_entries());
    demand_none(faults.collect());
}

#[test]
fn the_index_names_every_folder() {
    let index = read(&root().join("models").join(INDEX)).expect(INDEX);
    let mut linked: Vec<String> = index
        .split("](")
        .skip(1)
        .filter_map(|link| link.split_once("/README.md)"))
        .map(|(name, _)| name.to_string())
        .collect();
    linked.sort();
    let names: Vec<String> = folders()
        .iter()
        .map(|folder| folder.example.name.clone())
        .collect();
    assert_eq!(linked, names);
}

/// A copy of a folder, to be damaged.
fn copy_of(folder: &Folder, name: &str) -> PathBuf {
    let copy = Path::new(env!("CARGO_TARGET_TMPDIR"))
        .join("damaged")
        .join(name);
    if copy.exists() {
        fs::remove_dir_all(&copy).expect("an earlier copy");
    }
    fs::create_dir_all(&copy).expect("a folder for the copy");
    for file in FILES {
        fs::copy(folder.path.join(file), copy.join(file)).expect(file);
    }
    copy
}

/// What is wrong with a folder.
fn faults_of(path: &Path) -> Faults {
    let folder = match Folder::read(path) {
        Ok(folder) => folder,
        Err(fault) => return vec![fault],
    };
    let mut faults = folder.example.by_independent();
    faults.extend(folder.readme_faults());
    faults
}

#[test]
fn a_folder_without_one_of_its_files_fails() {
    let folders = folders();
    for file in FILES {
        let copy = copy_of(&folders[0], &format!("without-{file}"));
        assert_eq!(faults_of(&copy), Faults::new());
        fs::remove_file(copy.join(file)).expect(file);
        assert_ne!(faults_of(&copy), Faults::new(), "without {file}");
    }
    let copy = copy_of(&folders[0], "with-one-more");
    fs::write(copy.join("expected.old"), "").expect("one file more");
    assert_ne!(faults_of(&copy), Faults::new());
}

/// Each line of a file with its last byte changed, the first byte of the file left
/// out, and its last.
fn damages(text: &[u8]) -> Vec<Vec<u8>> {
    let mut damages = vec![text[1..].to_vec(), text[..text.len() - 1].to_vec()];
    for (end, byte) in text.iter().enumerate() {
        if *byte == b'\n' && end > 0 {
            let mut damaged = text.to_vec();
            damaged[end - 1] = if text[end - 1] == b'9' { b'8' } else { b'9' };
            damages.push(damaged);
        }
    }
    damages
}

/// By each way of running it.
#[test]
fn a_damaged_expected_fails() {
    for folder in folders() {
        for (at, written) in damages(&folder.example.written).into_iter().enumerate() {
            let example = Example {
                written,
                ..folder.example.clone()
            };
            assert_ne!(example.by_independent(), Faults::new(), "{example:?}");
            assert_ne!(example.by_entries(), Faults::new(), "{example:?}");
            // A program takes longer: one damage is enough.
            if at == 0 {
                let faults = example.by_program(stand_in(), &folder.path);
                assert_ne!(faults, Faults::new(), "{example:?}");
            }
        }
    }
}

/// A row less in a walk leaves choices out; one twice has choices too many.
#[test]
fn another_walk_fails() {
    for folder in folders()
        .iter()
        .filter(|folder| !folder.example.is_refused())
    {
        let copy = copy_of(folder, "walk");
        let lines: Vec<&str> = folder.readme.lines().collect();
        let is_row = |at: &usize| lines[*at].starts_with("| ") && !lines[*at].starts_with("| no.");
        let rows: Vec<usize> = (0..lines.len()).filter(is_row).collect();
        assert!(rows.len() > 3, "{:?}", folder.path);
        for row in rows {
            let mut fewer = lines.clone();
            fewer.remove(row);
            let mut more = lines.clone();
            more.insert(row, lines[row]);
            for damaged in [fewer, more] {
                fs::write(copy.join("README.md"), damaged.join("\n")).expect("the damaged file");
                assert_ne!(
                    faults_of(&copy),
                    Faults::new(),
                    "{:?} {damaged:?}",
                    folder.path
                );
            }
        }
    }
}

/// A choice more changes what is written, wherever it stands; so does one less.
#[test]
fn other_choices_fail() {
    for folder in folders()
        .iter()
        .filter(|folder| !folder.example.is_refused())
    {
        let copy = copy_of(folder, "choices");
        let choices = folder.example.choice_lines();
        for at in 0..choices.len() {
            let mut fewer = choices.clone();
            fewer.remove(at);
            let mut more = choices.clone();
            more.insert(at, "exec=1".to_string());
            for damaged in [fewer, more] {
                fs::write(copy.join("choices"), damaged.join("\n")).expect("the damaged file");
                assert_ne!(
                    faults_of(&copy),
                    Faults::new(),
                    "{:?} {damaged:?}",
                    folder.path
                );
            }
        }
    }
}
