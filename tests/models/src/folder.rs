//! A folder of models: `model`, `choices`, `expected` and `README.md`.

use std::fs;
use std::path::{Path, PathBuf};

use crate::example::Example;
use crate::markdown::{parts, Part};
use crate::{read, walk, Faults};

pub const FILES: [&str; 4] = ["README.md", "choices", "expected", "model"];

#[derive(Clone, Debug)]
pub struct Folder {
    pub path: PathBuf,
    pub example: Example,
    pub readme: String,
}

/// The names in a folder, in order.
pub fn names(path: &Path) -> Result<Vec<String>, String> {
    let fault = |error| format!("{}: {error}", path.display());
    let mut names = Vec::new();
    for entry in fs::read_dir(path).map_err(fault)? {
        names.push(entry.map_err(fault)?.file_name().into_string());
    }
    let names: Result<Vec<String>, _> = names.into_iter().collect();
    let mut names = names.map_err(|name| format!("{}: {name:?}", path.display()))?;
    names.sort();
    Ok(names)
}

impl Folder {
    /// The folder, if it has its four files and no other.
    pub fn read(path: &Path) -> Result<Folder, String> {
        let names = names(path)?;
        if names != FILES {
            return Err(format!("{}: {names:?}", path.display()));
        }
        let bytes =
            |name: &str| fs::read(path.join(name)).map_err(|error| format!("{name}: {error}"));
        let name = path.file_name().unwrap_or_default();
        Ok(Folder {
            path: path.to_path_buf(),
            example: Example {
                name: name.to_string_lossy().into_owned(),
                model: bytes("model")?,
                choices: bytes("choices")?,
                written: bytes("expected")?,
            },
            readme: read(&path.join("README.md"))?,
        })
    }

    /// The faults of its README. A model that runs has one walk and nothing else that
    /// could tell other things; a refused one has the number and the line in words.
    pub fn readme_faults(&self) -> Faults {
        let name = &self.example.name;
        let parts = match parts(&self.readme) {
            Ok(parts) => parts,
            Err(fault) => return vec![format!("{name}: {fault}")],
        };
        let others = match parts.as_slice() {
            [(1, Part::Heading(_)), others @ ..] => others,
            _ => return vec![format!("{name}: no heading")],
        };
        match others {
            [(_, Part::Table(table))] if table.header == walk::HEADER => {
                walk::check(table, &self.example)
            }
            [] if self.example.is_refused() => self.refusal_faults(),
            _ => vec![format!("{name}: no walk, or something beside it")],
        }
    }

    fn refusal_faults(&self) -> Faults {
        let expected = String::from_utf8_lossy(&self.example.written);
        let said =
            expected
                .replacen("refused=", "refused with ", 1)
                .replacen("\nline=", " at line ", 1);
        // The number ends where the sentence goes on.
        let is_said = self.readme.split(said.trim_end()).skip(1).any(|after| {
            let next = after.chars().next();
            !next.is_some_and(|next| next.is_ascii_digit())
        });
        if is_said {
            return Faults::new();
        }
        vec![format!("{}: does not say {said:?}", self.example.name)]
    }
}
