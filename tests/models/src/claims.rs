//! Sentences about the cells, found in plain words.
//!
//! These six are read, and each is held to the cells:
//!
//! - `call 2 is in stage 6`
//! - `object 1 is idle`
//! - `object 1 runs call 2`
//! - `a0 of object 1 is 7`
//! - `v0 of call 2 is 4`
//! - `no choice is accepted`
//!
//! What stands in backticks is code and no sentence.

use independent::configuration::{Configuration, VARIABLES};
use independent::drive;

#[derive(Clone, Copy, Debug, PartialEq, Eq)]
pub enum Claim {
    Stage {
        call: usize,
        stage: i32,
    },
    Idle {
        object: usize,
    },
    Runs {
        object: usize,
        call: i32,
    },
    Attribute {
        index: usize,
        object: usize,
        value: i32,
    },
    Local {
        index: usize,
        call: usize,
        value: i32,
    },
    Quiet,
}

/// The claims of a text. A word that belongs to a claim and stands in none is an
/// error: otherwise a sentence in other words would not be held to anything.
pub fn claims(text: &str) -> Result<Vec<Claim>, String> {
    let prose: String = text.split('`').step_by(2).collect::<Vec<_>>().join(" ");
    let words: Vec<String> = prose
        .split_whitespace()
        .map(|word| word.trim_matches(|c: char| !c.is_alphanumeric() && c != '-'))
        .map(str::to_lowercase)
        .collect();
    let words: Vec<&str> = words.iter().map(String::as_str).collect();
    let mut claims = Vec::new();
    let mut at = 0;
    while at < words.len() {
        if let Some((claim, length)) = claim(&words[at..]) {
            claims.push(claim);
            at += length;
        } else if is_a_claims(&words[at..]) {
            return Err(format!("no claim: {}", words[at..].join(" ")));
        } else {
            at += 1;
        }
    }
    Ok(claims)
}

/// A claim that the words begin with, and how many of them it takes.
fn claim(words: &[&str]) -> Option<(Claim, usize)> {
    let claim = match words {
        ["call", call, "is", "in", "stage", stage, ..] => {
            let (call, stage) = (number(call)?, value(stage)?);
            (Claim::Stage { call, stage }, 6)
        }
        ["object", object, "is", "idle", ..] => {
            let object = number(object)?;
            (Claim::Idle { object }, 4)
        }
        ["object", object, "runs", "call", call, ..] => {
            let (object, call) = (number(object)?, value(call)?);
            (Claim::Runs { object, call }, 5)
        }
        [name, "of", "object", object, "is", cell, ..] => {
            let (index, object, value) = (index(name, 'a')?, number(object)?, value(cell)?);
            let claim = Claim::Attribute {
                index,
                object,
                value,
            };
            (claim, 6)
        }
        [name, "of", "call", call, "is", cell, ..] => {
            let (index, call, value) = (index(name, 'v')?, number(call)?, value(cell)?);
            (Claim::Local { index, call, value }, 6)
        }
        ["no", "choice", "is", "accepted", ..] => (Claim::Quiet, 4),
        _ => return None,
    };
    Some(claim)
}

/// Whether the first word belongs to a claim.
fn is_a_claims(words: &[&str]) -> bool {
    match words {
        ["stage" | "stages" | "idle", ..] => true,
        ["runs", "call", ..] => true,
        [name, "of", ..] => index(name, 'a').or(index(name, 'v')).is_some(),
        _ => false,
    }
}

fn number(word: &str) -> Option<usize> {
    word.parse().ok().filter(|number| *number > 0)
}

fn value(word: &str) -> Option<i32> {
    word.parse().ok()
}

/// The index of a variable with this letter.
fn index(word: &str, letter: char) -> Option<usize> {
    let index: usize = word.strip_prefix(letter)?.parse().ok()?;
    (index < VARIABLES).then_some(index)
}

impl Claim {
    /// Whether the cells of a model are as it says; an object or a call that is not
    /// there is not.
    pub fn holds(self, model: &[u8], cells: &[i32]) -> bool {
        self.is_of(model, cells).unwrap_or(false)
    }

    fn is_of(self, model: &[u8], cells: &[i32]) -> Option<bool> {
        let configuration = Configuration::decode(cells)?;
        let object = |number: usize| configuration.objects().get(number - 1);
        let call = |number: usize| configuration.calls().get(number - 1);
        Some(match self {
            Claim::Stage {
                call: number,
                stage,
            } => call(number)?.stage as i32 == stage,
            Claim::Idle { object: number } => object(number)?.running.is_none(),
            Claim::Runs {
                object: number,
                call,
            } => object(number)?.running?.cell() == call,
            Claim::Attribute {
                index,
                object: number,
                value,
            } => object(number)?.attributes[index] == value,
            Claim::Local {
                index,
                call: number,
                value,
            } => call(number)?.locals[index] == value,
            Claim::Quiet => drive(model, &mut cells.to_vec(), 0).quiet,
        })
    }
}

#[cfg(test)]
mod tests {
    use super::*;
    use boundary::session::MODEL;
    use independent::configuration::CELLS;
    use independent::{start, step};

    #[test]
    fn claims_are_found_in_sentences() {
        let text = "Object 3 is idle, and (`v0 of x`) a2 of object 1 is -42; call 2 is in stage 1.";
        let found = [
            Claim::Idle { object: 3 },
            Claim::Attribute {
                index: 2,
                object: 1,
                value: -42,
            },
            Claim::Stage { call: 2, stage: 1 },
        ];
        assert_eq!(claims(text), Ok(found.to_vec()));
        let runs = Claim::Runs { object: 2, call: 3 };
        assert_eq!(claims("Now object 2 runs call 3"), Ok(vec![runs]));
    }

    #[test]
    fn no_claim_in_other_words() {
        for text in [
            "call 2 is now in stage 1",
            "object 2 is still idle",
            "a0 of object 1 becomes 7",
            "v0 of it is 7",
            "it runs call 2",
            "call 2 is in stage one",
            "objects 1 and 2 are idle",
            "both are in stages 1 and 2",
        ] {
            assert!(claims(text).is_err(), "{text}");
        }
    }

    #[test]
    fn claims_are_held_to_the_cells() {
        let mut cells = vec![0; CELLS];
        assert!(start(MODEL.as_bytes(), &mut cells).is_accepted());
        for _ in 0..2 {
            assert!(step(MODEL.as_bytes(), &mut cells, 1, 1).is_accepted());
        }
        for (text, holds) in [
            ("call 2 is in stage 1", true),
            ("call 2 is in stage 2", false),
            ("call 3 is in stage 1", false),
            ("object 1 runs call 1", true),
            ("object 1 runs call 2", false),
            ("object 2 runs call 2", false),
            ("object 2 is idle", true),
            ("object 1 is idle", false),
            ("object 3 is idle", false),
            ("a0 of object 2 is 3", true),
            ("a0 of object 2 is 4", false),
            ("v0 of call 2 is 4", true),
            ("v0 of call 1 is 4", false),
            ("no choice is accepted", false),
        ] {
            let claims = claims(text).expect(text);
            assert_eq!(claims.len(), 1);
            assert_eq!(claims[0].holds(MODEL.as_bytes(), &cells), holds, "{text}");
        }
        let left = drive(MODEL.as_bytes(), &mut cells, 10_000);
        assert!(left.quiet && Claim::Quiet.holds(MODEL.as_bytes(), &cells));
    }
}
