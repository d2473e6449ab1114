//! The engine's entries.

pub use independent::{Choice, Drive, Verdict};

/// The kinds of a choice. An exec is of an object, the others are of a label.
pub const EXEC: i32 = 1;
pub const ARRIVE: i32 = 2;
pub const BIND: i32 = 3;
pub const START: i32 = 4;
pub const DELIVER: i32 = 5;

#[cfg(have_creol)]
extern "C" {
    fn creol_judge(text: *const u8, text_len: usize) -> u64;

    fn creol_start(text: *const u8, text_len: usize, cells: *mut i32, cells_len: usize) -> u64;

    fn creol_step(
        text: *const u8,
        text_len: usize,
        cells: *mut i32,
        cells_len: usize,
        kind: i32,
        number: i32,
    ) -> u64;

    fn creol_run(
        text: *const u8,
        text_len: usize,
        cells: *mut i32,
        cells_len: usize,
        choices: *const Choice,
        choices_len: usize,
        answers: *mut i32,
        answers_len: usize,
    ) -> u64;

    fn creol_drive(
        text: *const u8,
        text_len: usize,
        cells: *mut i32,
        cells_len: usize,
        budget: u32,
    ) -> u64;
}

/// The library's verdict on a text.
#[cfg(have_creol)]
pub fn judge(text: &[u8]) -> Verdict {
    // SAFETY: the pointer and the length are those of one slice, which lives
    // through the call; the function reads it alone and keeps no pointer. It
    // demands nothing of the bytes, nor of their number.
    decoded(unsafe { creol_judge(text.as_ptr(), text.len()) })
}

/// The library's start of a text, in these cells.
#[cfg(have_creol)]
pub fn start(text: &[u8], cells: &mut [i32]) -> Verdict {
    // SAFETY: each pointer stands with the length of its slice, and both slices
    // live through the call. The cells are borrowed for it alone, so they are no
    // part of the text. The function reads the one and writes the other, inside
    // their lengths, and keeps no pointer. It demands nothing of what they hold,
    // nor of how much of it there is.
    decoded(unsafe { creol_start(text.as_ptr(), text.len(), cells.as_mut_ptr(), cells.len()) })
}

/// The library's step: the choice is a kind, and an object or a label.
#[cfg(have_creol)]
pub fn step(text: &[u8], cells: &mut [i32], kind: i32, number: i32) -> Verdict {
    // SAFETY: as for `start`; and it demands nothing of the choice.
    decoded(unsafe {
        creol_step(
            text.as_ptr(),
            text.len(),
            cells.as_mut_ptr(),
            cells.len(),
            kind,
            number,
        )
    })
}

/// The library's run of these choices.
#[cfg(have_creol)]
pub fn run(text: &[u8], cells: &mut [i32], choices: &[Choice], answers: &mut [i32]) -> Verdict {
    // SAFETY: as for `start`, with four slices: the two that it writes are borrowed
    // for it alone, so neither is a part of another. A choice is a kind and then a
    // number, as `repr(C)` demands of both sides. It demands nothing of the choices,
    // nor of how many there are, nor of how many answers.
    decoded(unsafe {
        creol_run(
            text.as_ptr(),
            text.len(),
            cells.as_mut_ptr(),
            cells.len(),
            choices.as_ptr(),
            choices.len(),
            answers.as_mut_ptr(),
            answers.len(),
        )
    })
}

/// The library's drive, of at most so many steps.
#[cfg(have_creol)]
pub fn drive(text: &[u8], cells: &mut [i32], budget: u32) -> Drive {
    // SAFETY: as for `start`; and it demands nothing of the budget.
    decoded_drive(unsafe {
        creol_drive(
            text.as_ptr(),
            text.len(),
            cells.as_mut_ptr(),
            cells.len(),
            budget,
        )
    })
}

/// A run: text, cells, choices and answers.
pub type Running = fn(&[u8], &mut [i32], &[Choice], &mut [i32]) -> Verdict;

/// The entries of one engine. The library and the independent engine have the same.
#[derive(Clone, Copy)]
pub struct Entries {
    pub judge: fn(&[u8]) -> Verdict,
    pub start: fn(&[u8], &mut [i32]) -> Verdict,
    pub step: fn(&[u8], &mut [i32], i32, i32) -> Verdict,
    pub run: Running,
    pub drive: fn(&[u8], &mut [i32], u32) -> Drive,
}

impl Entries {
    pub const INDEPENDENT: Entries = Entries {
        judge: independent::judge,
        start: independent::start,
        step: independent::step,
        run: independent::run,
        drive: independent::drive,
    };

    /// The library's, for a program that does without them where it is missing.
    pub fn linked() -> Option<Entries> {
        #[cfg(have_creol)]
        return Some(Entries {
            judge,
            start,
            step,
            run,
            drive,
        });
        #[cfg(not(have_creol))]
        return None;
    }
}

/// The verdict in an answer that is number + 2^8 * column + 2^16 * line, and
/// nothing above. The column is 0: verdicts have none.
pub fn decoded(answer: u64) -> Verdict {
    let above = answer >> 32;
    let [number, column, line_low, line_high] = (answer as u32).to_le_bytes();
    assert!(column == 0 && above == 0, "no verdict: {answer:#x}");
    Verdict {
        number,
        line: u32::from(u16::from_le_bytes([line_low, line_high])),
    }
}

/// The drive in an answer that is a verdict's + 2^32 * steps + 2^48 * quiet, where quiet
/// is 1 or 0.
pub fn decoded_drive(answer: u64) -> Drive {
    let quiet = answer >> 48;
    assert!(quiet <= 1, "no drive: {answer:#x}");
    Drive {
        verdict: decoded(answer & 0xffff_ffff),
        steps: u32::from((answer >> 32) as u16),
        quiet: quiet == 1,
    }
}

#[cfg(test)]
mod tests {
    use super::*;

    #[test]
    fn an_answer_has_number_and_line() {
        assert_eq!(decoded(0), Verdict::ACCEPTED);
        let verdict = |number, line| Verdict { number, line };
        assert_eq!(decoded(5 + (27 << 16)), verdict(5, 27));
        assert_eq!(decoded(3 + (32_769 << 16)), verdict(3, 32_769));
    }

    #[test]
    fn the_answer_of_a_drive_has_steps_and_quiet_too() {
        let drive = |number, line, steps, quiet| Drive {
            verdict: Verdict { number, line },
            steps,
            quiet,
        };
        assert_eq!(decoded_drive(12 << 32), drive(0, 0, 12, false));
        let quiet = 1 << 48;
        assert_eq!(decoded_drive((13 << 32) + quiet), drive(0, 0, 13, true));
        assert_eq!(decoded_drive(quiet), drive(0, 0, 0, true));
        assert_eq!(decoded_drive(10_000 << 32), drive(0, 0, 10_000, false));
        assert_eq!(decoded_drive(5 + (27 << 16)), drive(5, 27, 0, false));
    }

    #[test]
    #[should_panic(expected = "no drive")]
    fn quiet_is_yes_or_no() {
        decoded_drive(2 << 48);
    }

    #[test]
    #[should_panic(expected = "no verdict")]
    fn a_drive_has_no_column() {
        decoded_drive((12 << 32) + (1 << 8));
    }

    /// As include/creol.h says.
    #[cfg(have_creol)]
    #[test]
    fn a_slice_of_length_0_may_have_a_null_pointer() {
        let model = crate::session::MODEL.as_bytes();
        let (text, choices) = (std::ptr::null(), std::ptr::null());
        let (cells, answers) = (std::ptr::null_mut(), std::ptr::null_mut());
        let mut fresh = [0; independent::configuration::CELLS];
        assert_eq!(start(model, &mut fresh), Verdict::ACCEPTED);
        // SAFETY: behind a pointer with length 0 there is nothing to read or to write;
        // the other text and cells are slices that live through the calls.
        let (empty, accepted, run) = unsafe {
            (
                [
                    creol_judge(text, 0),
                    creol_start(text, 0, cells, 0),
                    creol_step(text, 0, cells, 0, EXEC, 1),
                    creol_run(text, 0, cells, 0, choices, 0, answers, 0),
                    creol_drive(text, 0, cells, 0, 1),
                ],
                [
                    creol_start(model.as_ptr(), model.len(), cells, 0),
                    creol_step(model.as_ptr(), model.len(), cells, 0, EXEC, 1),
                    creol_run(
                        model.as_ptr(),
                        model.len(),
                        cells,
                        0,
                        choices,
                        0,
                        answers,
                        0,
                    ),
                    creol_drive(model.as_ptr(), model.len(), cells, 0, 1),
                ],
                creol_run(
                    model.as_ptr(),
                    model.len(),
                    fresh.as_mut_ptr(),
                    fresh.len(),
                    choices,
                    0,
                    answers,
                    0,
                ),
            )
        };
        let verdict = |number, line| Verdict { number, line };
        assert_eq!(empty.map(decoded), [verdict(3, 1); 5]);
        assert_eq!(accepted.map(decoded), [verdict(10, 0); 4]);
        assert_eq!(decoded(run), Verdict::ACCEPTED);
    }

    #[test]
    #[should_panic(expected = "no verdict")]
    fn a_column_is_none_of_it() {
        decoded(5 + (1 << 8));
    }

    #[test]
    #[should_panic(expected = "no verdict")]
    fn steps_are_none_of_it() {
        decoded(1 << 32);
    }
}
