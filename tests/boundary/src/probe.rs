//! The readers of terms by themselves, with 8 brackets allowed.

pub use independent::expression::Limits;

/// How a reading went. The places count from the text's first byte.
#[derive(Clone, Copy, Debug, PartialEq, Eq)]
pub enum Reading {
    /// A term up to this end, with this value; a guard's is 1 or 0.
    Value { end: usize, value: i32 },
    /// A term up to this end, with a result out of range somewhere in it.
    OutOfRange { end: usize },
    /// No term: the place of the refusal.
    Refused { place: usize },
}

#[cfg(have_probe)]
extern "C" {
    fn probe_expression(
        text: *const u8,
        text_len: usize,
        at: usize,
        cells: *const i32,
        cells_len: usize,
        attrs: u8,
        locals: u8,
        object: u8,
        label: u32,
    ) -> u64;

    fn probe_guard(
        text: *const u8,
        text_len: usize,
        at: usize,
        cells: *const i32,
        cells_len: usize,
        attrs: u8,
        locals: u8,
        object: u8,
        label: u32,
    ) -> u64;
}

#[cfg(have_probe)]
/// A function of the library: it reads two slices, each a pointer and its length.
type Probe = unsafe extern "C" fn(
    text: *const u8,
    text_len: usize,
    at: usize,
    cells: *const i32,
    cells_len: usize,
    attrs: u8,
    locals: u8,
    object: u8,
    label: u32,
) -> u64;

/// What a reading begins with: a text and a place in it, the variables that there
/// are, and the cells, the object and the label of the call that reads.
#[derive(Clone, Copy, Debug)]
pub struct Asked<'a> {
    pub text: &'a [u8],
    pub at: usize,
    pub limits: Limits,
    pub cells: &'a [i32],
    pub object: u8,
    pub label: u32,
}

#[cfg(have_probe)]
impl Asked<'_> {
    /// Reads an expression, as far as the grammar goes.
    pub fn expression(self) -> Reading {
        self.read(probe_expression)
    }

    /// Reads a guard, as far as the grammar goes.
    pub fn guard(self) -> Reading {
        self.read(probe_guard)
    }

    fn read(self, probe: Probe) -> Reading {
        let Asked { text, at, .. } = self;
        // The answer has 16 bits for a place.
        assert!(text.len() < 1 << 16, "a text of {} bytes", text.len());
        assert!(at < 1 << 16, "the place {at}");
        // SAFETY: each pointer stands with the length of its slice, and both slices
        // live through the call; the function reads them alone and keeps no pointer.
        // Of the rest it demands nothing.
        Reading::of(unsafe {
            probe(
                text.as_ptr(),
                text.len(),
                at,
                self.cells.as_ptr(),
                self.cells.len(),
                self.limits.attrs,
                self.limits.locals,
                self.object,
                self.label,
            )
        })
    }
}

impl Reading {
    /// The reading in an answer that is place + 2^16 * kind + 2^32 * value.
    pub fn of(answer: u64) -> Reading {
        let place = usize::from(answer as u16);
        let kind = (answer >> 16) as u16;
        let value = (answer >> 32) as u32 as i32;
        match (kind, value) {
            (0, value) => Reading::Value { end: place, value },
            (1, 0) => Reading::OutOfRange { end: place },
            (2, 0) => Reading::Refused { place },
            _ => panic!("no answer of a reader: {answer:#x}"),
        }
    }
}

#[cfg(test)]
mod tests {
    use super::*;

    #[test]
    fn an_answer_has_place_kind_and_value() {
        let value = |end, value| Reading::Value { end, value };
        assert_eq!(Reading::of(3 + (7 << 32)), value(3, 7));
        assert_eq!(Reading::of(0xffff_ffff_0000_00c8), value(200, -1));
        assert_eq!(Reading::of(0x8000_0000_0000_0001), value(1, i32::MIN));
        let out_of_range = Reading::OutOfRange { end: 5 };
        assert_eq!(Reading::of(5 + (1 << 16)), out_of_range);
        let refused = Reading::Refused { place: 0 };
        assert_eq!(Reading::of(2 << 16), refused);
    }

    #[test]
    #[should_panic(expected = "no answer")]
    fn a_refusal_has_no_value() {
        Reading::of((2 << 16) + (1 << 32));
    }

    #[test]
    #[should_panic(expected = "no answer")]
    fn there_are_three_kinds() {
        Reading::of(3 << 16);
    }
}
