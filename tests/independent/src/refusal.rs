//! The numbers given back.

/// Why an entry or a choice is refused; the discriminant is the number given back.
#[derive(Clone, Copy, Debug, PartialEq, Eq)]
#[repr(u8)]
pub enum Refusal {
    TextTooLong = 1,
    BrokenLine = 2,
    WrongKey = 3,
    WrongNumber = 4,
    WrongCode = 5,
    WrongBlocks = 6,
    WrongCellCount = 10,
    NotAConfiguration = 11,
    NotInUse = 12,
    AnswersLength = 13,
    BudgetTooLarge = 14,
    NotInvoked = 20,
    NotQueued = 21,
    NoSuchMethod = 22,
    NotBound = 23,
    ObjectBusy = 24,
    NotReady = 25,
    NotAnswered = 26,
    ObjectIdle = 27,
    /// Kept for the table's sake: a configuration's line is always inside its method.
    PastTheEnd = 28,
    OutOfRange = 29,
    CalleeIsNoObject = 30,
    ObjectRowsFull = 31,
    CallRowsFull = 32,
    ReplyNotIn = 33,
}

impl Refusal {
    pub const fn number(self) -> u8 {
        self as u8
    }
}

/// What an entry answers: 0 for acceptance or a refusal's number, and the line
/// of the text where a text is refused.
#[derive(Clone, Copy, Debug, PartialEq, Eq)]
pub struct Verdict {
    pub number: u8,
    pub line: u32,
}

impl Verdict {
    pub const ACCEPTED: Verdict = Verdict { number: 0, line: 0 };

    pub const fn at_line(refusal: Refusal, line: u32) -> Verdict {
        Verdict {
            number: refusal.number(),
            line,
        }
    }

    pub const fn is_accepted(self) -> bool {
        self.number == 0
    }
}

/// Every refusal that is not of the text gives line 0.
impl From<Refusal> for Verdict {
    fn from(refusal: Refusal) -> Verdict {
        Verdict::at_line(refusal, 0)
    }
}

/// The number of one choice's answer: 0, or the refusal's.
pub fn answer(outcome: Result<(), Refusal>) -> i32 {
    match outcome {
        Ok(()) => 0,
        Err(refusal) => i32::from(refusal.number()),
    }
}
