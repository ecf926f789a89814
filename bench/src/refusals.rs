//! Why a text or a call is refused.

use std::fmt;

#[derive(Clone, Copy, Debug, PartialEq, Eq)]
pub enum Reason {
    ForbiddenByte = 1,
    MalformedWord = 2,
    BracketsTooDeep = 3,
    Misplaced = 4,
    UnknownWord = 5,
    WrongOperandCount = 6,
    UnknownName = 7,
    NameTaken = 8,
    LimitPassed = 9,
    EndsEarly = 10,
    NoSuchPin = 12,
    LevelAboveOne = 13,
    AlreadyEntered = 14,
    FolderFull = 15,
    NoSuchEntry = 16,
    EntrySettled = 17,
    BudgetOutOfRange = 18,
    BudgetNotAbove = 19,
    EntryNotFewest = 21,
}

impl Reason {
    pub fn number(self) -> u8 {
        self as u8
    }

    pub fn layer(self) -> &'static str {
        match self.number() {
            1..=3 => "text",
            4..=6 => "form",
            7..=10 => "circuit",
            _ => "folder",
        }
    }
}

#[derive(Clone, Copy, Debug, PartialEq, Eq)]
pub struct Refusal {
    pub reason: Reason,
    pub place: usize,
}

impl Refusal {
    pub fn new(reason: Reason, place: usize) -> Self {
        Refusal { reason, place }
    }
}

impl fmt::Display for Refusal {
    fn fmt(&self, formatter: &mut fmt::Formatter<'_>) -> fmt::Result {
        write!(
            formatter,
            "(refused {} {} {})",
            self.reason.layer(),
            self.reason.number(),
            self.place
        )
    }
}
