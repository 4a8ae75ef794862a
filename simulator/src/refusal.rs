//! The refusal list.

/// A refusal. The discriminant is its number in the list.
#[derive(Clone, Copy, Debug, PartialEq, Eq)]
#[repr(u8)]
pub enum Refusal {
    SizeOutOfRange = 1,
    TableLength = 2,
    LineRule = 3,
    RoundNotClosed = 4,
    ScheduleLength = 5,
    SheetLength = 6,
    TallyFull = 7,
    UnknownKind = 8,
    NoSuchStation = 9,
    NotLive = 10,
    PassFinished = 11,
    NoSuchLevel = 12,
    ListLength = 13,
    NoResult = 14,
    TooManyResults = 15,
    LastGranted = 16,
    NoneLive = 17,
    FieldPastEnd = 18,
    SizeOrTallyField = 19,
    LineField = 20,
    NoOpening = 21,
    FieldOrder = 22,
    ReportTooShort = 23,
    NoSuchWiring = 24,
    LineLength = 25,
}

impl Refusal {
    pub fn number(self) -> u8 {
        self as u8
    }

    /// Gives this refusal if its sentence holds.
    pub fn when(self, holds: bool) -> Result<(), Refusal> {
        if holds {
            Err(self)
        } else {
            Ok(())
        }
    }
}

/// 0 or the number of the refusal.
pub fn number_of<T>(result: &Result<T, Refusal>) -> u8 {
    match result {
        Ok(_) => 0,
        Err(refusal) => refusal.number(),
    }
}
