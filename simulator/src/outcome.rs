//! What an entry does, in one word.

/// Byte 2 of a line of the sheet.
#[derive(Clone, Copy, Debug, PartialEq, Eq)]
#[repr(u8)]
pub enum Outcome {
    PassFinished = 0,
    Exchanged = 1,
    /// The tested station suspects the tester, which leaves.
    Told = 2,
    NoReply = 3,
    Crash = 4,
    /// The tester suspects the tested station, which leaves.
    TestedTold = 5,
}
