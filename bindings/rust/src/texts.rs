//! Words of the library, and the reading of an input.

use crate::{accepted, raw};
#[cfg(feature = "alloc")]
use alloc::boxed::Box;
#[cfg(feature = "alloc")]
use core::error::Error;
use core::fmt;

/// The length of a buffer for words.
pub const WORDS_LENGTH: usize = vcube_sys::VCUBE_WORDS_LENGTH;

/// The length of a schedule into which an input is read.
pub const SCHEDULE_LENGTH: usize = vcube_sys::VCUBE_SCHEDULE_LENGTH;

/// Words of the library.
#[derive(Clone, Copy, PartialEq, Eq, Hash)]
pub struct Words([u8; WORDS_LENGTH]);

impl Words {
    fn written(write: impl FnOnce(&mut [u8]) -> u8) -> Words {
        let mut words = [0; WORDS_LENGTH];
        let number = write(&mut words);
        accepted(number).expect("a buffer for words has their length");
        Words(words)
    }

    /// The words: the bytes before the zeros.
    ///
    /// ```
    /// assert_eq!(vcube::status_words(0).as_str(), "live");
    /// ```
    #[must_use]
    pub fn as_str(&self) -> &str {
        let end = self.0.iter().position(|byte| *byte == 0);
        str::from_utf8(&self.0[..end.unwrap_or(WORDS_LENGTH)]).expect("words are ASCII")
    }
}

impl fmt::Display for Words {
    fn fmt(&self, f: &mut fmt::Formatter<'_>) -> fmt::Result {
        f.write_str(self.as_str())
    }
}

impl fmt::Debug for Words {
    fn fmt(&self, f: &mut fmt::Formatter<'_>) -> fmt::Result {
        fmt::Debug::fmt(self.as_str(), f)
    }
}

/// Words of the refusal with this number; none where there is none.
///
/// ```
/// assert_eq!(vcube::refusal_words(10).as_str(), "this board is not live");
/// assert_eq!(vcube::refusal_words(0).as_str(), "");
/// ```
#[must_use]
pub fn refusal_words(refusal: usize) -> Words {
    Words::written(|words| raw::refusal_words(refusal, words))
}

/// Words of the status with this number; none where there is none.
///
/// ```
/// assert_eq!(vcube::status_words(3).to_string(), "left because alone");
/// ```
#[must_use]
pub fn status_words(status: usize) -> Words {
    Words::written(|words| raw::status_words(status, words))
}

/// Words of the outcome with this number; none where there is none.
///
/// ```
/// assert_eq!(vcube::outcome_words(2).to_string(), "told, and left");
/// ```
#[must_use]
pub fn outcome_words(outcome: usize) -> Words {
    Words::written(|words| raw::outcome_words(outcome, words))
}

/// What was read of an input: the size, and how many entries stand at the front
/// of the schedule, two bytes each.
#[cfg(feature = "alloc")]
#[derive(Clone, Copy, Debug, PartialEq, Eq, Hash)]
pub struct Input {
    /// The size, which a run may still refuse; 0 where line 1 cannot be read.
    pub n: usize,
    /// How many entries.
    pub entries: usize,
}

/// The first line of an input that cannot be read.
#[cfg(feature = "alloc")]
#[derive(Clone, Debug, PartialEq, Eq, Hash)]
pub struct Unread {
    /// Its number, from 1.
    pub line: usize,
    /// What is wrong in it.
    pub words: Box<Words>,
    /// What was read before it.
    pub before: Input,
}

#[cfg(feature = "alloc")]
impl fmt::Display for Unread {
    fn fmt(&self, f: &mut fmt::Formatter<'_>) -> fmt::Result {
        write!(f, "unread {}: {}", self.line, self.words)
    }
}

#[cfg(feature = "alloc")]
impl Error for Unread {}

/// Input: reads an input of the run program: lines that end with a line feed,
/// which the last may lack. The entries before the first unreadable line go to the
/// front of the schedule, whose rest is unchanged.
///
/// # Errors
///
/// [`Unread`] says which line cannot be read, and what is wrong in it.
///
/// # Example
///
/// ```
/// use vcube::{read_input, Input, SCHEDULE_LENGTH};
///
/// let mut schedule = [0; SCHEDULE_LENGTH];
/// let read = read_input(b"8\nT 5\nC 0\n", &mut schedule);
/// assert_eq!(read, Ok(Input { n: 8, entries: 2 }));
/// assert_eq!(schedule[..4], [1, 5, 3, 0]);
///
/// let unread = read_input(b"8\nT 5\nC\t0\n", &mut schedule).expect_err("a tab");
/// assert_eq!(unread.to_string(), "unread 3: a tab where a space is expected");
/// assert_eq!(unread.before, Input { n: 8, entries: 1 });
/// ```
#[cfg(feature = "alloc")]
pub fn read_input(input: &[u8], schedule: &mut [u8; SCHEDULE_LENGTH]) -> Result<Input, Unread> {
    let (mut n, mut entries, mut line) = (0, 0, 0);
    let words = Words::written(|words| {
        raw::read_input(input, schedule, words, &mut n, &mut entries, &mut line)
    });
    let before = Input { n, entries };
    if line == 0 { Ok(before) } else { Err(Unread { line, words: Box::new(words), before }) }
}
