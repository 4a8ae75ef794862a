//! The input of the run program: what is read of it.

use crate::reading::{read_kind, read_size, read_station};
use crate::refusal::Refusal;
use crate::unread;
use crate::words::{check_words_length, write};

/// The most entries of an input.
pub const MOST_ENTRIES: usize = 4096;

/// The length of a schedule for so many entries.
pub const SCHEDULE_LENGTH: usize = 2 * MOST_ENTRIES;

/// What the reading of an input answers.
#[derive(Clone, Copy, Debug, Default, PartialEq, Eq)]
pub struct InputRead {
    /// 0 or the refusal, with which all else is 0.
    pub number: u8,
    /// The size, 0 if the first line cannot be read.
    pub n: usize,
    /// How many entries stand in the schedule.
    pub entries: usize,
    /// The first line that cannot be read, 0 if there is none.
    pub line: usize,
}

/// Input: refusal 13.
pub fn read_input(input: &[u8], schedule: &mut [u8], words: &mut [u8]) -> InputRead {
    match admit(schedule, words) {
        Err(refusal) => InputRead {
            number: refusal.number(),
            ..InputRead::default()
        },
        Ok(()) => {
            let (read, text) = read(input, schedule);
            write(&text, words);
            read
        }
    }
}

fn admit(schedule: &[u8], words: &[u8]) -> Result<(), Refusal> {
    Refusal::ListLength.when(schedule.len() != SCHEDULE_LENGTH)?;
    check_words_length(words)
}

/// Reads the size and the entries, of which the schedule has room for the most. Gives also
/// what is wrong in the first line that cannot be read.
pub fn read(input: &[u8], schedule: &mut [u8]) -> (InputRead, String) {
    let mut read = InputRead::default();
    match read_lines(input, schedule, &mut read) {
        Ok(()) => (read, String::new()),
        Err((line, words)) => (InputRead { line, ..read }, words),
    }
}

/// Reads up to the first line that cannot be read: its number, from 1, and what is wrong
/// in it.
fn read_lines(
    input: &[u8],
    schedule: &mut [u8],
    read: &mut InputRead,
) -> Result<(), (usize, String)> {
    let text = input.strip_suffix(b"\n").unwrap_or(input);
    let mut lines = (1..).zip(text.split(|byte| *byte == b'\n'));
    if let Some((line, size)) = lines.next() {
        let words = || match input {
            [] => unread::no_input(),
            _ => unread::no_size(size),
        };
        read.n = read_size(size).ok_or_else(|| (line, words()))?;
    }
    let mut places = schedule.chunks_exact_mut(2);
    for (line, entry) in lines {
        let entry = read_entry(entry).ok_or_else(|| (line, unread::no_entry(entry)))?;
        let place = places.next();
        let place = place.ok_or_else(|| (line, unread::one_too_many()))?;
        place.copy_from_slice(&entry);
        read.entries += 1;
    }
    Ok(())
}

/// T, L or C, a space and a station.
fn read_entry(line: &[u8]) -> Option<[u8; 2]> {
    let (letter, rest) = line.split_first()?;
    let station = read_station(rest.strip_prefix(b" ")?)?;
    Some([read_kind(*letter)?, station])
}
