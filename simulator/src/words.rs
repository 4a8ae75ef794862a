//! What is said to people of a refusal, a status and an outcome.

use crate::refusal::{number_of, Refusal};

/// The length of a buffer for words.
pub const WORDS_LENGTH: usize = 128;

/// The words of the refusals, from 1 on.
const OF_REFUSALS: [&str; 25] = [
    "a plant has 2 to 64 boards",
    "the table's length is not n(n + 6)",
    "a line breaks a line rule",
    "every live board has finished its pass, but the round is not closed",
    "the schedule has an odd number of bytes",
    "the run sheet is not twice as long as the schedule",
    "the count of rounds or of tests is at its limit, 4,294,967,295",
    "the kind of the entry is not 1, 2 or 3",
    "no board has this number: boards are numbered from 0 to n - 1",
    "this board is not live",
    "this board has already finished its pass in this round",
    "there is no such level: levels go from 1 to d",
    "the list or buffer for the answer has the wrong length",
    "there are no results to compute figures from",
    "there are more than 4,096 results, or the totals are higher than 4,096 results can give",
    "the last granted number is neither a board's number nor 255",
    "no board is live",
    "the file is cut off: a field or its head goes past the end",
    "the field with the size or the tally is missing, appears twice or has the wrong length",
    "a board's line in the file is missing, appears twice, has the wrong length or names no board",
    "the file does not begin as edition 2 does; if it is of edition 1, convert it first",
    "a field is out of order or has an unknown tag",
    "the buffer for the report has fewer than 4n(n + 6) bytes",
    "the wiring is neither 1, the cube, nor 2, the ring",
    "the length of the board's line is not n + 6",
];

/// The words of the statuses, from 0 on.
const OF_STATUSES: [&str; 4] = ["live", "crashed", "left because told", "left because alone"];

/// The words of the outcomes, from 0 on.
const OF_OUTCOMES: [&str; 6] = [
    "pass finished",
    "exchanged",
    "told, and left",
    "no reply",
    "crash",
    "the tested board was told, and left",
];

/// The words of a refusal; none where the number has none.
pub fn of_refusal(refusal: usize) -> &'static str {
    let place = refusal.checked_sub(1);
    place
        .and_then(|place| OF_REFUSALS.get(place))
        .map_or("", |text| text)
}

/// Words of a refusal: refusal 13.
pub fn refusal_words(refusal: usize, words: &mut [u8]) -> u8 {
    answer(Some(&of_refusal(refusal)), words)
}

/// Words of a status: refusal 13.
pub fn status_words(status: usize, words: &mut [u8]) -> u8 {
    answer(OF_STATUSES.get(status), words)
}

/// Words of an outcome: refusal 13.
pub fn outcome_words(outcome: usize, words: &mut [u8]) -> u8 {
    answer(OF_OUTCOMES.get(outcome), words)
}

fn answer(text: Option<&&str>, words: &mut [u8]) -> u8 {
    let admitted = check_words_length(words);
    if admitted.is_ok() {
        write(text.map_or("", |text| text), words);
    }
    number_of(&admitted)
}

/// Refusal 13 of a buffer for words.
pub fn check_words_length(words: &[u8]) -> Result<(), Refusal> {
    Refusal::ListLength.when(words.len() != WORDS_LENGTH)
}

/// The words, and zeros behind them. Used only on a buffer of the right length.
pub fn write(text: &str, words: &mut [u8]) {
    words.fill(0);
    words[..text.len()].copy_from_slice(text.as_bytes());
}
