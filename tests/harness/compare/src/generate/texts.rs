//! Words by any number, and inputs: readable ones and damaged ones.

use shared::call::{size, Call};
use shared::random::Random;
use simulator::{MOST_ENTRIES, SCHEDULE_LENGTH, WORDS_LENGTH};

use super::numbers;

pub fn call(random: &mut Random) -> Call {
    match random.below(8) {
        0 => words("refusal_words", 25, random),
        1 => words("status_words", 3, random),
        2 => words("outcome_words", 5, random),
        _ => read_input(random),
    }
}

fn words(function: &str, last: usize, random: &mut Random) -> Call {
    let length = length(WORDS_LENGTH, random);
    let worded = numbers::worded(last, random);
    Call::new(function, [size(worded), random.bytes(length)], random)
}

fn read_input(random: &mut Random) -> Call {
    let schedule = length(SCHEDULE_LENGTH, random);
    let words = length(WORDS_LENGTH, random);
    reading(input(random), schedule, words, random)
}

/// The reading of this input into a schedule and words of these lengths.
pub fn reading(input: Vec<u8>, schedule: usize, words: usize, random: &mut Random) -> Call {
    let [schedule, words] = [schedule, words].map(|length| random.bytes(length));
    Call::new("read_input", [input, schedule, words], random)
}

fn length(right: usize, random: &mut Random) -> usize {
    numbers::length_or(right, &[right - 1, right + 1, 0, 2 * right], random)
}

/// Bytes that are wrong in most places.
const ODD: [u8; 16] = *b"\t\t\r \n\0tX/:-09\xEF\x7F\xFF";

/// Byte order marks.
const MARKS: [&[u8]; 3] = [b"\xEF\xBB\xBF", b"\xFF\xFE", b"\xFE\xFF"];

/// An input, which in half of all cases can be read.
fn input(random: &mut Random) -> Vec<u8> {
    if random.once_in(60) {
        return Vec::new();
    }
    let entries = match random.below(16) {
        0 => 0,
        1 => MOST_ENTRIES - 1 + random.below(4),
        2 => random.below(300),
        _ => random.below(12),
    };
    let mut text = match random.below(80) {
        0 => Vec::new(),
        1 => number(4, 5, random),
        _ => number(1, 3, random),
    };
    for _ in 0..entries {
        text.push(b'\n');
        text.extend(entry(random));
    }
    if !random.once_in(4) {
        text.push(b'\n');
    }
    if random.once_in(2) {
        damage(&mut text, random);
    }
    text
}

/// A line that can be read.
pub fn entry(random: &mut Random) -> Vec<u8> {
    let letter = random.pick(b"TLC");
    [&[letter, b' '][..], &number(1, 2, random)].concat()
}

/// So many digits.
pub fn number(least: usize, most: usize, random: &mut Random) -> Vec<u8> {
    let digits = random.between(least, most);
    let digit = |_| b'0' + random.below(10) as u8;
    (0..digits).map(digit).collect()
}

/// Changes the text in one place, more often at its beginning or its end, or all
/// its letters.
fn damage(text: &mut Vec<u8>, random: &mut Random) {
    let Some(last) = text.len().checked_sub(1) else {
        return;
    };
    let place = match random.below(4) {
        0 => random.below(last.min(3) + 1),
        1 => last - random.below(last.min(5) + 1),
        _ => random.below(last + 1),
    };
    match random.below(12) {
        0 => text.truncate(place),
        1 => {
            text.remove(place);
        }
        2 => text.insert(place, random.byte()),
        3 => text.insert(place, random.pick(&ODD)),
        4 => text.push(random.pick(&ODD)),
        5 => {
            let spaces = places(text, b' ');
            if !spaces.is_empty() {
                text[random.pick(&spaces)] = random.pick(b"\t\t\0T");
            }
        }
        8 => {
            let spaces = places(text, b' ');
            if !spaces.is_empty() {
                text[random.pick(&spaces) + 1] = random.pick(&ODD);
            }
        }
        9 => {
            let ends = places(text, b'\n');
            if !ends.is_empty() {
                let end = ends[random.below(ends.len().min(3))];
                text.insert(end, random.pick(b"\r\r \tX:x\0\xEF"));
            }
        }
        6 => text.make_ascii_lowercase(),
        7 => {
            let mark = random.pick(&MARKS);
            text.splice(place..place, mark.iter().copied());
        }
        _ => text[place] = random.pick(&ODD),
    }
}

/// Where this byte stands.
fn places(text: &[u8], byte: u8) -> Vec<usize> {
    (0..text.len()).filter(|at| text[*at] == byte).collect()
}
