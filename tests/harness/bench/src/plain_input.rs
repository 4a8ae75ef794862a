//! The reading of an input in plain Rust. Of a line that cannot be read it says
//! which it is, and has no words: the bench times inputs that can be read.

use vcube::{Input, SCHEDULE_LENGTH};

/// What was read, or the number of the first line that cannot be read.
pub fn read_input(input: &[u8], schedule: &mut [u8; SCHEDULE_LENGTH]) -> Result<Input, usize> {
    let text = input.strip_suffix(b"\n").unwrap_or(input);
    let mut lines = text.split(|byte| *byte == b'\n');
    let n = lines.next().and_then(|line| number(line, 3)).ok_or(1_usize)?;
    let mut places = schedule.chunks_exact_mut(2);
    let mut entries = 0;
    for line in lines {
        let (Some(place), Some(entry)) = (places.next(), entry(line)) else {
            return Err(entries + 2);
        };
        place.copy_from_slice(&entry);
        entries += 1;
    }
    Ok(Input { n, entries })
}

fn entry(line: &[u8]) -> Option<[u8; 2]> {
    let [letter, b' ', station @ ..] = line else {
        return None;
    };
    let kind = match letter {
        b'T' => 1,
        b'L' => 2,
        b'C' => 3,
        _ => return None,
    };
    Some([kind, number(station, 2)? as u8])
}

/// One to so many digits.
fn number(digits: &[u8], most: usize) -> Option<usize> {
    if digits.is_empty() || digits.len() > most {
        return None;
    }
    digits.iter().try_fold(0, |value, digit| {
        let is_digit = digit.is_ascii_digit();
        is_digit.then(|| 10 * value + usize::from(digit - b'0'))
    })
}
