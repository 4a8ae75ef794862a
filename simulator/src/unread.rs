//! What is said to people of a line that cannot be read.

use crate::reading::read_kind;

const END: &str = "the end of the line";

/// Of an input without any line.
pub fn no_input() -> String {
    wrong("an empty input", SIZE)
}

/// Of a first line that is no size.
pub fn no_size(line: &[u8]) -> String {
    match line {
        [] => wrong(EMPTY, SIZE),
        _ => no_number(line, 3, SIZE),
    }
}

/// Of a later line that is no entry.
pub fn no_entry(line: &[u8]) -> String {
    let Some((letter, rest)) = line.split_first() else {
        return wrong(EMPTY, "an entry (T, L or C, a space, one or two digits)");
    };
    if read_kind(*letter).is_none() {
        return wrong(&standing(line), "T, L or C");
    }
    match rest.strip_prefix(b" ") {
        None => wrong(&standing(rest), "a space"),
        Some(station) => no_number(station, 2, "a digit"),
    }
}

/// Of an entry for which there is no room.
pub fn one_too_many() -> String {
    let expected = "the end of the input (4,096 entries at most)";
    wrong("a 4,097th entry", expected)
}

const EMPTY: &str = "an empty line";

const SIZE: &str = "the size (one to three digits)";

fn wrong(found: &str, expected: &str) -> String {
    format!("{found} where {expected} is expected")
}

/// Of what is not one digit or more, up to `most`, and nothing behind them.
fn no_number(text: &[u8], most: usize, first: &str) -> String {
    let is_behind = |byte: &u8| !byte.is_ascii_digit();
    let digits = text.iter().position(is_behind).unwrap_or(text.len());
    match digits {
        0 => wrong(&standing(text), first),
        _ if digits > most => wrong("a digit too many", END),
        _ => wrong(&standing(&text[digits..]), END),
    }
}

/// What stands at a place of a line, from which on it has these bytes.
fn standing(bytes: &[u8]) -> String {
    let name = match *bytes {
        [] => END,
        [239, 187, 191, ..] | [255, 254, ..] | [254, 255, ..] => "a byte order mark",
        [9, ..] => "a tab",
        [13, ..] => "a carriage return",
        [32, ..] => "a space",
        [48..=57, ..] => "a digit",
        [97..=122, ..] => "a lower case letter",
        [byte @ 33..=126, ..] => return format!("the character {}", char::from(byte)),
        [byte, ..] => return format!("the byte {byte:02x} (hexadecimal)"),
    };
    String::from(name)
}
