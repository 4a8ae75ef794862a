//! Reading of sizes, stations and kinds by the programs.

/// A size: one to three digits.
pub fn read_size(digits: &[u8]) -> Option<usize> {
    read_number(digits, 3)
}

/// A station: one or two digits.
pub fn read_station(digits: &[u8]) -> Option<u8> {
    Some(read_number(digits, 2)? as u8)
}

/// One digit or more, up to `most`; leading zeros are read.
fn read_number(digits: &[u8], most: usize) -> Option<usize> {
    let readable = digits.iter().all(u8::is_ascii_digit);
    if digits.is_empty() || digits.len() > most || !readable {
        return None;
    }
    let append = |number, digit: &u8| 10 * number + usize::from(digit - b'0');
    Some(digits.iter().fold(0, append))
}

/// The kind of an entry, by its letter.
pub fn read_kind(letter: u8) -> Option<u8> {
    match letter {
        b'T' => Some(1),
        b'L' => Some(2),
        b'C' => Some(3),
        _ => None,
    }
}
