//! The converter of stored files. They are of edition 1: fields in any order, no
//! opening, and lines with heads of four bytes. What is written is edition 2.

use crate::fields::{is_tag_of_plants, read_lines, read_size_and_tally, split_into_fields, Field};
use crate::line::{keeps_former_line_rules, widened, FORMER_HEAD};
use crate::numbers::Size;
use crate::refusal::{number_of, Refusal};
use crate::saved::write;

/// The length of a saved plant that holds no line: opening, size and tally.
const FRONT: usize = 19;

/// The bytes of a line field that are not the line: tag, length and station.
const FIELD_HEAD: usize = 4;

/// The converter: refusals 18, 22, 19, 1, 20, 3, 4, 13.
pub fn convert(old: &[u8], file: &mut [u8]) -> u8 {
    let admitted = admit_convert(old, file.len());
    if let Ok(converted) = &admitted {
        file.copy_from_slice(converted);
    }
    number_of(&admitted)
}

/// The length of the file that a stored one is converted to: refusals 18, 22,
/// 19, 1. Gives the number and the length.
pub fn converted_length(old: &[u8]) -> (u8, usize) {
    let admitted = admit_fields(old).and_then(|fields| read_size_and_tally(&fields));
    match admitted {
        Ok((size, _)) => (0, length_of(size)),
        Err(refusal) => (refusal.number(), 0),
    }
}

/// The length of a saved plant.
fn length_of(size: Size) -> usize {
    FRONT + size.count() * (FIELD_HEAD + size.line_length())
}

/// The file of edition 2, or one of refusals 18, 22, 19, 1, 20, 3, 4, 13.
fn admit_convert(old: &[u8], length: usize) -> Result<Vec<u8>, Refusal> {
    let fields = admit_fields(old)?;
    let (size, tally) = read_size_and_tally(&fields)?;
    let lines = read_lines(&fields, size, FORMER_HEAD + size.count())?;
    check_former_lines(size, &lines)?;
    Refusal::ListLength.when(length != length_of(size))?;
    let table: Vec<u8> = lines.iter().flat_map(|line| widened(line)).collect();
    Ok(write(size, &table, tally))
}

/// All fields, or one of refusals 18, 22. Tag 4 is one that is not known.
fn admit_fields(old: &[u8]) -> Result<Vec<Field<'_>>, Refusal> {
    let fields = split_into_fields(old)?;
    Refusal::FieldOrder.when(!fields.iter().all(|field| is_tag_of_plants(field.tag)))?;
    Ok(fields)
}

/// Refusals 3 and 4, as they were with heads of four bytes. Used only on the
/// lines of all stations, of the right length.
fn check_former_lines(size: Size, lines: &[&[u8]]) -> Result<(), Refusal> {
    let mut owned = size.stations().zip(lines);
    let keeps = owned.all(|(own, line)| keeps_former_line_rules(size, own, line));
    Refusal::LineRule.when(!keeps)?;
    let mut live = lines.iter().filter(|line| line[0] == 0).peekable();
    Refusal::RoundNotClosed.when(live.peek().is_some() && live.all(|line| line[2] == 1))
}
