//! The fields of a file, and what both editions of saved plants read from them.

use crate::numbers::{Size, Station};
use crate::refusal::Refusal;

/// The tag of the field with the size, one byte.
pub const SIZE: u8 = 1;

/// The tag of the field with rounds and tests, four bytes each.
pub const TALLY: u8 = 2;

/// The tag of a field with a station number and the station's line.
pub const LINE: u8 = 3;

/// A tagged field.
#[derive(Clone, Copy, Debug, PartialEq, Eq)]
pub struct Field<'a> {
    pub tag: u8,
    pub contents: &'a [u8],
}

/// The tag, the length in two bytes, high byte first, and the contents.
pub fn write_field(tag: u8, contents: &[u8]) -> Vec<u8> {
    let [high, low] = (contents.len() as u16).to_be_bytes();
    [&[tag, high, low], contents].concat()
}

/// All fields of the file in its order, or refusal 18.
pub fn split_into_fields(file: &[u8]) -> Result<Vec<Field<'_>>, Refusal> {
    let mut fields = Vec::new();
    let mut rest = file;
    while !rest.is_empty() {
        let (field, behind) = split_first_field(rest).ok_or(Refusal::FieldPastEnd)?;
        fields.push(field);
        rest = behind;
    }
    Ok(fields)
}

/// The first field and the bytes behind it. None if its head or its contents
/// run past the end.
fn split_first_field(file: &[u8]) -> Option<(Field<'_>, &[u8])> {
    let (head, rest) = file.split_at_checked(3)?;
    let length = usize::from(head[1]) * 256 + usize::from(head[2]);
    let (contents, behind) = rest.split_at_checked(length)?;
    let tag = head[0];
    Some((Field { tag, contents }, behind))
}

/// Whether a plant has fields with this tag.
pub fn is_tag_of_plants(tag: u8) -> bool {
    [SIZE, TALLY, LINE].contains(&tag)
}

/// The contents of all fields with this tag.
fn with_tag<'a>(fields: &[Field<'a>], tag: u8) -> Vec<&'a [u8]> {
    let tagged = fields.iter().filter(|field| field.tag == tag);
    tagged.map(|field| field.contents).collect()
}

/// The contents of the only field with this tag. Refusal 19 if it is absent,
/// twice or of another length.
fn only_field<'a>(fields: &[Field<'a>], tag: u8, length: usize) -> Result<&'a [u8], Refusal> {
    match with_tag(fields, tag)[..] {
        [contents] if contents.len() == length => Ok(contents),
        _ => Err(Refusal::SizeOrTallyField),
    }
}

/// The size and the tally, which is (rounds, tests); or refusal 19 for either
/// field, then 1.
pub fn read_size_and_tally(fields: &[Field]) -> Result<(Size, (u32, u32)), Refusal> {
    let size = only_field(fields, SIZE, 1)?;
    let tally = only_field(fields, TALLY, 8)?;
    let size = Size::new(usize::from(size[0]))?;
    let (rounds, tests) = tally.split_at(4);
    Ok((size, (read_figure(rounds), read_figure(tests))))
}

/// A figure of four bytes, high byte first.
fn read_figure(bytes: &[u8]) -> u32 {
    let append = |figure, byte: &u8| figure * 256 + u32::from(*byte);
    bytes.iter().fold(0, append)
}

/// The lines, of this length each, in station order. Refusal 20 if a line field
/// has another length than such a line and its station, or a station is absent,
/// twice or too high.
pub fn read_lines<'a>(
    fields: &[Field<'a>],
    size: Size,
    line_length: usize,
) -> Result<Vec<&'a [u8]>, Refusal> {
    let fields = with_tag(fields, LINE);
    let wrong_length = fields.iter().any(|field| field.len() != 1 + line_length);
    Refusal::LineField.when(wrong_length)?;
    let too_high = fields.iter().any(|field| size.station(field[0]).is_err());
    Refusal::LineField.when(too_high)?;
    let lines = size.stations().map(|station| only_line(&fields, station));
    lines.collect()
}

/// The line of this station. Refusal 20 if the station is absent or twice.
/// Used only on line fields of the right length.
fn only_line<'a>(fields: &[&'a [u8]], station: Station) -> Result<&'a [u8], Refusal> {
    let of_station = fields.iter().filter(|field| field[0] == station.number());
    match of_station.collect::<Vec<_>>()[..] {
        [field] => Ok(&field[1..]),
        _ => Err(Refusal::LineField),
    }
}
