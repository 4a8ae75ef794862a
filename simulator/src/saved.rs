//! The saved plant, edition 2: the writer, the reader and the question for its
//! size.
//!
//! A file is split into its fields first; everything else is read from the
//! list of fields.

use crate::fields::{
    is_tag_of_plants, read_lines, read_size_and_tally, split_into_fields, write_field, Field, LINE,
    SIZE, TALLY,
};
use crate::numbers::Size;
use crate::plant::{check_length, Plant};
use crate::refusal::{number_of, Refusal};
use crate::wiring::Wiring;

/// The field that a file of edition 2 begins with.
const OPENING: Field = Field {
    tag: 4,
    contents: &[2],
};

/// What a load answers.
#[derive(Clone, Copy, Debug, PartialEq, Eq)]
pub struct Loaded {
    /// 0 or the refusal.
    pub number: u8,
    /// The size n, 0 where refused.
    pub size: usize,
    /// The tally of closed rounds, 0 where refused.
    pub rounds: u32,
    /// The tally of tests, 0 where refused.
    pub tests: u32,
}

/// What the fields of a file say.
struct Contents {
    size: Size,
    /// Rounds and tests.
    tally: (u32, u32),
    /// The lines in station order, one behind the other.
    table: Vec<u8>,
}

/// Save: refusals 1 to 4, 13. The tally is (rounds, tests).
pub fn save(n: usize, table: &[u8], tally: (u32, u32), saved: &mut [u8]) -> u8 {
    let admitted = admit_save(n, table, tally, saved.len());
    if let Ok(file) = &admitted {
        saved.copy_from_slice(file);
    }
    number_of(&admitted)
}

/// Load: refusals 18, 21, 22, 19, 1, 20, 2, 3, 4.
pub fn load(file: &[u8], table: &mut [u8]) -> Loaded {
    match admit_load(file, table) {
        Err(refusal) => Loaded {
            number: refusal.number(),
            size: 0,
            rounds: 0,
            tests: 0,
        },
        Ok(contents) => {
            table.copy_from_slice(&contents.table);
            let (rounds, tests) = contents.tally;
            Loaded {
                number: 0,
                size: contents.size.count(),
                rounds,
                tests,
            }
        }
    }
}

/// The size of a saved plant: refusals 18, 21, 22, 19, 1. Gives the number and
/// the size.
pub fn saved_size(file: &[u8]) -> (u8, usize) {
    let admitted = admit_fields(file).and_then(|fields| read_size_and_tally(&fields));
    match admitted {
        Ok((size, _)) => (0, size.count()),
        Err(refusal) => (refusal.number(), 0),
    }
}

/// The saved plant, or one of refusals 1 to 4.
pub fn saved_plant(n: usize, table: &[u8], tally: (u32, u32)) -> Result<Vec<u8>, Refusal> {
    let size = Plant::admit(Wiring::Cube, n, table)?.size();
    Ok(write(size, table, tally))
}

/// The saved plant, or one of refusals 1 to 4, 13.
fn admit_save(
    n: usize,
    table: &[u8],
    tally: (u32, u32),
    length: usize,
) -> Result<Vec<u8>, Refusal> {
    let file = saved_plant(n, table, tally)?;
    Refusal::ListLength.when(length != file.len())?;
    Ok(file)
}

/// What the file says, or one of refusals 18, 21, 22, 19, 1, 20, 2, 3, 4.
fn admit_load(file: &[u8], table: &[u8]) -> Result<Contents, Refusal> {
    let fields = admit_fields(file)?;
    let (size, tally) = read_size_and_tally(&fields)?;
    let lines = read_lines(&fields, size, size.line_length())?.concat();
    check_length(size, table)?;
    check_lines(size, &lines)?;
    Ok(Contents {
        size,
        tally,
        table: lines,
    })
}

/// The opening, the size, the tally, then the lines ascending.
pub fn write(size: Size, table: &[u8], (rounds, tests): (u32, u32)) -> Vec<u8> {
    let tally = [rounds.to_be_bytes(), tests.to_be_bytes()].concat();
    let mut file = [
        write_field(OPENING.tag, OPENING.contents),
        write_field(SIZE, &[size.count() as u8]),
        write_field(TALLY, &tally),
    ]
    .concat();
    for (station, line) in size.stations().zip(table.chunks(size.line_length())) {
        let contents = [&[station.number()], line].concat();
        file.extend(write_field(LINE, &contents));
    }
    file
}

/// The fields after the opening, or one of refusals 18, 21, 22.
fn admit_fields(file: &[u8]) -> Result<Vec<Field<'_>>, Refusal> {
    let mut fields = split_into_fields(file)?;
    Refusal::NoOpening.when(fields.first() != Some(&OPENING))?;
    fields.remove(0);
    Refusal::FieldOrder.when(!fields.iter().all(|field| is_tag_of_plants(field.tag)))?;
    Refusal::FieldOrder.when(!fields.iter().is_sorted_by_key(|field| rank(field)))?;
    Ok(fields)
}

/// By what the fields after the opening are ordered: the tag, and among lines
/// the station, which is 0 where the field is empty.
fn rank(field: &Field) -> (u8, u8) {
    let station = match field.tag {
        LINE => field.contents.first().copied().unwrap_or(0),
        _ => 0,
    };
    (field.tag, station)
}

/// Refusals 3 and 4. Used only on n lines of the right length, which meet
/// neither 1 nor 2.
fn check_lines(size: Size, lines: &[u8]) -> Result<(), Refusal> {
    Plant::admit(Wiring::Cube, size.count(), lines)?;
    Ok(())
}
