//! What can be asked, but for the run.

use crate::groups::{answers_from, group, DueOrAhead};
use crate::line::row_part;
use crate::numbers::{Distance, Level, Size, Station};
use crate::plant::{check_length, Plant};
use crate::refusal::{number_of, Refusal};
use crate::wiring::Wiring;

/// Fresh table: refusals 24, 1, 2.
pub fn fresh_table(wiring: usize, n: usize, table: &mut [u8]) -> u8 {
    let admitted = admit_fresh_table(wiring, n, table);
    if let Ok(fresh) = &admitted {
        fresh.encode(table);
    }
    number_of(&admitted)
}

fn admit_fresh_table(wiring: usize, n: usize, table: &[u8]) -> Result<Plant, Refusal> {
    let wiring = Wiring::new(wiring)?;
    let size = Size::new(n)?;
    check_length(size, table)?;
    Ok(Plant::fresh(wiring, size))
}

/// Group list: refusals 1, 9, 12, 13.
pub fn group_list(n: usize, station: u8, level: u8, list: &mut [u8]) -> u8 {
    let admitted = admit_group_list(n, station, level, list.len());
    if let Ok((size, i, s)) = admitted {
        for (place, member) in list.iter_mut().zip(group(size, i, s)) {
            *place = member.number();
        }
    }
    number_of(&admitted)
}

fn admit_group_list(
    n: usize,
    station: u8,
    level: u8,
    length: usize,
) -> Result<(Size, Station, Level), Refusal> {
    let size = Size::new(n)?;
    let i = size.station(station)?;
    let s = size.level(level)?;
    Refusal::ListLength.when(length != group(size, i, s).count())?;
    Ok((size, i, s))
}

/// Assignment: refusals 1 to 4, 9, 10, 13. Gives the number and the count.
pub fn assignment(n: usize, table: &[u8], station: u8, list: &mut [u8]) -> (u8, usize) {
    match admit_assignment(n, table, station, list.len()) {
        Ok((plant, i)) => (0, write_assignment(&plant, i, list)),
        Err(refusal) => (refusal.number(), 0),
    }
}

fn admit_assignment(
    n: usize,
    table: &[u8],
    station: u8,
    length: usize,
) -> Result<(Plant, Station), Refusal> {
    let plant = Plant::admit(Wiring::Cube, n, table)?;
    let i = plant.size().station(station)?;
    plant.check_live(i)?;
    Refusal::ListLength.when(length != 2 * (n - 1))?;
    Ok((plant, i))
}

/// Writes an entry of two bytes for each other station, by ascending distance;
/// gives how many are due.
fn write_assignment(plant: &Plant, i: Station, list: &mut [u8]) -> usize {
    let answers = answers_from(plant.size(), i, plant.line(i).row, Distance::FIRST);
    let mut count = 0;
    for (entry, (distance, _, answer)) in list.chunks_exact_mut(2).zip(answers) {
        entry.copy_from_slice(&[distance.number(), answer.number()]);
        count += usize::from(answer == DueOrAhead::Due);
    }
    count
}

/// The number of the question for a row: refusals 24, 1 to 4, 9.
pub fn row_refusal(wiring: usize, n: usize, table: &[u8], station: u8) -> u8 {
    number_of(&admit_row(wiring, n, table, station))
}

/// The station's row as a part of the table; the empty part on refusal.
pub fn row(wiring: usize, n: usize, table: &[u8], station: u8) -> &[u8] {
    match admit_row(wiring, n, table, station) {
        Ok((size, i)) => {
            let length = size.line_length();
            row_part(&table[i.index() * length..][..length])
        }
        Err(_) => &[],
    }
}

fn admit_row(
    wiring: usize,
    n: usize,
    table: &[u8],
    station: u8,
) -> Result<(Size, Station), Refusal> {
    let size = Plant::admit_on(wiring, n, table)?.size();
    let i = size.station(station)?;
    Ok((size, i))
}

/// The first of refusals 24 and 1 to 4 that the table meets, or 0.
pub fn check_table(wiring: usize, n: usize, table: &[u8]) -> u8 {
    number_of(&Plant::admit_on(wiring, n, table))
}
