//! The slot of a station: its tests a round, and the most with one more dead.

use crate::numbers::Station;
use crate::plant::Plant;
use crate::refusal::Refusal;
use crate::sheet::{most_with_one_more, tested};
use crate::wiring::Wiring;

/// What the question for a slot answers.
#[derive(Clone, Copy, Debug, Default, PartialEq, Eq)]
pub struct Slot {
    /// 0 or the refusal, with which all else is 0.
    pub number: u8,
    pub tests: usize,
    pub most: usize,
}

/// Slot: refusals 1 to 4, 9, 10.
pub fn slot(n: usize, table: &[u8], station: u8) -> Slot {
    match admit(n, table, station) {
        Err(refusal) => Slot {
            number: refusal.number(),
            ..Slot::default()
        },
        Ok((plant, i)) => of_station(&plant, i),
    }
}

fn admit(n: usize, table: &[u8], station: u8) -> Result<(Plant, Station), Refusal> {
    let plant = Plant::admit(Wiring::Cube, n, table)?;
    let i = plant.size().station(station)?;
    plant.check_live(i)?;
    Ok((plant, i))
}

fn of_station(plant: &Plant, i: Station) -> Slot {
    let (size, row) = (plant.size(), plant.line(i).row);
    Slot {
        number: 0,
        tests: tested(size, i, row).count(),
        most: most_with_one_more(size, i, row),
    }
}
