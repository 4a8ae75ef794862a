//! Groups by distance, which distances are due, and who is ahead at the others.

use crate::line::Row;
use crate::numbers::{Distance, Level, Size, Station};

/// The group of a station at a level, in order: the stations of the plant
/// only, which may be none.
pub fn group(size: Size, station: Station, level: Level) -> impl Iterator<Item = Station> {
    let at = move |distance| size.station_at(station, distance);
    level.distances().filter_map(at)
}

/// The answer to the question whether a distance is due.
#[derive(Clone, Copy, Debug, PartialEq, Eq)]
pub enum DueOrAhead {
    /// The distance is due: the asking station is first in the group.
    Due,
    /// It is not due: this station is first instead.
    Ahead(Station),
}

impl DueOrAhead {
    /// Byte 1 of an entry of the assignment: 255 or the station ahead.
    pub fn number(self) -> u8 {
        match self {
            DueOrAhead::Due => 255,
            DueOrAhead::Ahead(station) => station.number(),
        }
    }
}

/// Whether distance m is due for station i with this row, where station j
/// stands at distance m, or who is ahead.
fn due_or_ahead(size: Size, i: Station, row: Row, j: Station, m: Distance) -> DueOrAhead {
    let first = group(size, j, m.level())
        .find(|station| !row.suspects(*station))
        .expect("station i is in the group and does not suspect itself");
    if first == i {
        DueOrAhead::Due
    } else {
        DueOrAhead::Ahead(first)
    }
}

/// The distances not below `next` at which a station stands, ascending, each
/// with its station and the answer whether it is due for station i.
pub fn answers_from(
    size: Size,
    i: Station,
    row: Row,
    next: Distance,
) -> impl Iterator<Item = (Distance, Station, DueOrAhead)> {
    let answer = move |m| {
        let j = size.station_at(i, m)?;
        Some((m, j, due_or_ahead(size, i, row, j, m)))
    };
    size.distances_from(next).filter_map(answer)
}

/// The due distances of station i not below `next`, ascending, each with the
/// station that stands there.
pub fn due_from(
    size: Size,
    i: Station,
    row: Row,
    next: Distance,
) -> impl Iterator<Item = (Distance, Station)> {
    let due = |(m, j, answer)| (answer == DueOrAhead::Due).then_some((m, j));
    answers_from(size, i, row, next).filter_map(due)
}
