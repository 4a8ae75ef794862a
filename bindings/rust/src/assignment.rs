//! Which distances are due for a station, and who is ahead at the others.

use crate::{Distance, Refusal, Station, accepted, raw};

/// Stands in an entry of an assignment's list whose distance is due.
pub const DUE: u8 = vcube_sys::VCUBE_DUE;

/// Whether a distance is due for a station.
#[derive(Clone, Copy, Debug, PartialEq, Eq, Hash)]
pub enum DueOrAhead {
    /// Of the group of the station at that distance, at the level of the
    /// distance, the asking station is the first that it does not suspect.
    Due,
    /// The station that is first instead. It may be one that is not live.
    Ahead(Station),
}

/// An entry of an assignment: what it says of one other station.
#[derive(Clone, Copy, Debug, PartialEq, Eq, Hash)]
pub struct AssignmentEntry {
    /// The distance at which the other station is.
    pub distance: Distance,
    /// What it says of that distance.
    pub answer: DueOrAhead,
}

impl AssignmentEntry {
    pub(crate) fn from_bytes([distance, answer]: [u8; 2]) -> AssignmentEntry {
        AssignmentEntry {
            distance: Distance(distance),
            answer: match answer {
                DUE => DueOrAhead::Due,
                ahead => DueOrAhead::Ahead(Station(ahead.into())),
            },
        }
    }
}

/// The length of an assignment's list: n - 1 entries of two bytes.
/// It has no meaning for a size that the library refuses.
///
/// ```
/// assert_eq!(vcube::assignment_length(8), 14);
/// ```
#[must_use]
pub const fn assignment_length(n: usize) -> usize {
    n.saturating_sub(1).saturating_mul(2)
}

/// Assignment: an entry for each station other than this one, which is live, by
/// ascending distance, into a list of [`assignment_length`] bytes: the distance,
/// and [`DUE`] or else the station that is ahead. Gives how many are due.
/// Suspected stations and ones that are not live have an entry too, and the
/// next distance makes no difference.
///
/// # Errors
///
/// [`Refusal::SizeOutOfRange`], [`Refusal::TableLength`], [`Refusal::LineRule`], [`Refusal::RoundNotClosed`],
/// [`Refusal::NoSuchStation`], [`Refusal::NotLive`] or [`Refusal::ListLength`].
///
/// # Example
///
/// ```
/// use vcube::{Station, Wiring, DUE};
///
/// let mut table = [0; vcube::table_length(4)];
/// vcube::fresh_table(Wiring::Cube, 4, &mut table)?;
/// let mut list = [0; vcube::assignment_length(4)];
/// assert_eq!(vcube::assignment(4, &table, Station(1), &mut list)?, 2);
/// assert_eq!(list, [1, DUE, 2, DUE, 3, 0]);
/// # Ok::<(), vcube::Refusal>(())
/// ```
pub fn assignment(
    n: usize,
    table: &[u8],
    station: Station,
    list: &mut [u8],
) -> Result<usize, Refusal> {
    let mut count = 0;
    accepted(raw::assignment(n, table, station.0, list, &mut count)).map(|()| count)
}

/// The entries of an [`assignment`], by ascending distance, read from the list that
/// is lent.
///
/// # Errors
///
/// [`Refusal::SizeOutOfRange`], [`Refusal::TableLength`], [`Refusal::LineRule`], [`Refusal::RoundNotClosed`],
/// [`Refusal::NoSuchStation`], [`Refusal::NotLive`] or [`Refusal::ListLength`].
///
/// # Example
///
/// ```
/// use vcube::{DueOrAhead, Station, Wiring};
///
/// let mut table = [0; vcube::table_length(4)];
/// vcube::fresh_table(Wiring::Cube, 4, &mut table)?;
/// let mut list = [0; vcube::assignment_length(4)];
/// let entries = vcube::assignment_entries(4, &table, Station(1), &mut list)?;
/// let entries: Vec<_> = entries.map(|entry| (entry.distance.0, entry.answer)).collect();
/// let ahead = DueOrAhead::Ahead(Station(0));
/// assert_eq!(entries, [(1, DueOrAhead::Due), (2, DueOrAhead::Due), (3, ahead)]);
/// # Ok::<(), vcube::Refusal>(())
/// ```
pub fn assignment_entries<'a>(
    n: usize,
    table: &[u8],
    station: Station,
    list: &'a mut [u8],
) -> Result<impl Iterator<Item = AssignmentEntry> + use<'a>, Refusal> {
    assignment(n, table, station, list)?;
    let (entries, _) = list.as_chunks();
    Ok(entries.iter().map(|entry| AssignmentEntry::from_bytes(*entry)))
}

/// The distances of an [`assignment`] that are due, ascending.
///
/// # Errors
///
/// [`Refusal::SizeOutOfRange`], [`Refusal::TableLength`], [`Refusal::LineRule`], [`Refusal::RoundNotClosed`],
/// [`Refusal::NoSuchStation`], [`Refusal::NotLive`] or [`Refusal::ListLength`].
///
/// # Example
///
/// ```
/// use vcube::{Distance, Station, Wiring};
///
/// let mut table = [0; vcube::table_length(8)];
/// vcube::fresh_table(Wiring::Cube, 8, &mut table)?;
/// let mut list = [0; vcube::assignment_length(8)];
/// let due = vcube::due_distances(8, &table, Station(5), &mut list)?;
/// assert!(due.eq([1, 2, 4].map(Distance)));
/// # Ok::<(), vcube::Refusal>(())
/// ```
pub fn due_distances<'a>(
    n: usize,
    table: &[u8],
    station: Station,
    list: &'a mut [u8],
) -> Result<impl Iterator<Item = Distance> + use<'a>, Refusal> {
    let entries = assignment_entries(n, table, station, list)?;
    let due = entries.filter(|entry| entry.answer == DueOrAhead::Due);
    Ok(due.map(|entry| entry.distance))
}
