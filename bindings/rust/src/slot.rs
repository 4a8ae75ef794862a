//! The slot of a station.

use crate::{Refusal, Station, accepted, raw};

/// How many tests a station makes a round, and how many its slot is timed for.
#[derive(Clone, Copy, Debug, PartialEq, Eq, Hash)]
pub struct Slot {
    /// Its tests a round, by its own row.
    pub tests: usize,
    /// The most tests if it suspects any one other station besides: its slot on the
    /// cable is timed by that.
    pub most: usize,
}

/// Slot, on the cube: both numbers of a live station, by its own row. The
/// commissioning sheet has them by the row that suspects just those that are not
/// live. They are the same once the station knows the dead, and suspects no live
/// station. Until then time slots by the sheet; or by this call on a copy of the table,
/// with 1 in the station's row for each station that is not live.
///
/// # Errors
///
/// [`Refusal::SizeOutOfRange`], [`Refusal::TableLength`], [`Refusal::LineRule`], [`Refusal::RoundNotClosed`],
/// [`Refusal::NoSuchStation`] or [`Refusal::NotLive`].
///
/// # Example
///
/// ```
/// use vcube::{Slot, Station, Wiring, HEAD};
///
/// let n = 8;
/// let mut table = [0; vcube::table_length(8)];
/// vcube::fresh_table(Wiring::Cube, n, &mut table)?;
/// // Stations 0 and 1 crash, and 2 does not know it yet.
/// table[0] = 1;
/// table[n + HEAD] = 1;
/// assert_eq!(vcube::slot(n, &table, Station(2))?, Slot { tests: 3, most: 5 });
/// // By the commissioning sheet:
/// table[2 * (n + HEAD) + HEAD..][..2].fill(1);
/// assert_eq!(vcube::slot(n, &table, Station(2))?, Slot { tests: 4, most: 7 });
/// # Ok::<(), vcube::Refusal>(())
/// ```
pub fn slot(n: usize, table: &[u8], station: Station) -> Result<Slot, Refusal> {
    let (mut tests, mut most) = (0, 0);
    let number = raw::slot(n, table, station.0, &mut tests, &mut most);
    accepted(number).map(|()| Slot { tests, most })
}
