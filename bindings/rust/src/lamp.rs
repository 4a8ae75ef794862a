//! The doubt lamp.

use crate::entries::NO_STATION;
use crate::{Refusal, Station, Wiring, accepted, number_of, raw};

/// A live station that suspects another live one.
#[derive(Clone, Copy, Debug, PartialEq, Eq, Hash)]
pub struct Doubt {
    /// Which one suspects.
    pub by: Station,
    /// Which one it suspects.
    pub of: Station,
}

/// Doubt lamp: the first live station that suspects another live one, and the
/// first one that it suspects; none where no live station suspects a live one.
///
/// # Errors
///
/// [`Refusal::SizeOutOfRange`], [`Refusal::TableLength`], [`Refusal::LineRule`] or
/// [`Refusal::RoundNotClosed`].
///
/// # Example
///
/// ```
/// use vcube::{Doubt, Entry, Kind, Station, Tally, Wiring};
///
/// let mut table = [0; vcube::table_length(4)];
/// vcube::fresh_table(Wiring::Cube, 4, &mut table)?;
/// assert_eq!(vcube::doubt_lamp(Wiring::Cube, 4, &table)?, None);
///
/// // The reply of 1 to 0 is late.
/// let late = Entry { kind: Kind::LateTurn, station: Station(0) }.bytes();
/// let mut tally = Tally::default();
/// let answer = vcube::run(Wiring::Cube, 4, &mut table, &mut tally, &late, &mut [0; 4]);
/// assert_eq!(answer.refusal, None);
/// let doubt = Doubt { by: Station(0), of: Station(1) };
/// assert_eq!(vcube::doubt_lamp(Wiring::Cube, 4, &table)?, Some(doubt));
/// # Ok::<(), vcube::Refusal>(())
/// ```
pub fn doubt_lamp(wiring: Wiring, n: usize, table: &[u8]) -> Result<Option<Doubt>, Refusal> {
    let (mut by, mut of) = (0, 0);
    let number = raw::doubt_lamp(number_of(wiring), n, table, &mut by, &mut of);
    accepted(number)?;
    let is_lit = by != NO_STATION;
    Ok(is_lit.then_some(Doubt { by: Station(by), of: Station(of) }))
}
