//! The bus master that grants the turns.

use crate::entries::NO_STATION;
use crate::{Refusal, Station, Tally, Wiring, accepted, number_of, raw};

/// What a drive answers beside the tally and the last granted station.
#[derive(Clone, Copy, Debug, PartialEq, Eq, Hash)]
#[must_use = "a refused drive did not close the round"]
pub struct Driven {
    /// The refusal it stopped with, if any.
    pub refusal: Option<Refusal>,
    /// How many grants were made, each with its turn.
    pub grants: usize,
}

impl Driven {
    /// How many grants were made, where the drive came to its end.
    ///
    /// # Errors
    ///
    /// [`Driven::refusal`].
    ///
    /// # Example
    ///
    /// ```
    /// use vcube::{Driven, Refusal};
    ///
    /// assert_eq!(Driven { refusal: None, grants: 32 }.result(), Ok(32));
    /// let refusal = Refusal::TallyFull;
    /// assert_eq!(Driven { refusal: Some(refusal), grants: 3 }.result(), Err(refusal));
    /// ```
    pub fn result(self) -> Result<usize, Refusal> {
        self.refusal.map_or(Ok(self.grants), Err)
    }
}

/// Grant: the station that is to have the next turn, which is the next one
/// after `last`, going round, that is live and has not finished its pass. Where
/// `last` is none it begins at station 0, else it ends with `last` itself. The
/// library's number for none is 255, so `Some(Station(255))` is none, too.
///
/// # Errors
///
/// [`Refusal::SizeOutOfRange`], [`Refusal::TableLength`], [`Refusal::LineRule`], [`Refusal::RoundNotClosed`],
/// [`Refusal::LastGranted`] or [`Refusal::NoneLive`].
///
/// # Example
///
/// ```
/// use vcube::{Station, Wiring};
///
/// let mut table = [0; vcube::table_length(4)];
/// vcube::fresh_table(Wiring::Cube, 4, &mut table)?;
/// assert_eq!(vcube::grant(Wiring::Cube, 4, &table, None)?, Station(0));
/// assert_eq!(vcube::grant(Wiring::Cube, 4, &table, Some(Station(3)))?, Station(0));
/// # Ok::<(), vcube::Refusal>(())
/// ```
pub fn grant(
    wiring: Wiring,
    n: usize,
    table: &[u8],
    last: Option<Station>,
) -> Result<Station, Refusal> {
    let mut station = 0;
    let number = raw::grant(number_of(wiring), n, table, last_number(last), &mut station);
    accepted(number).map(|()| Station(station))
}

/// Drive: repeats a grant, as [`grant`] gives it, and the granted station's
/// turn ([`Kind::Turn`](crate::Kind::Turn)), until a turn closes the round or
/// leaves no station live; it makes at most n times n grants. The tally and the
/// last granted station go in and come back in their place. A drive that is
/// refused at its start leaves both as they were; one that stops at a full tally keeps
/// the turns made.
///
/// # Errors
///
/// [`Driven::refusal`] is [`Refusal::SizeOutOfRange`], [`Refusal::TableLength`], [`Refusal::LineRule`],
/// [`Refusal::RoundNotClosed`], [`Refusal::LastGranted`] or [`Refusal::NoneLive`]; or, before a grant,
/// [`Refusal::TallyFull`].
///
/// # Example
///
/// ```
/// use vcube::{Driven, Station, Tally, Wiring};
///
/// let mut table = [0; vcube::table_length(8)];
/// vcube::fresh_table(Wiring::Cube, 8, &mut table)?;
/// let (mut tally, mut last) = (Tally::default(), None);
///
/// // Each board makes 3 tests and then finishes its pass.
/// let driven = vcube::drive(Wiring::Cube, 8, &mut table, &mut tally, &mut last);
/// assert_eq!(driven, Driven { refusal: None, grants: 32 });
/// assert_eq!(tally, Tally { rounds: 1, tests: 24 });
/// assert_eq!(last, Some(Station(7)));
/// # Ok::<(), vcube::Refusal>(())
/// ```
pub fn drive(
    wiring: Wiring,
    n: usize,
    table: &mut [u8],
    tally: &mut Tally,
    last: &mut Option<Station>,
) -> Driven {
    let Tally { rounds, tests } = tally;
    let handed_in = last_number(*last);
    let (mut given_back, mut grants) = (handed_in, 0);
    let number =
        raw::drive(number_of(wiring), n, table, rounds, tests, &mut given_back, &mut grants);
    // Else it stays, for none and `Some(Station(255))` are the same number.
    if given_back != handed_in {
        *last = Some(Station(given_back));
    }
    Driven { refusal: accepted(number).err(), grants }
}

/// The last granted number that the library is handed.
fn last_number(last: Option<Station>) -> usize {
    last.map_or(NO_STATION, |station| station.0)
}
