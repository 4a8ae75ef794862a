//! What the line of a station says of it: whether it is live, who told it to
//! leave and how long ago.

use crate::{Refusal, Station, Status, Wiring, accepted, line_length, number_of, raw};

/// How many bytes of a line of the table stand before its row.
pub const HEAD: usize = vcube_sys::VCUBE_HEAD;

/// Byte 4 of the line of a station that no other one told to leave.
pub const TOLD_BY_NONE: u8 = vcube_sys::VCUBE_TOLD_BY_NONE;

/// Byte 4 of the line of a station that was told to leave, where it was never
/// recorded by whom. Runs and drives never write it.
pub const TOLD_NOT_RECORDED: u8 = vcube_sys::VCUBE_TOLD_NOT_RECORDED;

/// Who told a station to leave.
#[derive(Clone, Copy, Debug, PartialEq, Eq, Hash)]
pub enum ToldBy {
    /// No other station: it is live, crashed, or left because alone.
    Nobody,
    /// It was told, but it was never recorded by whom.
    NotRecorded,
    /// The station whose row told it. It may be one that is not live now.
    Station(Station),
}

impl ToldBy {
    fn from_byte(byte: u8) -> ToldBy {
        match byte {
            TOLD_BY_NONE => ToldBy::Nobody,
            TOLD_NOT_RECORDED => ToldBy::NotRecorded,
            station => ToldBy::Station(Station(station.into())),
        }
    }
}

/// The line of a station in a table that was checked: [`lines`] gives all of a table,
/// [`line()`] gives one.
///
/// ```
/// use vcube::{Plant, Station, Status, ToldBy, Wiring};
///
/// // Station 1 was told by station 0, 7 rounds ago.
/// let table = [0, 1, 0, 0, 255, 0, 0, 1, 0, 2, 1, 0, 0, 0, 7, 0, 0, 0, 0, 1, 0, 0, 255, 0, 0, 0, 0];
/// let plant = Plant::from_table(Wiring::Cube, 3, &table)?;
/// for line in plant.lines()?.filter(|line| line.status() != Status::Live) {
///     let said = match line.told_by() {
///         ToldBy::Station(by) => format!("{} by {}", line.status(), by.0),
///         _ => line.status().to_string(),
///     };
///     let said = format!("board {} {said}, {} rounds ago", line.station().0, line.rounds_ago());
///     assert_eq!(said, "board 1 left because told by 0, 7 rounds ago");
/// }
/// # Ok::<(), vcube::Refusal>(())
/// ```
#[derive(Clone, Copy, Debug, PartialEq, Eq, Hash)]
pub struct Line<'a> {
    station: Station,
    bytes: &'a [u8],
}

impl<'a> Line<'a> {
    /// The station whose line it is.
    ///
    /// ```
    /// use vcube::{Plant, Station, Wiring};
    ///
    /// let plant = Plant::new(Wiring::Ring, 4)?;
    /// assert_eq!(plant.line(Station(3))?.station(), Station(3));
    /// # Ok::<(), vcube::Refusal>(())
    /// ```
    #[must_use]
    pub fn station(self) -> Station {
        self.station
    }

    /// Whether the station is live, and if not, why. Byte 0.
    ///
    /// ```
    /// use vcube::{Entry, Kind, Plant, Station, Status, Wiring};
    ///
    /// // 1's reply to 0 is late, and 0 suspects it. When 1 tests 0, it is told.
    /// let mut plant = Plant::new(Wiring::Cube, 4)?;
    /// plant.enter(Entry { kind: Kind::LateTurn, station: Station(0) })?;
    /// plant.enter(Entry { kind: Kind::Turn, station: Station(1) })?;
    /// assert_eq!(plant.line(Station(1))?.status(), Status::Told);
    /// # Ok::<(), vcube::Refusal>(())
    /// ```
    #[must_use]
    pub fn status(self) -> Status {
        Status::from_number(self.bytes[0]).expect("the line rules take 0 to 3")
    }

    /// The distance from which the next turn looks for a test. Byte 1.
    ///
    /// ```
    /// use vcube::{Entry, Kind, Plant, Station, Wiring};
    ///
    /// // 1's reply to 0 is late.
    /// let mut plant = Plant::new(Wiring::Ring, 4)?;
    /// plant.enter(Entry { kind: Kind::LateTurn, station: Station(0) })?;
    /// assert_eq!(plant.line(Station(0))?.next_distance(), 2);
    /// # Ok::<(), vcube::Refusal>(())
    /// ```
    #[must_use]
    pub fn next_distance(self) -> u8 {
        self.bytes[1]
    }

    /// Whether the station has finished its pass in this round. Byte 2.
    ///
    /// ```
    /// use vcube::{Entry, Kind, Plant, Station, Wiring};
    ///
    /// // 1's reply to 0 is late.
    /// let mut plant = Plant::new(Wiring::Ring, 4)?;
    /// plant.enter(Entry { kind: Kind::LateTurn, station: Station(0) })?;
    /// assert!(!plant.line(Station(0))?.has_finished_pass());
    /// # Ok::<(), vcube::Refusal>(())
    /// ```
    #[must_use]
    pub fn has_finished_pass(self) -> bool {
        self.bytes[2] == 1
    }

    /// How many tests the station made in this round. Byte 3.
    ///
    /// ```
    /// use vcube::{Entry, Kind, Plant, Station, Wiring};
    ///
    /// // 1's reply to 0 is late.
    /// let mut plant = Plant::new(Wiring::Ring, 4)?;
    /// plant.enter(Entry { kind: Kind::LateTurn, station: Station(0) })?;
    /// assert_eq!(plant.line(Station(0))?.tests_made(), 1);
    /// # Ok::<(), vcube::Refusal>(())
    /// ```
    #[must_use]
    pub fn tests_made(self) -> u8 {
        self.bytes[3]
    }

    /// Who told the station to leave. Where its status is [`Status::Told`]: a station,
    /// or that this was not recorded; else nobody. Byte 4.
    ///
    /// ```
    /// use vcube::{Entry, Kind, Plant, Station, ToldBy, Wiring};
    ///
    /// // 1's reply to 0 is late, and 0 suspects it. When 1 tests 0, it is told.
    /// let mut plant = Plant::new(Wiring::Cube, 4)?;
    /// plant.enter(Entry { kind: Kind::LateTurn, station: Station(0) })?;
    /// plant.enter(Entry { kind: Kind::Turn, station: Station(1) })?;
    /// assert_eq!(plant.line(Station(1))?.told_by(), ToldBy::Station(Station(0)));
    /// # Ok::<(), vcube::Refusal>(())
    /// ```
    #[must_use]
    pub fn told_by(self) -> ToldBy {
        ToldBy::from_byte(self.bytes[4])
    }

    /// How many rounds were closed since the station ceased to be live; one that
    /// closed on the very entry at which it ceased counts too. It stops at 255, which
    /// means 255 or more, and is 0 where the station is live. Byte 5.
    ///
    /// ```
    /// use vcube::{Entry, Kind, Plant, Station, Wiring};
    ///
    /// // 1's reply to 0 is late, and 0 suspects it. When 1 tests 0, it is told.
    /// let mut plant = Plant::new(Wiring::Cube, 4)?;
    /// plant.enter(Entry { kind: Kind::LateTurn, station: Station(0) })?;
    /// plant.enter(Entry { kind: Kind::Turn, station: Station(1) })?;
    /// plant.drive().result()?;
    /// assert_eq!(plant.line(Station(1))?.rounds_ago(), 1);
    /// # Ok::<(), vcube::Refusal>(())
    /// ```
    #[must_use]
    pub fn rounds_ago(self) -> u8 {
        self.bytes[5]
    }

    /// The row: byte k is 1 if the station suspects station k, else 0.
    ///
    /// ```
    /// use vcube::{Entry, Kind, Plant, Station, Wiring};
    ///
    /// // 1's reply to 0 is late.
    /// let mut plant = Plant::new(Wiring::Ring, 4)?;
    /// plant.enter(Entry { kind: Kind::LateTurn, station: Station(0) })?;
    /// assert_eq!(plant.line(Station(0))?.row(), [0, 1, 0, 0]);
    /// # Ok::<(), vcube::Refusal>(())
    /// ```
    #[must_use]
    pub fn row(self) -> &'a [u8] {
        &self.bytes[HEAD..]
    }

    /// Whether the station suspects that one. It suspects none that is not there.
    ///
    /// ```
    /// use vcube::{Entry, Kind, Plant, Station, Wiring};
    ///
    /// // 1's reply to 0 is late.
    /// let mut plant = Plant::new(Wiring::Ring, 4)?;
    /// plant.enter(Entry { kind: Kind::LateTurn, station: Station(0) })?;
    /// let line = plant.line(Station(0))?;
    /// assert!(line.suspects(Station(1)) && !line.suspects(Station(4)));
    /// # Ok::<(), vcube::Refusal>(())
    /// ```
    #[must_use]
    pub fn suspects(self, other: Station) -> bool {
        self.row().get(other.0) == Some(&1)
    }

    /// The stations that the station suspects, ascending.
    ///
    /// ```
    /// use vcube::{Entry, Kind, Plant, Station, Wiring};
    ///
    /// // 1's reply to 0 is late.
    /// let mut plant = Plant::new(Wiring::Ring, 4)?;
    /// plant.enter(Entry { kind: Kind::LateTurn, station: Station(0) })?;
    /// assert!(plant.line(Station(0))?.suspected().eq([Station(1)]));
    /// # Ok::<(), vcube::Refusal>(())
    /// ```
    pub fn suspected(self) -> impl Iterator<Item = Station> + use<'a> {
        let row = self.row().iter().enumerate();
        row.filter(|(_, byte)| **byte == 1).map(|(station, _)| Station(station))
    }
}

/// The lines of a table, in station order. The table is checked once for all of them.
///
/// # Errors
///
/// [`Refusal::SizeOutOfRange`], [`Refusal::TableLength`], [`Refusal::LineRule`] or [`Refusal::RoundNotClosed`].
///
/// # Example
///
/// ```
/// use vcube::{Line, Status, Wiring};
///
/// let mut table = [0; vcube::table_length(3)];
/// vcube::fresh_table(Wiring::Cube, 3, &mut table)?;
/// // Station 1 crashed.
/// table[9] = 1;
/// let statuses: Vec<_> = vcube::lines(Wiring::Cube, 3, &table)?.map(Line::status).collect();
/// assert_eq!(statuses, [Status::Live, Status::Crashed, Status::Live]);
/// # Ok::<(), vcube::Refusal>(())
/// ```
pub fn lines(
    wiring: Wiring,
    n: usize,
    table: &[u8],
) -> Result<impl ExactSizeIterator<Item = Line<'_>> + Clone, Refusal> {
    // A table that is not refused has a station 0.
    line(wiring, n, table, Station(0))?;
    let lines = table.chunks_exact(line_length(n)).enumerate();
    Ok(lines.map(|(station, bytes)| Line { station: Station(station), bytes }))
}

/// The line of a station.
///
/// # Errors
///
/// [`Refusal::SizeOutOfRange`], [`Refusal::TableLength`], [`Refusal::LineRule`], [`Refusal::RoundNotClosed`] or
/// [`Refusal::NoSuchStation`].
///
/// # Example
///
/// ```
/// use vcube::{Refusal, Station, Wiring};
///
/// let mut table = [0; vcube::table_length(3)];
/// vcube::fresh_table(Wiring::Cube, 3, &mut table)?;
/// // Station 0 suspects station 2.
/// table[8] = 1;
/// assert!(vcube::line(Wiring::Cube, 3, &table, Station(0))?.suspects(Station(2)));
/// let none = vcube::line(Wiring::Cube, 3, &table, Station(3));
/// assert_eq!(none, Err(Refusal::NoSuchStation));
/// # Ok::<(), vcube::Refusal>(())
/// ```
pub fn line(wiring: Wiring, n: usize, table: &[u8], station: Station) -> Result<Line<'_>, Refusal> {
    let (mut start, mut length) = (0, 0);
    let number = raw::row(number_of(wiring), n, table, station.0, &mut start, &mut length);
    accepted(number)?;
    // A head stands before each row.
    Ok(Line { station, bytes: &table[start - HEAD..][..HEAD + length] })
}

/// Status: whether the station is live, and if not, why. For all stations, [`lines`] checks
/// the table once.
///
/// # Errors
///
/// [`Refusal::SizeOutOfRange`], [`Refusal::TableLength`], [`Refusal::LineRule`], [`Refusal::RoundNotClosed`]
/// or [`Refusal::NoSuchStation`].
///
/// # Example
///
/// ```
/// use vcube::{Station, Status, Wiring};
///
/// let mut table = [0; vcube::table_length(3)];
/// vcube::fresh_table(Wiring::Cube, 3, &mut table)?;
/// // Station 1 was told by station 2, 7 rounds ago.
/// table[9..15].copy_from_slice(&[2, 1, 0, 0, 2, 7]);
/// assert_eq!(vcube::status(Wiring::Cube, 3, &table, Station(1))?, Status::Told);
/// # Ok::<(), vcube::Refusal>(())
/// ```
pub fn status(wiring: Wiring, n: usize, table: &[u8], station: Station) -> Result<Status, Refusal> {
    line(wiring, n, table, station).map(Line::status)
}

/// Who told the station to leave, as [`Line::told_by`] says.
///
/// # Errors
///
/// [`Refusal::SizeOutOfRange`], [`Refusal::TableLength`], [`Refusal::LineRule`], [`Refusal::RoundNotClosed`]
/// or [`Refusal::NoSuchStation`].
///
/// # Example
///
/// ```
/// use vcube::{Station, ToldBy, Wiring};
///
/// let mut table = [0; vcube::table_length(3)];
/// vcube::fresh_table(Wiring::Cube, 3, &mut table)?;
/// // Station 1 was told by station 2, 7 rounds ago.
/// table[9..15].copy_from_slice(&[2, 1, 0, 0, 2, 7]);
/// assert_eq!(vcube::told_by(Wiring::Cube, 3, &table, Station(1))?, ToldBy::Station(Station(2)));
/// # Ok::<(), vcube::Refusal>(())
/// ```
pub fn told_by(
    wiring: Wiring,
    n: usize,
    table: &[u8],
    station: Station,
) -> Result<ToldBy, Refusal> {
    line(wiring, n, table, station).map(Line::told_by)
}

/// How many rounds were closed since the station ceased to be live, as [`Line::rounds_ago`]
/// says.
///
/// # Errors
///
/// [`Refusal::SizeOutOfRange`], [`Refusal::TableLength`], [`Refusal::LineRule`], [`Refusal::RoundNotClosed`]
/// or [`Refusal::NoSuchStation`].
///
/// # Example
///
/// ```
/// use vcube::{Station, Wiring};
///
/// let mut table = [0; vcube::table_length(3)];
/// vcube::fresh_table(Wiring::Cube, 3, &mut table)?;
/// // Station 1 was told by station 2, 7 rounds ago.
/// table[9..15].copy_from_slice(&[2, 1, 0, 0, 2, 7]);
/// assert_eq!(vcube::rounds_ago(Wiring::Cube, 3, &table, Station(1))?, 7);
/// # Ok::<(), vcube::Refusal>(())
/// ```
pub fn rounds_ago(wiring: Wiring, n: usize, table: &[u8], station: Station) -> Result<u8, Refusal> {
    line(wiring, n, table, station).map(Line::rounds_ago)
}
