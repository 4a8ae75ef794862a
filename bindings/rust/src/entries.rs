//! Entries of a schedule and lines of the sheet.

use crate::{Kind, Outcome, Station, Status};
#[cfg(feature = "alloc")]
use alloc::vec::Vec;

/// Stands in the sheet where no station was tested, and is the last granted
/// number where none was granted yet.
pub(crate) const NO_STATION: usize = vcube_sys::VCUBE_NO_STATION;

/// An entry of a schedule.
#[derive(Clone, Copy, Debug, PartialEq, Eq, Hash)]
pub struct Entry {
    /// What the station does.
    pub kind: Kind,
    /// Which station.
    pub station: Station,
}

impl Entry {
    /// Its two bytes. A station above 255 becomes 255, which no plant has, so
    /// that it is refused alike.
    ///
    /// ```
    /// use vcube::{Entry, Kind, Station};
    ///
    /// let entry = Entry { kind: Kind::LateTurn, station: Station(5) };
    /// assert_eq!(entry.bytes(), [2, 5]);
    /// ```
    #[must_use]
    pub fn bytes(self) -> [u8; 2] {
        let station = u8::try_from(self.station.0).unwrap_or(u8::MAX);
        [self.kind.number(), station]
    }
}

/// The bytes of a schedule with these entries.
///
/// ```
/// use vcube::{Entry, Kind, Station};
///
/// let entry = |kind, station| Entry { kind, station: Station(station) };
/// let schedule = vcube::schedule(&[entry(Kind::Turn, 0), entry(Kind::Crash, 5)]);
/// assert_eq!(schedule, [1, 0, 3, 5]);
/// ```
#[cfg(feature = "alloc")]
#[must_use]
pub fn schedule(entries: &[Entry]) -> Vec<u8> {
    entries.iter().flat_map(|entry| entry.bytes()).collect()
}

/// A line of the sheet: what the run wrote of an entry that it took.
#[derive(Clone, Copy, Debug, PartialEq, Eq, Hash)]
pub struct SheetLine {
    /// The station of the entry.
    pub station: Station,
    /// The station it tested, if any.
    pub tested: Option<Station>,
    /// What the entry brought.
    pub outcome: Outcome,
    /// The status of `station` after the entry; of the tested one, see
    /// [`SheetLine::ceased`].
    pub status: Status,
}

impl SheetLine {
    /// Reads a line. Gives none where outcome or status have a number that
    /// [`Outcome`] or [`Status`] does not have: a run writes no such line.
    ///
    /// ```
    /// use vcube::{Outcome, SheetLine, Station, Status};
    ///
    /// let line = SheetLine::from_bytes([5, 255, 4, 1]).expect("a line");
    /// assert_eq!((line.station, line.tested), (Station(5), None));
    /// assert_eq!((line.outcome, line.status), (Outcome::Crash, Status::Crashed));
    /// assert_eq!(SheetLine::from_bytes([5, 255, 6, 1]), None);
    /// ```
    #[must_use]
    pub fn from_bytes(bytes: [u8; 4]) -> Option<SheetLine> {
        let [station, tested, outcome, status] = bytes;
        Some(SheetLine {
            station: Station(station.into()),
            tested: (usize::from(tested) != NO_STATION).then_some(Station(tested.into())),
            outcome: Outcome::from_number(outcome)?,
            status: Status::from_number(status)?,
        })
    }

    /// The stations that were live before the entry and are not after it, each
    /// with its status now. There may be two: at [`Outcome::TestedTold`] the
    /// tested station left, and then the tester too if it is alone.
    ///
    /// ```
    /// use vcube::{SheetLine, Station, Status};
    ///
    /// let line = SheetLine::from_bytes([0, 1, 5, 3]).expect("a line");
    /// assert!(line.ceased().eq([(Station(1), Status::Told), (Station(0), Status::Alone)]));
    /// ```
    pub fn ceased(self) -> impl Iterator<Item = (Station, Status)> {
        let told = self.tested.filter(|_| self.outcome == Outcome::TestedTold);
        let tested = told.map(|station| (station, Status::Told));
        let own = (self.status != Status::Live).then_some((self.station, self.status));
        tested.into_iter().chain(own)
    }
}

/// The lines that a run wrote, of which there are as many as it took entries.
///
/// They end before that where the sheet does, or at four bytes that are no
/// line; neither is so of the sheet that the run was lent.
///
/// ```
/// let sheet = [0, 1, 1, 0, 5, 255, 4, 1, 9, 9, 9, 9];
/// let stations: Vec<_> = vcube::sheet_lines(&sheet, 2).map(|line| line.station.0).collect();
/// assert_eq!(stations, [0, 5]);
/// ```
pub fn sheet_lines(sheet: &[u8], taken: usize) -> impl Iterator<Item = SheetLine> {
    let (lines, _) = sheet.as_chunks();
    let lines = lines.iter().take(taken);
    lines.map_while(|bytes| SheetLine::from_bytes(*bytes))
}
