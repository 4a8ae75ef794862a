//! Mending a table after a brownout, and the report of what was mended.

use crate::{HEAD, Refusal, Station, Wiring, accepted, number_of, raw, table_length};

/// How many bytes a change has in the report.
const CHANGE: usize = vcube_sys::VCUBE_CHANGE_LENGTH;

/// A byte of a line of the table, by what it holds.
#[derive(Clone, Copy, Debug, PartialEq, Eq, Hash)]
pub enum LineByte {
    /// Byte 0.
    Status,
    /// Byte 1.
    NextDistance,
    /// Byte 2.
    PassFinished,
    /// Byte 3.
    TestsMade,
    /// Byte 4.
    ToldBy,
    /// Byte 5.
    RoundsAgo,
    /// The byte of the row about this station.
    About(Station),
}

impl LineByte {
    fn from_column(column: usize) -> LineByte {
        match column {
            0 => LineByte::Status,
            1 => LineByte::NextDistance,
            2 => LineByte::PassFinished,
            3 => LineByte::TestsMade,
            4 => LineByte::ToldBy,
            5 => LineByte::RoundsAgo,
            _ => LineByte::About(Station(column - HEAD)),
        }
    }
}

/// A byte of the table that was mended.
#[derive(Clone, Copy, Debug, PartialEq, Eq, Hash)]
pub struct Change {
    /// In whose line it stands.
    pub line: Station,
    /// Which byte of that line it is.
    pub byte: LineByte,
    /// What it was.
    pub old: u8,
    /// What it is.
    pub new: u8,
}

impl Change {
    fn from_bytes(n: usize, [high, low, old, new]: [u8; CHANGE]) -> Change {
        let offset = usize::from(u16::from_be_bytes([high, low]));
        let length = n + HEAD;
        Change {
            line: Station(offset / length),
            byte: LineByte::from_column(offset % length),
            old,
            new,
        }
    }
}

/// The length of a report that has room for a change of every byte of the table
/// of n stations.
///
/// ```
/// assert_eq!(vcube::report_length(4), 160);
/// ```
#[must_use]
pub const fn report_length(n: usize) -> usize {
    table_length(n).wrapping_mul(CHANGE)
}

/// Mend: makes a table that a brownout damaged valid, so that [`Refusal::LineRule`] and
/// [`Refusal::RoundNotClosed`] apply no longer, and lists each byte that it changed, by ascending offset: the changes
/// go to the front of the report, and zeros behind them. [`changes`] reads them.
/// Gives how many there are. The report has [`report_length`] bytes or more. What
/// becomes of each byte is in docs/RULES.md, "Mending". A valid table stays as it is.
///
/// # Errors
///
/// [`Refusal::SizeOutOfRange`], [`Refusal::TableLength`] or [`Refusal::ReportTooShort`].
///
/// # Example
///
/// ```
/// use vcube::{Change, LineByte, Station, Wiring};
///
/// let n = 4;
/// let mut table = [0; vcube::table_length(4)];
/// vcube::fresh_table(Wiring::Cube, n, &mut table)?;
/// // A brownout: station 1 has status 7, and suspects 3 by a 9.
/// table[10] = 7;
/// table[19] = 9;
///
/// let mut report = [0; vcube::report_length(4)];
/// let count = vcube::mend(Wiring::Cube, n, &mut table, &mut report)?;
/// let changes: Vec<_> = vcube::changes(n, &report, count).collect();
/// let line = Station(1);
/// assert_eq!(changes, [
///     Change { line, byte: LineByte::Status, old: 7, new: 1 },
///     Change { line, byte: LineByte::About(Station(3)), old: 9, new: 0 },
/// ]);
/// # Ok::<(), vcube::Refusal>(())
/// ```
pub fn mend(
    wiring: Wiring,
    n: usize,
    table: &mut [u8],
    report: &mut [u8],
) -> Result<usize, Refusal> {
    let mut changes = 0;
    accepted(raw::mend(number_of(wiring), n, table, report, &mut changes)).map(|()| changes)
}

/// The first `count` changes of a report that [`mend`] wrote of a table of n
/// stations; fewer if the report is shorter.
///
/// ```
/// use vcube::{Change, LineByte, Station};
///
/// let line = Station(1);
/// let change = Change { line, byte: LineByte::ToldBy, old: 9, new: 255 };
/// assert!(vcube::changes(4, &[0, 14, 9, 255, 0, 0, 0, 0], 1).eq([change]));
/// ```
pub fn changes(n: usize, report: &[u8], count: usize) -> impl ExactSizeIterator<Item = Change> {
    let (listed, _) = report.as_chunks();
    listed.iter().take(count).map(move |bytes| Change::from_bytes(n, *bytes))
}
