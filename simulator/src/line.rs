//! One line of the table: its rules on bytes, and its decoded form.

use crate::numbers::{Distance, Size, Station};
use crate::wiring::Wiring;

/// The bytes of a line before its row.
pub const HEAD: usize = 6;

/// The bytes of a line of edition 1 before its row: the first four of `HEAD`.
pub const FORMER_HEAD: usize = 4;

/// Byte 4 of a line whose station was told by none.
const NONE: u8 = 255;

/// Byte 4 of a line where it was never recorded whose row told the station.
const NOT_RECORDED: u8 = 254;

/// Bytes 0 and 4 of a line.
#[derive(Clone, Copy, Debug, PartialEq, Eq)]
pub enum Status {
    Live,
    Crashed,
    /// Told to leave by this station's row; none where that was never recorded.
    Told(Option<Station>),
    Alone,
}

/// A station's row: the set of stations it suspects.
#[derive(Clone, Copy, Debug, PartialEq, Eq)]
pub struct Row(u64);

/// A decoded line.
#[derive(Clone, Copy, Debug, PartialEq, Eq)]
pub struct Line {
    pub status: Status,
    pub next: Distance,
    pub finished: bool,
    pub tests: u8,
    /// The rounds closed since the station ceased to be live, up to 255.
    pub closed_since: u8,
    pub row: Row,
}

impl Status {
    /// Used only on bytes 0 and 4 of a line that keeps the line rules.
    fn decode(size: Size, status: u8, told_by: u8) -> Status {
        match status {
            0 => Status::Live,
            1 => Status::Crashed,
            2 => Status::Told(size.station(told_by).ok()),
            _ => Status::Alone,
        }
    }

    /// Byte 0.
    pub fn number(self) -> u8 {
        match self {
            Status::Live => 0,
            Status::Crashed => 1,
            Status::Told(_) => 2,
            Status::Alone => 3,
        }
    }

    /// Byte 4: the station whose row told it to leave.
    fn told_by(self) -> u8 {
        match self {
            Status::Live | Status::Crashed | Status::Alone => NONE,
            Status::Told(station) => station.map_or(NOT_RECORDED, Station::number),
        }
    }
}

impl Row {
    pub const EMPTY: Row = Row(0);

    fn only(station: Station) -> Row {
        Row(1 << station.number())
    }

    /// The row that suspects every station but this one.
    fn all_others(size: Size, own: Station) -> Row {
        let all = u64::MAX >> (64 - size.count());
        Row(all).without(own)
    }

    pub fn suspects(self, station: Station) -> bool {
        self.0 & Row::only(station).0 != 0
    }

    pub fn suspects_all_others(self, size: Size, own: Station) -> bool {
        self == Row::all_others(size, own)
    }

    pub fn with(self, station: Station) -> Row {
        self.union(Row::only(station))
    }

    fn without(self, station: Station) -> Row {
        Row(self.0 & !Row::only(station).0)
    }

    fn union(self, other: Row) -> Row {
        Row(self.0 | other.0)
    }

    /// The union with another row; the byte about `own` is not written.
    pub fn union_but_own(self, other: Row, own: Station) -> Row {
        self.union(other.without(own))
    }

    fn decode(bytes: &[u8]) -> Row {
        let marked = |(k, byte): (usize, &u8)| u64::from(*byte) << k;
        Row(bytes.iter().enumerate().map(marked).sum())
    }

    fn encode(self, bytes: &mut [u8]) {
        for (k, byte) in bytes.iter_mut().enumerate() {
            *byte = ((self.0 >> k) & 1) as u8;
        }
    }
}

impl Line {
    /// The line of a fresh table.
    pub const FRESH: Line = Line {
        status: Status::Live,
        next: Distance::FIRST,
        finished: false,
        tests: 0,
        closed_since: 0,
        row: Row::EMPTY,
    };

    pub fn is_live(&self) -> bool {
        self.status == Status::Live
    }

    pub fn is_live_and_unfinished(&self) -> bool {
        self.is_live() && !self.finished
    }

    /// Sets the three fields that a closed round sets, and counts the round if
    /// the station is not live.
    pub fn close_round(&mut self) {
        self.next = Distance::FIRST;
        self.finished = false;
        self.tests = 0;
        if !self.is_live() {
            self.closed_since = self.closed_since.saturating_add(1);
        }
    }

    /// Used only on bytes that keep the line rules.
    pub fn decode(size: Size, bytes: &[u8]) -> Line {
        Line {
            status: Status::decode(size, bytes[0], bytes[4]),
            next: Distance::from_byte(bytes[1]),
            finished: bytes[2] == 1,
            tests: bytes[3],
            closed_since: bytes[5],
            row: Row::decode(row_part(bytes)),
        }
    }

    pub fn encode(&self, bytes: &mut [u8]) {
        bytes[0] = self.status.number();
        bytes[1] = self.next.number();
        bytes[2] = u8::from(self.finished);
        bytes[3] = self.tests;
        bytes[4] = self.status.told_by();
        bytes[5] = self.closed_since;
        self.row.encode(&mut bytes[HEAD..]);
    }
}

/// The row's part of a line's bytes.
pub fn row_part(line: &[u8]) -> &[u8] {
    &line[HEAD..]
}

/// The same, to be written.
pub fn row_part_mut(line: &mut [u8]) -> &mut [u8] {
    &mut line[HEAD..]
}

/// Whether the bytes of the line of station `own` keep the line rules.
pub fn keeps_line_rules(wiring: Wiring, size: Size, own: Station, bytes: &[u8]) -> bool {
    bytes[0] <= 3
        && pass_is_valid(wiring.end(size), bytes)
        && told_by_is_valid(size, own, bytes)
        && rounds_are_valid(bytes)
        && row_is_valid(own, row_part(bytes))
}

/// Whether the bytes of a line of edition 1 keep the line rules, which say
/// nothing there of who told the station and of rounds closed since. They are
/// for the cube.
pub fn keeps_former_line_rules(size: Size, own: Station, bytes: &[u8]) -> bool {
    bytes[0] <= 3
        && pass_is_valid(Wiring::Cube.end(size), bytes)
        && row_is_valid(own, &bytes[FORMER_HEAD..])
}

/// A line of edition 1 with bytes 4 and 5: who told the station was never
/// recorded, and no round is counted.
pub fn widened(bytes: &[u8]) -> Vec<u8> {
    let (head, row) = bytes.split_at(FORMER_HEAD);
    let told_by = match head[0] {
        2 => NOT_RECORDED,
        _ => NONE,
    };
    [head, &[told_by, 0], row].concat()
}

/// Bytes 1 and 2 are in their ranges; byte 3 is at most byte 1 less 1; a finished
/// line has this end as its next distance.
pub fn pass_is_valid(end: Distance, bytes: &[u8]) -> bool {
    let next = Distance::from_byte(bytes[1]);
    let in_range = Distance::FIRST <= next && next <= end && bytes[2] <= 1;
    in_range && bytes[3] < bytes[1] && (bytes[2] == 0 || next == end)
}

/// Byte 4 agrees with the status: status 2 has 254 or another station's number,
/// any other has 255.
pub fn told_by_is_valid(size: Size, own: Station, bytes: &[u8]) -> bool {
    match bytes[0] {
        2 => bytes[4] == NOT_RECORDED || is_another_station(size, own, bytes[4]),
        _ => bytes[4] == NONE,
    }
}

/// Byte 5 of a live line is 0.
pub fn rounds_are_valid(bytes: &[u8]) -> bool {
    bytes[0] != 0 || bytes[5] == 0
}

/// The byte is the number of a station of the plant other than `own`.
fn is_another_station(size: Size, own: Station, byte: u8) -> bool {
    size.station(byte).is_ok_and(|station| station != own)
}

/// Each byte of the row is 0 or 1, and the byte about the station itself is 0.
fn row_is_valid(own: Station, row: &[u8]) -> bool {
    row.iter().all(|byte| *byte <= 1) && row[own.index()] == 0
}
