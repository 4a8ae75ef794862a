//! The vCube watch library: which stations of a plant of 2 to 64 are live, and who
//! suspects whom.
//!
//! A [`Plant`] owns what its caller keeps: a bus master, a panel or a test bench. The
//! caller sends the messages, measures time-outs and judges that a reply is late. A
//! [`Board`] owns its own line and nothing else, as the firmware of a board keeps it. The
//! functions take a table that is kept elsewhere, as a slice.
//!
//! Station 5 of eight crashes, and the others find out:
//!
//! ```
//! use vcube::{Entry, Kind, Plant, Station, Tally, Wiring};
//!
//! assert_eq!(vcube::version(), vcube::VERSION);
//! let mut plant = Plant::new(Wiring::Cube, 8)?;
//! plant.enter(Entry { kind: Kind::Crash, station: Station(5) })?;
//!
//! // A bus master grants the turns of one round. 4 finds 5 dead and makes 5 tests,
//! // the other six make 3.
//! assert_eq!(plant.drive().result()?, 30);
//! assert_eq!(plant.tally, Tally { rounds: 1, tests: 23 });
//! assert_eq!(plant.row(Station(0))?, [0, 0, 0, 0, 0, 1, 0, 0]);
//! # Ok::<(), vcube::Refusal>(())
//! ```
//!
//! The rules have names and are in docs/RULES.md of the repository. Numbers and lengths
//! may have any value: nothing need be checked before a call. A refused call changes
//! nothing; a run that stops at an entry keeps the work of the entries before it, and a
//! drive that stops before a grant that of the turns before it. "Errors" names the cases
//! of [`Refusal`] in the order in which they are checked.
//!
//! # The archive
//!
//! The crate `vcube-sys` links the archive libvcube.a: that in the folder named by
//! `VCUBE_LIB_DIR`; else the one that `make archive` makes in the repository; else the one
//! that pkg-config finds. `cargo check` and `cargo doc` do without it.
//!
//! # Wiring
//!
//! A plant is wired as the cube or as the ring ([`Wiring`]): that says whom a turn
//! tests. A [`Plant`] and a [`Board`] keep it; functions take it as their first argument:
//! give the same one in all calls of a plant. Group lists, assignments, slots and saved
//! plants are for the cube.
//!
//! # Turn, pass, round
//!
//! - A *turn* of a station on the cube is one test of another one, at the least due
//!   distance from its next distance on, or, if there is none, the end of its
//!   *pass*. On the ring it tests the stations 1, 2, 3 and so on after it, one a
//!   turn, until one exchanges rows with it or all others were tested.
//! - If the tested station is not live, or its reply is late, the tester suspects
//!   it from now on. Else, if the tested one suspects the tester, the tester
//!   leaves; else, if the tester suspects the tested one, that one leaves; else
//!   both rows become the union of the two. A tester that then suspects all
//!   others leaves, too.
//! - A *round* closes when every live station has finished its pass: a new one
//!   begins at next distance 1.
//!
//! # The table
//!
//! It has n lines of n + 6 bytes, in station order ([`table_length`]). The methods of
//! [`Line`] say what each byte holds. What a valid line is, is in docs/RULES.md, "The line
//! rules". Tables and files of versions before 0.11: docs/PANEL.md, "Old files".
//!
//! # A board's own half
//!
//! A [`Board`] sends its row over the cable. Together the boards of a plant do what a run
//! does on the table.
//!
//! # Without a heap
//!
//! This crate uses no standard library, only `alloc`, and that for [`schedule`] and
//! [`read_input`] alone: they are left out with `default-features = false`.

#![no_std]
#![deny(unsafe_code)]
#![deny(missing_docs)]
#![warn(clippy::missing_errors_doc)]

#[cfg(feature = "alloc")]
extern crate alloc;
#[cfg(test)]
extern crate std;

mod assignment;
mod board;
mod codes;
mod entries;
mod figures;
mod granter;
mod lamp;
mod lines;
mod mender;
mod plant;
#[allow(unsafe_code)]
mod raw;
mod saved;
mod slot;
mod texts;
mod wait;

#[cfg(test)]
mod tests;

pub use assignment::{
    AssignmentEntry, DUE, DueOrAhead, assignment, assignment_entries, assignment_length,
    due_distances,
};
pub use board::{Board, PackedRow, line_length, packed_length};
pub use codes::{Kind, Outcome, Refusal, Status, Wiring};
#[cfg(feature = "alloc")]
pub use entries::schedule;
pub use entries::{Entry, SheetLine, sheet_lines};
pub use figures::{Figures, Fraction, MOST_RESULTS, Totals, figures, figures_of_two};
pub use granter::{Driven, drive, grant};
pub use lamp::{Doubt, doubt_lamp};
pub use lines::{
    HEAD, Line, TOLD_BY_NONE, TOLD_NOT_RECORDED, ToldBy, line, lines, rounds_ago, status, told_by,
};
pub use mender::{Change, LineByte, changes, mend, report_length};
pub use plant::Plant;
pub use saved::{Loaded, convert, converted_length, load, save, saved_length, saved_size};
pub use slot::{Slot, slot};
#[cfg(feature = "alloc")]
pub use texts::{Input, Unread, read_input};
pub use texts::{SCHEDULE_LENGTH, WORDS_LENGTH, Words, outcome_words, refusal_words, status_words};
pub use wait::{OneDead, Wait, one_dead, wait};

/// A station number. Any number can stand here; the library refuses n or more.
#[derive(Clone, Copy, Debug, PartialEq, Eq, Hash, PartialOrd, Ord)]
pub struct Station(pub usize);

/// A distance: the exclusive or of two station numbers. It is below 2^d, where
/// d is the logarithm of n to base 2, rounded up.
#[derive(Clone, Copy, Debug, PartialEq, Eq, Hash, PartialOrd, Ord)]
pub struct Distance(pub u8);

/// A level. Any number can stand here; the library refuses 0 and those above d.
///
/// Station, distance and level are newtypes: none can be given for another.
///
/// ```compile_fail,E0308
/// use vcube::{Level, Station};
///
/// vcube::group_length(8, Level(3), Station(5));
/// ```
#[derive(Clone, Copy, Debug, PartialEq, Eq, Hash, PartialOrd, Ord)]
pub struct Level(pub usize);

/// The tally of closed rounds and of tests.
#[derive(Clone, Copy, Debug, Default, PartialEq, Eq, Hash)]
pub struct Tally {
    /// The rounds that were closed.
    pub rounds: u32,
    /// The tests that were made.
    pub tests: u32,
}

/// What a run answers beside the tally.
#[derive(Clone, Copy, Debug, PartialEq, Eq, Hash)]
#[must_use = "a refused run did not take all entries"]
pub struct Answer {
    /// The refusal it stopped with, if any.
    pub refusal: Option<Refusal>,
    /// How many entries were taken.
    pub taken: usize,
}

impl Answer {
    /// How many entries were taken, where all were.
    ///
    /// # Errors
    ///
    /// [`Answer::refusal`].
    ///
    /// # Example
    ///
    /// ```
    /// use vcube::{Answer, Refusal};
    ///
    /// assert_eq!(Answer { refusal: None, taken: 3 }.result(), Ok(3));
    /// let refusal = Refusal::NotLive;
    /// assert_eq!(Answer { refusal: Some(refusal), taken: 3 }.result(), Err(refusal));
    /// ```
    pub fn result(self) -> Result<usize, Refusal> {
        self.refusal.map_or(Ok(self.taken), Err)
    }
}

/// The version of this crate as one number: 10400 is 1.4.0.
pub const VERSION: u32 = 10_000 * number(env!("CARGO_PKG_VERSION_MAJOR"))
    + 100 * number(env!("CARGO_PKG_VERSION_MINOR"))
    + number(env!("CARGO_PKG_VERSION_PATCH"));

const fn number(digits: &str) -> u32 {
    match u32::from_str_radix(digits, 10) {
        Ok(number) => number,
        Err(_) => panic!("a part of a version is a number"),
    }
}

/// The version of the library that is linked, as [`VERSION`] has it. Compare the two
/// when the program starts: a library of another version may link as well.
///
/// ```
/// assert_eq!(vcube::version(), vcube::VERSION);
/// ```
#[must_use]
pub fn version() -> u32 {
    vcube_sys::vcube_version()
}

/// The most stations of a plant; the fewest are two.
pub const MOST_STATIONS: usize = 64;

/// The length of a table of n stations: n lines of n + 6 bytes.
/// It has no meaning for a size that the library refuses.
///
/// ```
/// assert_eq!(vcube::table_length(8), 112);
/// ```
#[must_use]
pub const fn table_length(n: usize) -> usize {
    n.wrapping_mul(n.wrapping_add(HEAD))
}

/// Fresh table: every station live, nobody suspected, the start of a round. It is the
/// same on both wirings.
///
/// # Errors
///
/// [`Refusal::SizeOutOfRange`] or [`Refusal::TableLength`].
///
/// # Example
///
/// ```
/// use vcube::{Refusal, Wiring};
///
/// let mut table = [9; vcube::table_length(2)];
/// assert_eq!(vcube::fresh_table(Wiring::Cube, 3, &mut table), Err(Refusal::TableLength));
/// vcube::fresh_table(Wiring::Cube, 2, &mut table)?;
/// assert_eq!(table, [0, 1, 0, 0, 255, 0, 0, 0, 0, 1, 0, 0, 255, 0, 0, 0]);
/// # Ok::<(), Refusal>(())
/// ```
pub fn fresh_table(wiring: Wiring, n: usize, table: &mut [u8]) -> Result<(), Refusal> {
    accepted(raw::fresh_table(number_of(wiring), n, table))
}

/// The highest level of the largest plant.
const HIGHEST_LEVEL: usize = 6;

/// The length of the longest group list, that of the highest level.
pub const LONGEST_GROUP: usize = vcube_sys::VCUBE_LONGEST_GROUP;

/// The length of a group list: how many members the station's group at that
/// level has, 0 to 2^(level - 1). It is computed here, not by the library, and
/// has no meaning where the library refuses the size, the station or the level.
///
/// ```
/// use vcube::{group_length, Level, Station};
///
/// assert_eq!(group_length(8, Station(5), Level(3)), 4);
/// assert_eq!(group_length(11, Station(2), Level(4)), 3);
/// assert_eq!(group_length(11, Station(10), Level(1)), 0);
/// ```
#[must_use]
pub const fn group_length(n: usize, station: Station, level: Level) -> usize {
    if level.0 < 1 || level.0 > HIGHEST_LEVEL {
        return 0;
    }
    // The members are those of the numbers from `first` to `first + half - 1`
    // that are below n.
    let half = 1 << (level.0 - 1);
    let first = (station.0 ^ half) & !(half - 1);
    let below_n = n.saturating_sub(first);
    if below_n < half { below_n } else { half }
}

/// Group list: the members of the station's group at that level, in order, into a
/// list of just their number, [`group_length`]. [`group_stations`] gives them as
/// [`Station`]s.
///
/// # Errors
///
/// [`Refusal::SizeOutOfRange`], [`Refusal::NoSuchStation`], [`Refusal::NoSuchLevel`] or
/// [`Refusal::ListLength`].
///
/// # Example
///
/// ```
/// use vcube::{Level, Station};
///
/// let mut list = [0; 4];
/// vcube::group_list(8, Station(5), Level(3), &mut list)?;
/// assert_eq!(list, [1, 0, 3, 2]);
/// # Ok::<(), vcube::Refusal>(())
/// ```
pub fn group_list(
    n: usize,
    station: Station,
    level: Level,
    list: &mut [u8],
) -> Result<(), Refusal> {
    accepted(raw::group_list(n, station.0, level.0, list))
}

/// The members of a [`group_list`], in order, read from the list that is lent.
///
/// # Errors
///
/// [`Refusal::SizeOutOfRange`], [`Refusal::NoSuchStation`], [`Refusal::NoSuchLevel`] or
/// [`Refusal::ListLength`].
///
/// # Example
///
/// ```
/// use vcube::{group_length, group_stations, Level, Station};
///
/// let mut list = vec![0; group_length(11, Station(2), Level(4))];
/// let members = group_stations(11, Station(2), Level(4), &mut list)?;
/// assert!(members.eq([10, 8, 9].map(Station)));
/// # Ok::<(), vcube::Refusal>(())
/// ```
pub fn group_stations(
    n: usize,
    station: Station,
    level: Level,
    list: &mut [u8],
) -> Result<impl Iterator<Item = Station>, Refusal> {
    group_list(n, station, level, list)?;
    Ok(list.iter().map(|member| Station(usize::from(*member))))
}

/// Row: the station's row as that very part of the lent table.
///
/// # Errors
///
/// [`Refusal::SizeOutOfRange`], [`Refusal::TableLength`], [`Refusal::LineRule`], [`Refusal::RoundNotClosed`]
/// or [`Refusal::NoSuchStation`].
///
/// # Example
///
/// ```
/// use vcube::{Station, Wiring};
///
/// let mut table = [0; vcube::table_length(3)];
/// vcube::fresh_table(Wiring::Ring, 3, &mut table)?;
/// let row = vcube::row(Wiring::Ring, 3, &table, Station(1))?;
/// assert!(std::ptr::eq(row, &table[15..18]));
/// # Ok::<(), vcube::Refusal>(())
/// ```
pub fn row(wiring: Wiring, n: usize, table: &[u8], station: Station) -> Result<&[u8], Refusal> {
    let (mut start, mut length) = (0, 0);
    let number = raw::row(number_of(wiring), n, table, station.0, &mut start, &mut length);
    accepted(number).map(|()| &table[start..][..length])
}

/// Run: takes the entries of a schedule in order; writes four bytes of the
/// sheet for each entry taken, which [`sheet_lines`] reads. One entry may make
/// two stations leave, which [`SheetLine::ceased`] gives; who told them to leave,
/// and how long ago, [`told_by`] and [`rounds_ago`] read from the table. The tally
/// goes in and comes back in its place. A run that is refused at its start leaves
/// the tally as it was.
///
/// # Errors
///
/// [`Answer::refusal`] is [`Refusal::SizeOutOfRange`], [`Refusal::TableLength`], [`Refusal::LineRule`],
/// [`Refusal::RoundNotClosed`], [`Refusal::ScheduleLength`] or [`Refusal::SheetLength`]; or, at an entry,
/// [`Refusal::TallyFull`], [`Refusal::UnknownKind`], [`Refusal::NoSuchStation`], [`Refusal::NotLive`] or
/// [`Refusal::PassFinished`].
///
/// # Example
///
/// ```
/// use vcube::{Answer, Entry, Kind, Outcome, Refusal, Station, Status, Tally, Wiring};
///
/// let mut table = [0; vcube::table_length(4)];
/// vcube::fresh_table(Wiring::Cube, 4, &mut table)?;
/// let entry = |kind, station| Entry { kind, station: Station(station) };
/// let schedule = vcube::schedule(&[
///     entry(Kind::LateTurn, 0),
///     entry(Kind::Turn, 0),
///     entry(Kind::Turn, 1),
///     entry(Kind::Turn, 1),
/// ]);
/// let (mut tally, mut sheet) = (Tally::default(), [0; 16]);
/// let answer = vcube::run(Wiring::Cube, 4, &mut table, &mut tally, &schedule, &mut sheet);
///
/// // 0 suspects 1 and exchanges with 2; 1 tests 0, is told and leaves, and takes no more turn.
/// assert_eq!(answer, Answer { refusal: Some(Refusal::NotLive), taken: 3 });
/// assert_eq!(tally, Tally { rounds: 0, tests: 3 });
/// let lines: Vec<_> = vcube::sheet_lines(&sheet, answer.taken).collect();
/// assert_eq!((lines[1].tested, lines[1].outcome), (Some(Station(2)), Outcome::Exchanged));
/// assert_eq!((lines[2].outcome, lines[2].status), (Outcome::Told, Status::Told));
/// # Ok::<(), vcube::Refusal>(())
/// ```
pub fn run(
    wiring: Wiring,
    n: usize,
    table: &mut [u8],
    tally: &mut Tally,
    schedule: &[u8],
    sheet: &mut [u8],
) -> Answer {
    let Tally { rounds, tests } = tally;
    let mut taken = 0;
    let number = raw::run(number_of(wiring), n, table, rounds, tests, schedule, sheet, &mut taken);
    Answer { refusal: accepted(number).err(), taken }
}

/// The wiring number as the header has it, a `size_t`.
fn number_of(wiring: Wiring) -> usize {
    wiring.number().into()
}

/// Turns the number of a call into a result.
fn accepted(number: u8) -> Result<(), Refusal> {
    match (number, Refusal::from_number(number)) {
        (0, _) => Ok(()),
        (_, Some(refusal)) => Err(refusal),
        (_, None) => panic!("the library gave {number}, which is no refusal"),
    }
}
