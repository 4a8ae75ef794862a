//! A plant that owns what its caller keeps.

use core::fmt;

use crate::{
    Answer, AssignmentEntry, Board, Change, Distance, Doubt, Driven, DueOrAhead, Entry, HEAD,
    LONGEST_GROUP, Level, Line, Loaded, MOST_STATIONS, OneDead, Refusal, SheetLine, Slot, Station,
    Status, Tally, ToldBy, Wait, Wiring, assignment, assignment_length, changes, doubt_lamp, drive,
    fresh_table, grant, group_length, group_list, line, line_length, lines, load, mend, one_dead,
    row, run, save, saved_length, saved_size, slot, table_length, wait,
};

/// The length of the longest table.
const LONGEST_TABLE: usize = table_length(MOST_STATIONS);

/// The length of the longest list of an assignment.
const LONGEST_ASSIGNMENT: usize = assignment_length(MOST_STATIONS);

/// A plant: its wiring and size, its table, its [`tally`](Plant::tally) and the
/// [`last`](Plant::last) granted station. Its methods are the calls of this crate on it.
///
/// It needs no heap: it has room for a table of 64 stations, whatever its size, so that a plant
/// is of one type, also if its size is known only once a file is read. It takes about 4,500
/// bytes. Where that is too much, use the functions over slices, which take a table of just
/// [`table_length`] bytes.
///
/// A table stays valid, and then [`Refusal::LineRule`] and [`Refusal::RoundNotClosed`] do not
/// occur. They occur if an invalid table, or one of the other wiring, comes in by
/// [`from_table`](Plant::from_table), [`table_mut`](Plant::table_mut) or [`load`](Plant::load);
/// [`mend`](Plant::mend) makes it valid. [`save`](Plant::save), [`slot`](Plant::slot),
/// [`assignment`](Plant::assignment) and [`group`](Plant::group) are for the cube, and take the
/// table of a ring for that of a cube.
///
/// Station 5 of eight crashes, and a bus master drives a round:
///
/// ```
/// use vcube::{Entry, Kind, Plant, Station, Status, Tally, Wiring};
///
/// let mut plant = Plant::new(Wiring::Cube, 8)?;
/// plant.enter(Entry { kind: Kind::Crash, station: Station(5) })?;
/// assert_eq!(plant.drive().result()?, 30);
/// assert_eq!(plant.tally, Tally { rounds: 1, tests: 23 });
/// for line in plant.lines()? {
///     assert_eq!(line.suspects(Station(5)), line.status() == Status::Live);
/// }
/// # Ok::<(), vcube::Refusal>(())
/// ```
#[derive(Clone, PartialEq, Eq, Hash)]
pub struct Plant {
    wiring: Wiring,
    size: usize,
    /// Zeros behind the table.
    bytes: [u8; LONGEST_TABLE],
    /// The tally of closed rounds and of tests: any numbers, where one is to go on with.
    pub tally: Tally,
    /// The last granted station; none where none was granted yet. [`grant`](Plant::grant) goes
    /// on from it, and [`drive`](Plant::drive) sets it.
    pub last: Option<Station>,
}

impl Plant {
    /// A plant with a fresh table: every station live, nobody suspected, the start of a round.
    ///
    /// # Errors
    ///
    /// [`Refusal::SizeOutOfRange`].
    ///
    /// # Example
    ///
    /// ```
    /// use vcube::{Plant, Refusal, Tally, Wiring};
    ///
    /// let plant = Plant::new(Wiring::Ring, 2)?;
    /// assert_eq!(plant.table(), [0, 1, 0, 0, 255, 0, 0, 0, 0, 1, 0, 0, 255, 0, 0, 0]);
    /// assert_eq!((plant.tally, plant.last), (Tally::default(), None));
    /// assert_eq!(Plant::new(Wiring::Ring, 65), Err(Refusal::SizeOutOfRange));
    /// # Ok::<(), Refusal>(())
    /// ```
    pub fn new(wiring: Wiring, size: usize) -> Result<Plant, Refusal> {
        let mut bytes = [0; LONGEST_TABLE];
        // A size above 64 is refused before the length.
        let length = table_length(size).min(LONGEST_TABLE);
        fresh_table(wiring, size, &mut bytes[..length])?;
        Ok(Plant { wiring, size, bytes, tally: Tally::default(), last: None })
    }

    /// A plant with a table that was kept, its tally at 0 and no station granted. What the
    /// table holds is not looked at here, but by each method that reads it, so that a damaged
    /// one can be [mended](Plant::mend).
    ///
    /// # Errors
    ///
    /// [`Refusal::SizeOutOfRange`] or [`Refusal::TableLength`].
    ///
    /// # Example
    ///
    /// ```
    /// use vcube::{Plant, Refusal, Station, Wiring};
    ///
    /// let table = [0, 1, 0, 0, 255, 0, 0, 0, 1, 1, 0, 0, 255, 9, 0, 0];
    /// let plant = Plant::from_table(Wiring::Cube, 2, &table)?;
    /// assert_eq!(plant.line(Station(1))?.rounds_ago(), 9);
    /// let short = Plant::from_table(Wiring::Cube, 2, &table[1..]);
    /// assert_eq!(short, Err(Refusal::TableLength));
    /// # Ok::<(), Refusal>(())
    /// ```
    pub fn from_table(wiring: Wiring, size: usize, table: &[u8]) -> Result<Plant, Refusal> {
        let mut plant = Plant::new(wiring, size)?;
        if table.len() != table_length(size) {
            return Err(Refusal::TableLength);
        }
        plant.table_mut().copy_from_slice(table);
        Ok(plant)
    }

    /// Load: the plant of a file that [`save`](Plant::save) wrote, with its tally, and no
    /// station granted. The file does not say the wiring. A file of edition 1 is
    /// [converted](crate::convert) first.
    ///
    /// # Errors
    ///
    /// [`Refusal::FieldPastEnd`], [`Refusal::NoOpening`], [`Refusal::FieldOrder`], [`Refusal::SizeOrTallyField`],
    /// [`Refusal::SizeOutOfRange`], [`Refusal::LineField`], [`Refusal::LineRule`] or [`Refusal::RoundNotClosed`].
    ///
    /// # Example
    ///
    /// ```
    /// use vcube::{Plant, Tally, Wiring};
    ///
    /// let mut plant = Plant::new(Wiring::Cube, 8)?;
    /// plant.tally = Tally { rounds: 128, tests: 256 };
    /// let mut saved = [0; vcube::saved_length(8)];
    /// plant.save(&mut saved)?;
    /// assert_eq!(Plant::load(Wiring::Cube, &saved)?, plant);
    /// # Ok::<(), vcube::Refusal>(())
    /// ```
    pub fn load(wiring: Wiring, saved: &[u8]) -> Result<Plant, Refusal> {
        let size = saved_size(saved)?;
        let mut bytes = [0; LONGEST_TABLE];
        let Loaded { tally, .. } = load(saved, &mut bytes[..table_length(size)])?;
        Ok(Plant { wiring, size, bytes, tally, last: None })
    }

    /// The wiring.
    ///
    /// ```
    /// use vcube::{Plant, Wiring};
    ///
    /// assert_eq!(Plant::new(Wiring::Ring, 5)?.wiring(), Wiring::Ring);
    /// # Ok::<(), vcube::Refusal>(())
    /// ```
    #[must_use]
    pub fn wiring(&self) -> Wiring {
        self.wiring
    }

    /// The size, n: how many stations the plant has.
    ///
    /// ```
    /// use vcube::{Plant, Wiring};
    ///
    /// assert_eq!(Plant::new(Wiring::Ring, 5)?.size(), 5);
    /// # Ok::<(), vcube::Refusal>(())
    /// ```
    #[must_use]
    pub fn size(&self) -> usize {
        self.size
    }

    /// The bytes of the table.
    ///
    /// ```
    /// use vcube::{Plant, Wiring};
    ///
    /// let plant = Plant::new(Wiring::Cube, 5)?;
    /// assert_eq!(plant.table().len(), vcube::table_length(5));
    /// # Ok::<(), vcube::Refusal>(())
    /// ```
    #[must_use]
    pub fn table(&self) -> &[u8] {
        &self.bytes[..table_length(self.size)]
    }

    /// The bytes of the table, to be written: for a test bench, and for a table that was
    /// damaged where it was kept.
    ///
    /// ```
    /// use vcube::{HEAD, Plant, Station, Wiring};
    ///
    /// let mut plant = Plant::new(Wiring::Cube, 3)?;
    /// // Station 0 suspects station 1.
    /// plant.table_mut()[HEAD + 1] = 1;
    /// assert!(plant.line(Station(0))?.suspects(Station(1)));
    /// # Ok::<(), vcube::Refusal>(())
    /// ```
    #[must_use]
    pub fn table_mut(&mut self) -> &mut [u8] {
        &mut self.bytes[..table_length(self.size)]
    }

    /// A station that was replaced is live again: it gets a fresh line, and nobody suspects it.
    /// Only between two rounds (docs/C-AND-RUST.md, "Bringing a station back").
    ///
    /// # Errors
    ///
    /// [`Refusal::NoSuchStation`].
    ///
    /// # Example
    ///
    /// ```
    /// use vcube::{Entry, Kind, Plant, Station, Wiring};
    ///
    /// let mut plant = Plant::new(Wiring::Cube, 4)?;
    /// plant.enter(Entry { kind: Kind::Crash, station: Station(1) })?;
    /// plant.drive().result()?;
    /// plant.bring_back(Station(1))?;
    /// assert_eq!(plant.table(), Plant::new(Wiring::Cube, 4)?.table());
    /// # Ok::<(), vcube::Refusal>(())
    /// ```
    pub fn bring_back(&mut self, station: Station) -> Result<(), Refusal> {
        let fresh = Board::new(self.wiring, self.size, station)?;
        let length = line_length(self.size);
        for (k, line) in self.table_mut().chunks_exact_mut(length).enumerate() {
            line[HEAD + station.0] = 0;
            if k == station.0 {
                line.copy_from_slice(fresh.line());
            }
        }
        Ok(())
    }

    /// Run: takes the entries of a schedule in order, as [`run`] does.
    ///
    /// # Errors
    ///
    /// [`Answer::refusal`] is [`Refusal::LineRule`], [`Refusal::RoundNotClosed`], [`Refusal::ScheduleLength`] or
    /// [`Refusal::SheetLength`]; or, at an entry, [`Refusal::TallyFull`], [`Refusal::UnknownKind`],
    /// [`Refusal::NoSuchStation`], [`Refusal::NotLive`] or [`Refusal::PassFinished`].
    ///
    /// # Example
    ///
    /// ```
    /// use vcube::{Plant, Tally, Wiring};
    ///
    /// let mut plant = Plant::new(Wiring::Cube, 4)?;
    /// // Two turns of station 0, and station 3 crashes.
    /// let mut sheet = [0; 12];
    /// assert_eq!(plant.run(&[1, 0, 1, 0, 3, 3], &mut sheet).result()?, 3);
    /// assert_eq!(plant.tally, Tally { rounds: 0, tests: 2 });
    /// assert_eq!(vcube::sheet_lines(&sheet, 3).count(), 3);
    /// # Ok::<(), vcube::Refusal>(())
    /// ```
    pub fn run(&mut self, schedule: &[u8], sheet: &mut [u8]) -> Answer {
        let table = &mut self.bytes[..table_length(self.size)];
        run(self.wiring, self.size, table, &mut self.tally, schedule, sheet)
    }

    /// Enters one entry: a run of it alone. Gives its line of the sheet.
    ///
    /// # Errors
    ///
    /// [`Refusal::LineRule`], [`Refusal::RoundNotClosed`], [`Refusal::TallyFull`], [`Refusal::NoSuchStation`],
    /// [`Refusal::NotLive`] or [`Refusal::PassFinished`].
    ///
    /// # Example
    ///
    /// ```
    /// use vcube::{Entry, Kind, Outcome, Plant, Refusal, Station, Wiring};
    ///
    /// let mut plant = Plant::new(Wiring::Cube, 4)?;
    /// let line = plant.enter(Entry { kind: Kind::LateTurn, station: Station(0) })?;
    /// assert_eq!((line.tested, line.outcome), (Some(Station(1)), Outcome::NoReply));
    /// let none = plant.enter(Entry { kind: Kind::Turn, station: Station(4) });
    /// assert_eq!(none, Err(Refusal::NoSuchStation));
    /// # Ok::<(), Refusal>(())
    /// ```
    pub fn enter(&mut self, entry: Entry) -> Result<SheetLine, Refusal> {
        let mut sheet = [0; 4];
        self.run(&entry.bytes(), &mut sheet).result()?;
        Ok(SheetLine::from_bytes(sheet).expect("a run writes a line of each entry taken"))
    }

    /// Grant: the station that is to have the next turn, after the [`last`](Plant::last)
    /// granted one. It is kept as `last` by the caller, once the turn was taken.
    ///
    /// # Errors
    ///
    /// [`Refusal::LineRule`], [`Refusal::RoundNotClosed`], [`Refusal::LastGranted`] or [`Refusal::NoneLive`].
    ///
    /// # Example
    ///
    /// ```
    /// use vcube::{Entry, Kind, Plant, Station, Wiring};
    ///
    /// let mut plant = Plant::new(Wiring::Ring, 4)?;
    /// let station = plant.grant()?;
    /// plant.enter(Entry { kind: Kind::Turn, station })?;
    /// plant.last = Some(station);
    /// assert_eq!((station, plant.grant()?), (Station(0), Station(1)));
    /// # Ok::<(), vcube::Refusal>(())
    /// ```
    pub fn grant(&self) -> Result<Station, Refusal> {
        grant(self.wiring, self.size, self.table(), self.last)
    }

    /// Drive: grants turns and takes them until a turn closes the round or leaves no station
    /// live, as [`drive`] does.
    ///
    /// # Errors
    ///
    /// [`Driven::refusal`] is [`Refusal::LineRule`], [`Refusal::RoundNotClosed`], [`Refusal::LastGranted`] or
    /// [`Refusal::NoneLive`]; or, before a grant, [`Refusal::TallyFull`].
    ///
    /// # Example
    ///
    /// ```
    /// use vcube::{Plant, Station, Tally, Wiring};
    ///
    /// let mut plant = Plant::new(Wiring::Cube, 8)?;
    /// assert_eq!(plant.drive().result()?, 32);
    /// assert_eq!(plant.tally, Tally { rounds: 1, tests: 24 });
    /// assert_eq!(plant.last, Some(Station(7)));
    /// # Ok::<(), vcube::Refusal>(())
    /// ```
    pub fn drive(&mut self) -> Driven {
        let table = &mut self.bytes[..table_length(self.size)];
        drive(self.wiring, self.size, table, &mut self.tally, &mut self.last)
    }

    /// Doubt lamp: the first live station that suspects another live one, and the first one
    /// that it suspects; none where the lamp is out.
    ///
    /// # Errors
    ///
    /// [`Refusal::LineRule`] or [`Refusal::RoundNotClosed`].
    ///
    /// # Example
    ///
    /// ```
    /// use vcube::{Doubt, Entry, Kind, Plant, Station, Wiring};
    ///
    /// let mut plant = Plant::new(Wiring::Cube, 4)?;
    /// assert_eq!(plant.doubt_lamp()?, None);
    /// plant.enter(Entry { kind: Kind::LateTurn, station: Station(0) })?;
    /// assert_eq!(plant.doubt_lamp()?, Some(Doubt { by: Station(0), of: Station(1) }));
    /// # Ok::<(), vcube::Refusal>(())
    /// ```
    pub fn doubt_lamp(&self) -> Result<Option<Doubt>, Refusal> {
        doubt_lamp(self.wiring, self.size, self.table())
    }

    /// Wait: after how many rounds and turns at most all live stations know all dead ones. When
    /// this holds is said at [`wait`].
    ///
    /// # Errors
    ///
    /// [`Refusal::LineRule`] or [`Refusal::RoundNotClosed`].
    ///
    /// # Example
    ///
    /// ```
    /// use vcube::{Plant, Wiring};
    ///
    /// let plant = Plant::new(Wiring::Ring, 8)?;
    /// assert_eq!(plant.wait()?.rounds, 4);
    /// # Ok::<(), vcube::Refusal>(())
    /// ```
    pub fn wait(&self) -> Result<Wait, Refusal> {
        wait(self.wiring, self.size, self.table())
    }

    /// One dead: after how many rounds and grants at most one dead station is known under a bus
    /// master, by wiring and size alone. When this holds, and where there is none, is said at
    /// [`one_dead`].
    ///
    /// # Example
    ///
    /// ```
    /// use vcube::{OneDead, Plant, Wiring};
    ///
    /// let plant = Plant::new(Wiring::Ring, 8)?;
    /// assert_eq!(plant.one_dead(), Some(OneDead { rounds: 3, grants: 32 }));
    /// # Ok::<(), vcube::Refusal>(())
    /// ```
    #[must_use]
    pub fn one_dead(&self) -> Option<OneDead> {
        one_dead(self.wiring, self.size).expect("a plant has a size")
    }

    /// Slot, on the cube: how many tests a live station makes in a round by its own row, and for
    /// how many its slot is timed. Until the station knows the dead, time slots by the
    /// commissioning sheet (see [`slot`]).
    ///
    /// # Errors
    ///
    /// [`Refusal::LineRule`], [`Refusal::RoundNotClosed`], [`Refusal::NoSuchStation`] or [`Refusal::NotLive`].
    ///
    /// # Example
    ///
    /// ```
    /// use vcube::{Plant, Slot, Station, Wiring};
    ///
    /// let plant = Plant::new(Wiring::Cube, 8)?;
    /// assert_eq!(plant.slot(Station(2))?, Slot { tests: 3, most: 5 });
    /// # Ok::<(), vcube::Refusal>(())
    /// ```
    pub fn slot(&self, station: Station) -> Result<Slot, Refusal> {
        slot(self.size, self.table(), station)
    }

    /// Assignment, on the cube: for each station other than this one, which is live, whether its
    /// distance is due or else who is ahead, by ascending distance.
    ///
    /// # Errors
    ///
    /// [`Refusal::LineRule`], [`Refusal::RoundNotClosed`], [`Refusal::NoSuchStation`] or [`Refusal::NotLive`].
    ///
    /// # Example
    ///
    /// ```
    /// use vcube::{DueOrAhead, Plant, Station, Wiring};
    ///
    /// let plant = Plant::new(Wiring::Cube, 4)?;
    /// let entries = plant.assignment(Station(1))?;
    /// let ahead = DueOrAhead::Ahead(Station(0));
    /// assert!(entries.map(|entry| entry.answer).eq([DueOrAhead::Due, DueOrAhead::Due, ahead]));
    /// # Ok::<(), vcube::Refusal>(())
    /// ```
    pub fn assignment(
        &self,
        station: Station,
    ) -> Result<impl ExactSizeIterator<Item = AssignmentEntry> + Clone + use<>, Refusal> {
        let mut list = [0; LONGEST_ASSIGNMENT];
        let length = assignment_length(self.size);
        assignment(self.size, self.table(), station, &mut list[..length])?;
        Ok((0..length / 2)
            .map(move |k| AssignmentEntry::from_bytes([list[2 * k], list[2 * k + 1]])))
    }

    /// The distances of an [`assignment`](Plant::assignment) that are due, ascending.
    ///
    /// # Errors
    ///
    /// [`Refusal::LineRule`], [`Refusal::RoundNotClosed`], [`Refusal::NoSuchStation`] or [`Refusal::NotLive`].
    ///
    /// # Example
    ///
    /// ```
    /// use vcube::{Distance, Plant, Station, Wiring};
    ///
    /// let plant = Plant::new(Wiring::Cube, 8)?;
    /// assert!(plant.due_distances(Station(5))?.eq([1, 2, 4].map(Distance)));
    /// # Ok::<(), vcube::Refusal>(())
    /// ```
    pub fn due_distances(
        &self,
        station: Station,
    ) -> Result<impl Iterator<Item = Distance> + Clone + use<>, Refusal> {
        let due = self.assignment(station)?.filter(|entry| entry.answer == DueOrAhead::Due);
        Ok(due.map(|entry| entry.distance))
    }

    /// Group list, on the cube: the members of the station's group at that level, in order. The
    /// table makes no difference.
    ///
    /// # Errors
    ///
    /// [`Refusal::NoSuchStation`] or [`Refusal::NoSuchLevel`].
    ///
    /// # Example
    ///
    /// ```
    /// use vcube::{Level, Plant, Station, Wiring};
    ///
    /// let plant = Plant::new(Wiring::Cube, 11)?;
    /// assert!(plant.group(Station(2), Level(4))?.eq([10, 8, 9].map(Station)));
    /// # Ok::<(), vcube::Refusal>(())
    /// ```
    pub fn group(
        &self,
        station: Station,
        level: Level,
    ) -> Result<impl ExactSizeIterator<Item = Station> + Clone + use<>, Refusal> {
        let mut list = [0; LONGEST_GROUP];
        let length = group_length(self.size, station, level);
        group_list(self.size, station, level, &mut list[..length])?;
        Ok((0..length).map(move |k| Station(list[k].into())))
    }

    /// The station's row: byte k is 1 if the station suspects station k, else 0.
    ///
    /// # Errors
    ///
    /// [`Refusal::LineRule`], [`Refusal::RoundNotClosed`] or [`Refusal::NoSuchStation`].
    ///
    /// # Example
    ///
    /// ```
    /// use vcube::{Plant, Station, Wiring};
    ///
    /// assert_eq!(Plant::new(Wiring::Cube, 3)?.row(Station(1))?, [0, 0, 0]);
    /// # Ok::<(), vcube::Refusal>(())
    /// ```
    pub fn row(&self, station: Station) -> Result<&[u8], Refusal> {
        row(self.wiring, self.size, self.table(), station)
    }

    /// The line of a station.
    ///
    /// # Errors
    ///
    /// [`Refusal::LineRule`], [`Refusal::RoundNotClosed`] or [`Refusal::NoSuchStation`].
    ///
    /// # Example
    ///
    /// ```
    /// use vcube::{Entry, Kind, Plant, Station, Wiring};
    ///
    /// let mut plant = Plant::new(Wiring::Cube, 4)?;
    /// plant.enter(Entry { kind: Kind::LateTurn, station: Station(0) })?;
    /// let line = plant.line(Station(0))?;
    /// assert_eq!(line.tests_made(), 1);
    /// assert!(line.suspected().eq([Station(1)]));
    /// # Ok::<(), vcube::Refusal>(())
    /// ```
    pub fn line(&self, station: Station) -> Result<Line<'_>, Refusal> {
        line(self.wiring, self.size, self.table(), station)
    }

    /// The lines of all stations, in order. The table is checked once for all of them.
    ///
    /// # Errors
    ///
    /// [`Refusal::LineRule`] or [`Refusal::RoundNotClosed`].
    ///
    /// # Example
    ///
    /// ```
    /// use vcube::{Entry, Kind, Plant, Station, Status, Wiring};
    ///
    /// let mut plant = Plant::new(Wiring::Cube, 4)?;
    /// plant.enter(Entry { kind: Kind::Crash, station: Station(2) })?;
    /// let dead = plant.lines()?.filter(|line| line.status() != Status::Live);
    /// assert!(dead.map(|line| line.station()).eq([Station(2)]));
    /// # Ok::<(), vcube::Refusal>(())
    /// ```
    pub fn lines(&self) -> Result<impl ExactSizeIterator<Item = Line<'_>> + Clone, Refusal> {
        lines(self.wiring, self.size, self.table())
    }

    /// The statuses of all stations, in order. The table is checked once.
    ///
    /// # Errors
    ///
    /// [`Refusal::LineRule`] or [`Refusal::RoundNotClosed`].
    ///
    /// # Example
    ///
    /// ```
    /// use vcube::{Plant, Status, Wiring};
    ///
    /// let plant = Plant::new(Wiring::Cube, 4)?;
    /// assert!(plant.statuses()?.all(|status| status == Status::Live));
    /// # Ok::<(), vcube::Refusal>(())
    /// ```
    pub fn statuses(&self) -> Result<impl ExactSizeIterator<Item = Status> + Clone, Refusal> {
        self.lines().map(|lines| lines.map(Line::status))
    }

    /// Who told each station to leave, in order. The table is checked once.
    ///
    /// # Errors
    ///
    /// [`Refusal::LineRule`] or [`Refusal::RoundNotClosed`].
    ///
    /// # Example
    ///
    /// ```
    /// use vcube::{Entry, Kind, Plant, Station, ToldBy, Wiring};
    ///
    /// let mut plant = Plant::new(Wiring::Cube, 4)?;
    /// // 1's reply to 0 is late, and 0 suspects it. When 1 tests 0, it is told.
    /// plant.enter(Entry { kind: Kind::LateTurn, station: Station(0) })?;
    /// plant.enter(Entry { kind: Kind::Turn, station: Station(1) })?;
    /// let told_by: Vec<_> = plant.told_by()?.take(2).collect();
    /// assert_eq!(told_by, [ToldBy::Nobody, ToldBy::Station(Station(0))]);
    /// # Ok::<(), vcube::Refusal>(())
    /// ```
    pub fn told_by(&self) -> Result<impl ExactSizeIterator<Item = ToldBy> + Clone, Refusal> {
        self.lines().map(|lines| lines.map(Line::told_by))
    }

    /// How many rounds ago each station ceased to be live, as [`Line::rounds_ago`] says, in
    /// order. The table is checked once.
    ///
    /// # Errors
    ///
    /// [`Refusal::LineRule`] or [`Refusal::RoundNotClosed`].
    ///
    /// # Example
    ///
    /// ```
    /// use vcube::{Entry, Kind, Plant, Station, Wiring};
    ///
    /// let mut plant = Plant::new(Wiring::Ring, 4)?;
    /// plant.enter(Entry { kind: Kind::Crash, station: Station(2) })?;
    /// plant.drive().result()?;
    /// plant.drive().result()?;
    /// assert!(plant.rounds_ago()?.eq([0, 0, 2, 0]));
    /// # Ok::<(), vcube::Refusal>(())
    /// ```
    pub fn rounds_ago(&self) -> Result<impl ExactSizeIterator<Item = u8> + Clone, Refusal> {
        self.lines().map(|lines| lines.map(Line::rounds_ago))
    }

    /// The station that a turn of this one would test, as [`Board::next`] says by its line; none
    /// where the turn would finish the pass. The other lines are not looked at.
    ///
    /// # Errors
    ///
    /// [`Refusal::NoSuchStation`], [`Refusal::LineRule`], [`Refusal::NotLive`] or [`Refusal::PassFinished`].
    ///
    /// # Example
    ///
    /// ```
    /// use vcube::{Plant, Station, Wiring};
    ///
    /// let plant = Plant::new(Wiring::Cube, 8)?;
    /// assert_eq!(plant.next(Station(5))?, Some(Station(4)));
    /// # Ok::<(), vcube::Refusal>(())
    /// ```
    pub fn next(&self, station: Station) -> Result<Option<Station>, Refusal> {
        self.board(station)?.next()
    }

    /// The station as a board of its own, with a copy of its line.
    ///
    /// # Errors
    ///
    /// [`Refusal::NoSuchStation`], or [`Refusal::LineRule`] of this line.
    ///
    /// # Example
    ///
    /// ```
    /// use vcube::{Plant, Station, Wiring};
    ///
    /// let plant = Plant::new(Wiring::Cube, 8)?;
    /// assert_eq!(plant.board(Station(1))?.line(), &plant.table()[vcube::line_length(8)..][..14]);
    /// # Ok::<(), vcube::Refusal>(())
    /// ```
    pub fn board(&self, station: Station) -> Result<Board, Refusal> {
        let line = self.table().chunks_exact(line_length(self.size)).nth(station.0);
        Board::from_line(self.wiring, self.size, station, line.ok_or(Refusal::NoSuchStation)?)
    }

    /// Mend: makes a table that a brownout damaged valid, and gives each byte that it changed.
    /// A valid table stays as it is. The report is only lent; it has
    /// [`report_length`](crate::report_length) bytes or more.
    ///
    /// # Errors
    ///
    /// [`Refusal::ReportTooShort`].
    ///
    /// # Example
    ///
    /// ```
    /// use vcube::{Change, LineByte, Plant, Station, Wiring};
    ///
    /// let mut plant = Plant::new(Wiring::Cube, 4)?;
    /// // A brownout: station 1 has status 7.
    /// plant.table_mut()[10] = 7;
    /// let mut report = [0; vcube::report_length(4)];
    /// let change = Change { line: Station(1), byte: LineByte::Status, old: 7, new: 1 };
    /// assert!(plant.mend(&mut report)?.eq([change]));
    /// assert_eq!(plant.mend(&mut report)?.len(), 0);
    /// # Ok::<(), vcube::Refusal>(())
    /// ```
    pub fn mend<'a>(
        &mut self,
        report: &'a mut [u8],
    ) -> Result<impl ExactSizeIterator<Item = Change> + use<'a>, Refusal> {
        let count = mend(self.wiring, self.size, self.table_mut(), report)?;
        Ok(changes(self.size, report, count))
    }

    /// Save, on the cube: writes size, tally and table into a buffer of
    /// [`saved_length`](Plant::saved_length) bytes. Neither the wiring nor the last granted
    /// station is saved. Of a ring, save the table right after the entry that closes a round.
    ///
    /// # Errors
    ///
    /// [`Refusal::LineRule`], [`Refusal::RoundNotClosed`] or [`Refusal::ListLength`].
    ///
    /// # Example
    ///
    /// ```
    /// use vcube::{MOST_STATIONS, Plant, Wiring};
    ///
    /// let plant = Plant::new(Wiring::Cube, 8)?;
    /// let mut buffer = [0; vcube::saved_length(MOST_STATIONS)];
    /// let saved = &mut buffer[..plant.saved_length()];
    /// plant.save(saved)?;
    /// assert_eq!(vcube::saved_size(saved)?, 8);
    /// # Ok::<(), vcube::Refusal>(())
    /// ```
    pub fn save(&self, saved: &mut [u8]) -> Result<(), Refusal> {
        save(self.size, self.table(), self.tally, saved)
    }

    /// The length of the plant's saved form.
    ///
    /// ```
    /// use vcube::{Plant, Wiring};
    ///
    /// assert_eq!(Plant::new(Wiring::Cube, 8)?.saved_length(), 163);
    /// # Ok::<(), vcube::Refusal>(())
    /// ```
    #[must_use]
    pub fn saved_length(&self) -> usize {
        saved_length(self.size)
    }
}

impl fmt::Debug for Plant {
    fn fmt(&self, f: &mut fmt::Formatter<'_>) -> fmt::Result {
        f.debug_struct("Plant")
            .field("wiring", &self.wiring)
            .field("size", &self.size)
            .field("table", &self.table())
            .field("tally", &self.tally)
            .field("last", &self.last)
            .finish()
    }
}
