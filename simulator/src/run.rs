//! The run: entries, rounds, tally and sheet.

use crate::line::Status;
use crate::numbers::{Distance, Station};
use crate::outcome::Outcome;
use crate::plant::Plant;
use crate::refusal::Refusal;

/// What a run answers.
#[derive(Clone, Copy, Debug, PartialEq, Eq)]
pub struct Answer {
    /// 0 or the refusal.
    pub number: u8,
    /// How many entries were taken.
    pub taken: usize,
    /// The tally of closed rounds.
    pub rounds: u32,
    /// The tally of tests.
    pub tests: u32,
}

/// The kind of an entry.
#[derive(Clone, Copy, Debug, PartialEq, Eq)]
enum Kind {
    Turn,
    LateTurn,
    Crash,
}

/// An accepted entry.
#[derive(Clone, Copy, Debug, PartialEq, Eq)]
struct Entry {
    kind: Kind,
    station: Station,
}

/// What an entry did: the tested station, if any, and the outcome.
type Effect = (Option<Station>, Outcome);

/// Byte 1 of a line of the sheet when no station was tested.
pub const NO_STATION: u8 = 255;

/// The plant and the tally during a run or a drive.
pub struct Watch {
    pub plant: Plant,
    pub rounds: u32,
    pub tests: u32,
}

/// Run: refusals 24 and 1 to 6, then 7 to 11 at each entry.
/// The tally is (rounds, tests).
pub fn run(
    wiring: usize,
    n: usize,
    table: &mut [u8],
    tally: (u32, u32),
    schedule: &[u8],
    sheet: &mut [u8],
) -> Answer {
    let (rounds, tests) = tally;
    match admit_run(wiring, n, table, schedule, sheet) {
        Err(refusal) => Answer {
            number: refusal.number(),
            taken: 0,
            rounds,
            tests,
        },
        Ok(plant) => {
            let mut watch = Watch {
                plant,
                rounds,
                tests,
            };
            let answer = watch.work(schedule, sheet);
            watch.plant.encode(table);
            answer
        }
    }
}

/// Refusals 24 and 1 to 6.
fn admit_run(
    wiring: usize,
    n: usize,
    table: &[u8],
    schedule: &[u8],
    sheet: &[u8],
) -> Result<Plant, Refusal> {
    let plant = Plant::admit_on(wiring, n, table)?;
    Refusal::ScheduleLength.when(!schedule.len().is_multiple_of(2))?;
    Refusal::SheetLength.when(sheet.len() != 2 * schedule.len())?;
    Ok(plant)
}

impl Kind {
    /// The kind with this number, or refusal 8.
    fn decode(byte: u8) -> Result<Kind, Refusal> {
        match byte {
            1 => Ok(Kind::Turn),
            2 => Ok(Kind::LateTurn),
            3 => Ok(Kind::Crash),
            _ => Err(Refusal::UnknownKind),
        }
    }
}

impl Watch {
    /// Takes the entries in order, up to the first refused one.
    fn work(&mut self, schedule: &[u8], sheet: &mut [u8]) -> Answer {
        let mut taken = 0;
        for (bytes, place) in schedule.chunks_exact(2).zip(sheet.chunks_exact_mut(4)) {
            match self.admit_entry(bytes) {
                Err(refusal) => return self.answer(refusal.number(), taken),
                Ok(entry) => place.copy_from_slice(&self.take(entry)),
            }
            taken += 1;
        }
        self.answer(0, taken)
    }

    fn answer(&self, number: u8, taken: usize) -> Answer {
        Answer {
            number,
            taken,
            rounds: self.rounds,
            tests: self.tests,
        }
    }

    /// Refusal 7.
    pub fn check_tally(&self) -> Result<(), Refusal> {
        Refusal::TallyFull.when(self.rounds == u32::MAX || self.tests == u32::MAX)
    }

    /// Refusals 7 to 11.
    fn admit_entry(&self, bytes: &[u8]) -> Result<Entry, Refusal> {
        self.check_tally()?;
        let kind = Kind::decode(bytes[0])?;
        let station = self.plant.size().station(bytes[1])?;
        self.plant.check_live(station)?;
        let finished = self.plant.line(station).finished;
        Refusal::PassFinished.when(kind != Kind::Crash && finished)?;
        Ok(Entry { kind, station })
    }

    /// Carries out an entry; gives its line of the sheet.
    fn take(&mut self, entry: Entry) -> [u8; 4] {
        let i = entry.station;
        let (tested, outcome) = match entry.kind {
            Kind::Turn => self.turn(i, false),
            Kind::LateTurn => self.turn(i, true),
            Kind::Crash => self.crash(i),
        };
        self.close_round_if_over();
        let tested = tested.map_or(NO_STATION, Station::number);
        let status = self.plant.line(i).status.number();
        [i.number(), tested, outcome as u8, status]
    }

    /// Carries out an entry of kind 1. Used only where refusals 7 to 11 are
    /// not met.
    pub fn take_turn(&mut self, station: Station) {
        let kind = Kind::Turn;
        self.take(Entry { kind, station });
    }

    /// The next test, or the end of the pass.
    fn turn(&mut self, i: Station, late: bool) -> Effect {
        match self.next_test(i) {
            Some((m, j)) => {
                let outcome = self.test(i, j, late);
                self.count_test(i, m, outcome);
                (Some(j), outcome)
            }
            None => self.finish_pass(i),
        }
    }

    /// The distance of the next test of i, and the station that stands there.
    fn next_test(&self, i: Station) -> Option<(Distance, Station)> {
        let (wiring, size) = (self.plant.wiring(), self.plant.size());
        wiring.next_test(size, i, self.plant.line(i))
    }

    fn finish_pass(&mut self, i: Station) -> Effect {
        let end = self.plant.wiring().end(self.plant.size());
        let line = self.plant.line_mut(i);
        line.next = end;
        line.finished = true;
        (None, Outcome::PassFinished)
    }

    /// What comes of a test, and whether the tester is alone then.
    fn test(&mut self, i: Station, j: Station, late: bool) -> Outcome {
        let outcome = if self.plant.line(j).is_live() && !late {
            self.reply(i, j)
        } else {
            self.no_reply(i, j)
        };
        self.leave_if_alone(i);
        outcome
    }

    /// The test at distance m is counted: next distance and tests made.
    fn count_test(&mut self, i: Station, m: Distance, outcome: Outcome) {
        let (wiring, size) = (self.plant.wiring(), self.plant.size());
        let line = self.plant.line_mut(i);
        line.next = wiring.next_after(size, m, outcome);
        line.tests += 1;
        self.tests += 1;
    }

    /// A reply in time: a suspected tester leaves, else a suspected tested
    /// station; rows are exchanged where neither suspects the other.
    fn reply(&mut self, i: Station, j: Station) -> Outcome {
        if self.suspects(j, i) {
            self.leave_told(i, j);
            Outcome::Told
        } else if self.suspects(i, j) {
            self.leave_told(j, i);
            Outcome::TestedTold
        } else {
            self.exchange(i, j);
            Outcome::Exchanged
        }
    }

    /// Whether station i suspects station k, by its own row.
    fn suspects(&self, i: Station, k: Station) -> bool {
        self.plant.line(i).row.suspects(k)
    }

    /// Status 2, told by the row of station `by`; nothing else on the line
    /// changes.
    fn leave_told(&mut self, station: Station, by: Station) {
        self.plant.line_mut(station).status = Status::Told(Some(by));
    }

    /// Both rows become the union; neither station writes the byte about itself.
    fn exchange(&mut self, i: Station, j: Station) {
        let row_i = self.plant.line(i).row;
        let row_j = self.plant.line(j).row;
        self.plant.line_mut(i).row = row_i.union_but_own(row_j, i);
        self.plant.line_mut(j).row = row_j.union_but_own(row_i, j);
    }

    /// No reply: the tester suspects the tested station.
    fn no_reply(&mut self, i: Station, j: Station) -> Outcome {
        let line = self.plant.line_mut(i);
        line.row = line.row.with(j);
        Outcome::NoReply
    }

    /// A live station that suspects all others leaves.
    fn leave_if_alone(&mut self, i: Station) {
        let size = self.plant.size();
        let line = self.plant.line_mut(i);
        if line.is_live() && line.row.suspects_all_others(size, i) {
            line.status = Status::Alone;
        }
    }

    /// A crash.
    fn crash(&mut self, i: Station) -> Effect {
        self.plant.line_mut(i).status = Status::Crashed;
        (None, Outcome::Crash)
    }

    /// Closes the round if it is over.
    fn close_round_if_over(&mut self) {
        if self.plant.all_live_finished() {
            self.plant.close_round();
            self.rounds += 1;
        }
    }
}
