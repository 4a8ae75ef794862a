//! The granter: the grant of the next turn, and the drive that repeats grant
//! and turn.

use crate::numbers::{Size, Station};
use crate::plant::Plant;
use crate::refusal::{number_of, Refusal};
use crate::run::Watch;

/// The last granted number where no station was granted yet.
const NONE_GRANTED: usize = 255;

/// What a drive answers.
#[derive(Clone, Copy, Debug, PartialEq, Eq)]
pub struct Driven {
    /// 0 or the refusal.
    pub number: u8,
    /// The tally of closed rounds.
    pub rounds: u32,
    /// The tally of tests.
    pub tests: u32,
    /// The last granted number.
    pub last: usize,
    /// How many grants were made.
    pub grants: usize,
}

/// The plant, the tally and what the granter keeps during a drive.
struct Drive {
    watch: Watch,
    last: Option<Station>,
    grants: usize,
}

/// Grant: refusals 24, 1 to 4, 16, 17. Gives the number and the station.
pub fn grant(wiring: usize, n: usize, table: &[u8], last: usize) -> (u8, u8) {
    match admit(wiring, n, table, last) {
        Ok((plant, last)) => (0, granted(&plant, last).number()),
        Err(refusal) => (refusal.number(), 0),
    }
}

/// Drive: refusals 24, 1 to 4, 16, 17, then 7 before each grant.
/// The tally is (rounds, tests).
pub fn drive(wiring: usize, n: usize, table: &mut [u8], tally: (u32, u32), last: usize) -> Driven {
    let (rounds, tests) = tally;
    match admit(wiring, n, table, last) {
        Err(refusal) => Driven {
            number: refusal.number(),
            rounds,
            tests,
            last,
            grants: 0,
        },
        Ok((plant, last)) => {
            let mut drive = Drive {
                watch: Watch {
                    plant,
                    rounds,
                    tests,
                },
                last,
                grants: 0,
            };
            let result = drive.work();
            drive.watch.plant.encode(table);
            drive.answer(number_of(&result))
        }
    }
}

/// Refusals 24, 1 to 4, 16, 17. Gives the plant and the last granted station.
fn admit(
    wiring: usize,
    n: usize,
    table: &[u8],
    last: usize,
) -> Result<(Plant, Option<Station>), Refusal> {
    let plant = Plant::admit_on(wiring, n, table)?;
    let last = last_granted(plant.size(), last)?;
    Refusal::NoneLive.when(plant.none_live())?;
    Ok((plant, last))
}

/// The station with the last granted number, none for 255, or refusal 16.
fn last_granted(size: Size, last: usize) -> Result<Option<Station>, Refusal> {
    let station = size.stations().find(|station| station.index() == last);
    Refusal::LastGranted.when(station.is_none() && last != NONE_GRANTED)?;
    Ok(station)
}

/// The next station, going round, that is live and unfinished.
/// Used only where a station is live and refusal 4 is not met.
fn granted(plant: &Plant, last: Option<Station>) -> Station {
    going_round(plant.size(), last)
        .find(|station| plant.line(*station).is_live_and_unfinished())
        .expect("a live station is unfinished")
}

/// All stations, from the one after the last granted one up to that one
/// itself; from station 0 where none was granted yet.
fn going_round(size: Size, last: Option<Station>) -> impl Iterator<Item = Station> {
    let first = last.map_or(0, |station| station.index() + 1);
    let before = size.stations().take(first);
    size.stations().skip(first).chain(before)
}

impl Drive {
    /// Repeats grant and turn until a round closes or no station is live, or up
    /// to refusal 7.
    fn work(&mut self) -> Result<(), Refusal> {
        let rounds = self.watch.rounds;
        while self.watch.rounds == rounds && !self.watch.plant.none_live() {
            self.watch.check_tally()?;
            self.grant_and_turn();
        }
        Ok(())
    }

    fn grant_and_turn(&mut self) {
        let station = granted(&self.watch.plant, self.last);
        self.last = Some(station);
        self.grants += 1;
        self.watch.take_turn(station);
    }

    fn answer(&self, number: u8) -> Driven {
        Driven {
            number,
            rounds: self.watch.rounds,
            tests: self.watch.tests,
            last: self.last.map_or(NONE_GRANTED, Station::index),
            grants: self.grants,
        }
    }
}
