//! Random schedules.

use crate::random::Random;
use crate::table;
use crate::wiring::Wiring;

pub const TURN: u8 = 1;
pub const LATE_TURN: u8 = 2;
pub const CRASH: u8 = 3;

/// Kind and station.
pub type Entry = [u8; 2];

/// Once in how many entries a late reply or a crash comes; 0 is never.
pub struct Style {
    late: usize,
    crash: usize,
    /// Whether a station mostly goes on until it has finished its pass.
    in_turn: bool,
}

impl Style {
    /// In a long schedule few stations leave, so that many entries are taken.
    pub fn new(long: bool, random: &mut Random) -> Style {
        let (late, crash) = match long {
            true => ([0, 0, 0, 200, 1_000], [0, 0, 0, 100, 1_000]),
            false => ([0, 0, 3, 10, 40], [0, 0, 5, 20, 60]),
        };
        Style { late: random.pick(&late), crash: random.pick(&crash), in_turn: random.once_in(2) }
    }

    /// Some entries of the stations given, whatever the table holds.
    pub fn propose(&self, stations: &[usize], entries: usize, random: &mut Random) -> Vec<Entry> {
        let mut proposed = Vec::new();
        for _ in 0..entries {
            let station = match self.in_turn && !random.once_in(8) {
                true => stations[0],
                false => random.pick(stations),
            };
            proposed.push([self.kind(random), station as u8]);
        }
        proposed
    }

    pub fn kind(&self, random: &mut Random) -> u8 {
        if self.late != 0 && random.once_in(self.late) {
            LATE_TURN
        } else if self.crash != 0 && random.once_in(self.crash) {
            CRASH
        } else {
            TURN
        }
    }

    /// Entries that the table takes, as far as there are some, worked on it by
    /// the simulator. Of those proposed the first is taken, since its station
    /// is live and unfinished.
    pub fn taken(
        &self,
        wiring: Wiring,
        n: usize,
        table: &mut [u8],
        most: usize,
        random: &mut Random,
    ) -> Vec<Entry> {
        let mut entries = Vec::new();
        while entries.len() < most {
            let stations = table::unfinished_stations(n, table);
            if stations.is_empty() {
                break;
            }
            let next = (1 + n / 4).min(most - entries.len());
            let next = self.propose(&stations, next, random);
            let mut sheet = vec![0; 4 * next.len()];
            let schedule = next.as_flattened();
            let answer = simulator::run(wiring.number(), n, table, (0, 0), schedule, &mut sheet);
            entries.extend(&next[..answer.taken]);
            if answer.taken == 0 {
                // Only a faulty simulator does not take the first entry.
                break;
            }
        }
        entries
    }
}
