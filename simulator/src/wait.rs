//! The wait: after how many rounds and turns at most all live stations know all
//! dead ones.

use crate::groups::group;
use crate::numbers::{Level, Size, Station};
use crate::plant::Plant;
use crate::wiring::Wiring;

/// What the question for the wait answers.
#[derive(Clone, Copy, Debug, Default, PartialEq, Eq)]
pub struct Wait {
    /// 0 or the refusal, with which all else is 0.
    pub number: u8,
    pub rounds: usize,
    pub turns_per_round: usize,
    pub turns_until_known: usize,
    pub turns_from_crash: usize,
}

/// Wait: refusals 24 and 1 to 4.
pub fn wait(wiring: usize, n: usize, table: &[u8]) -> Wait {
    match Plant::admit_on(wiring, n, table) {
        Err(refusal) => Wait {
            number: refusal.number(),
            ..Wait::default()
        },
        Ok(plant) => of_plant(&plant),
    }
}

fn of_plant(plant: &Plant) -> Wait {
    let rounds = worst_case(plant.wiring(), plant.size());
    let turns = count_of_tests(plant) + live(plant).count();
    Wait {
        number: 0,
        rounds,
        turns_per_round: turns,
        turns_until_known: rounds * turns,
        turns_from_crash: (rounds + 1) * turns,
    }
}

/// The worst case of the cube, in rounds, of d from 1 to 6.
const WORST_ON_CUBE: [usize; 6] = [1, 2, 3, 4, 6, 8];

/// The worst case, in rounds.
pub(crate) fn worst_case(wiring: Wiring, size: Size) -> usize {
    match wiring {
        Wiring::Ring => size.count() / 2,
        Wiring::Cube => WORST_ON_CUBE[size.levels().count() - 1],
    }
}

/// The tests of a round: on the ring n; on the cube n·d, less one for each
/// station and each level at which its group has no live station.
fn count_of_tests(plant: &Plant) -> usize {
    let size = plant.size();
    match plant.wiring() {
        Wiring::Ring => size.count(),
        Wiring::Cube => {
            let pairs = size
                .stations()
                .flat_map(|j| size.levels().map(move |s| (j, s)));
            pairs.filter(|(j, s)| has_live(plant, *j, *s)).count()
        }
    }
}

/// Whether the group of station j at this level has a live station.
fn has_live(plant: &Plant, j: Station, level: Level) -> bool {
    group(plant.size(), j, level).any(|one| plant.line(one).is_live())
}

fn live(plant: &Plant) -> impl Iterator<Item = Station> + '_ {
    let stations = plant.size().stations();
    stations.filter(|one| plant.line(*one).is_live())
}
