//! How many grants pass from the death of a board until every live board
//! suspects exactly the dead ones. Grants and turns are those of the library.

use shared::random::Random;
use shared::table::live_stations;
use vcube::{Entry, Kind, Plant, Station, Wait, Wiring};

use crate::detection::{dead_are_known, grant_turn, random_dead};
use crate::work::without;

/// What a plant took, and the most that it can take by the rule Turns from a crash.
#[derive(Clone, Copy, Debug, PartialEq, Eq)]
pub struct Taken {
    pub grants: usize,
    pub bound: usize,
}

/// The one of the most grants.
pub fn greatest(taken: &[Taken]) -> Taken {
    let most = taken.iter().max_by_key(|taken| taken.grants);
    *most.expect("at least one")
}

/// The one that comes nearest to its bound.
pub fn nearest(taken: &[Taken]) -> Taken {
    let share = |taken: &&Taken| (1_000_000 * taken.grants / taken.bound, taken.grants);
    *taken.iter().max_by_key(share).expect("at least one")
}

/// The most grants from a crash until it is known where nobody is dead before, whichever
/// board it is.
pub fn bound_of_first_crash(wiring: Wiring, n: usize) -> usize {
    let bound = |board| wait(&without(wiring, n, &[board])).turns_from_crash;
    (0..n).map(bound).max().expect("at least one board")
}

fn wait(plant: &Plant) -> Wait {
    plant.wait().expect("a good table")
}

/// Lets a board crash, and grants turns until the dead are known. An error if they are
/// more than the bound.
fn crash(mut plant: Plant, board: usize) -> Result<Taken, String> {
    let (kind, station) = (Kind::Crash, Station(board));
    plant.enter(Entry { kind, station }).expect("a live board");
    let bound = wait(&plant).turns_from_crash;
    for grants in 0..=bound {
        if dead_are_known(&plant) {
            return Ok(Taken { grants, bound });
        }
        grant_turn(&mut plant);
    }
    let (n, wiring) = (plant.size(), plant.wiring());
    Err(format!(
        "{n} boards, {wiring}, crash of {board}: the dead are not known after {bound} grants"
    ))
}

/// Each board that crashes at each moment of the first round of a fresh plant,
/// with each last granted number.
pub fn search(wiring: Wiring, n: usize) -> Result<Vec<Taken>, String> {
    let mut taken = Vec::new();
    for last in 0..n {
        let mut plant = without(wiring, n, &[]);
        plant.last = Some(Station(last));
        while plant.tally.rounds == 0 {
            for board in 0..n {
                taken.push(crash(plant.clone(), board)?);
            }
            grant_turn(&mut plant);
        }
    }
    Ok(taken)
}

/// A plant with any last granted number, in half of them with random dead
/// boards, after some whole rounds and a part of a round; then a live board
/// crashes. At least two boards stay live.
pub fn random(wiring: Wiring, n: usize, random: &mut Random) -> Result<Taken, String> {
    let mut dead = match random.once_in(2) {
        true => random_dead(n, random),
        false => Vec::new(),
    };
    dead.truncate(n - 3);
    let last = Station(random.below(n));
    let mut plant = without(wiring, n, &dead);
    plant.last = Some(last);
    let rounds = random.below(wait(&plant).rounds + 1) as u32;
    while plant.tally.rounds < rounds {
        grant_turn(&mut plant);
    }
    // As many as a round can have, so that each of its moments can come.
    for _ in 0..random.below(wait(&plant).turns_per_round) {
        grant_turn(&mut plant);
    }
    let live = live_stations(n, plant.table());
    crash(plant, random.pick(&live))
}
