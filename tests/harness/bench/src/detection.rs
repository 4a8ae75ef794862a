//! How many rounds close until every live board suspects exactly the dead ones.
//! Everything is done by the library: one entry a run, or one round a drive.

use shared::groups::dimension;
use shared::random::Random;
use shared::slowest::Plant as Slowest;
use shared::table::unfinished_stations;
use vcube::{Entry, Kind, Plant, SheetLine, Station, Status, Wiring};

use crate::work::without;

/// Which live board that has not finished its pass takes the next turn.
#[derive(Clone, Copy, Debug, PartialEq, Eq)]
pub enum Order {
    /// Any of them, at random.
    Random,
    /// Each takes its whole pass, in an order drawn anew for each round.
    Passes,
    /// Each takes its whole pass, by rising number.
    Rising,
    /// Each takes its whole pass, by falling number.
    Falling,
    /// The one whose turn adds the fewest suspicions to the table.
    Delaying,
    /// The one that the library grants it: each round is one drive.
    Driven,
}

/// The worst-case latency, in rounds.
pub fn worst_case(wiring: Wiring, n: usize) -> u32 {
    let wait = without(wiring, n, &[]).wait();
    wait.expect("a fresh table").rounds as u32
}

/// The closed rounds until every live board suspects exactly the dead ones, from a fresh
/// table on which the dead boards crash first. Stops the program if they are more than
/// the worst-case latency.
pub fn rounds_until_known(
    wiring: Wiring,
    n: usize,
    dead: &[usize],
    order: Order,
    random: &mut Random,
) -> u32 {
    let most = worst_case(wiring, n);
    let mut plant = without(wiring, n, dead);
    while !dead_are_known(&plant) {
        play_round(&mut plant, order, random);
        assert!(plant.tally.rounds <= most, "more than the worst-case latency");
    }
    plant.tally.rounds
}

/// The same of a slowest plant, which must take just the worst-case latency.
pub fn rounds_of_slowest(wiring: Wiring, slowest: &Slowest) -> Result<u32, String> {
    let n = slowest.n;
    let (crashes, turns) = slowest.entries.split_at(slowest.dead);
    let dead: Vec<usize> = crashes.iter().map(|crash| crash[1].into()).collect();
    let mut plant = without(wiring, n, &dead);
    let mut turns = turns.iter();
    let mut close_round = |plant: &mut Plant| turns.any(|turn| take_turn(plant, turn[1].into()));
    while !dead_are_known(&plant) && close_round(&mut plant) {}
    let (worst, rounds, known) =
        (worst_case(wiring, n), plant.tally.rounds, dead_are_known(&plant));
    match known && rounds == worst {
        true => Ok(worst),
        false => Err(format!(
            "slowest plant of {n} boards, {wiring}: the dead must be known after just {worst} rounds; after {rounds}: {known}"
        )),
    }
}

/// Random dead boards; at least two boards are live, and one is dead unless
/// n is 2. The number of live boards is drawn from 2 to a power of two that is
/// drawn first, since few live boards take the most rounds.
pub fn random_dead(n: usize, random: &mut Random) -> Vec<usize> {
    let power = 2 << random.below(dimension(n) as usize);
    let most = power.min(n - 1).max(2);
    let live = 2 + random.below(most - 1);
    let mut boards = random.order(n);
    boards.truncate(n - live);
    boards
}

/// Whether every live board suspects exactly the boards that are not live.
pub fn dead_are_known(plant: &Plant) -> bool {
    let lines = plant.lines().expect("a good table");
    let is_dead = |status: Status| u8::from(status != Status::Live);
    let dead: Vec<u8> = lines.clone().map(|line| is_dead(line.status())).collect();
    let mut live = lines.filter(|line| line.status() == Status::Live);
    live.all(|line| line.row() == dead)
}

/// A turn of this board. Gives whether it closed a round.
fn take_turn(plant: &mut Plant, board: usize) -> bool {
    let (kind, station) = (Kind::Turn, Station(board));
    let rounds = plant.tally.rounds;
    plant.enter(Entry { kind, station }).expect("a turn that is taken");
    plant.tally.rounds > rounds
}

/// Grants one turn, which is then carried out. Gives its line of the run sheet.
pub fn grant_turn(plant: &mut Plant) -> SheetLine {
    let (kind, station) = (Kind::Turn, plant.grant().expect("a board is live"));
    plant.last = Some(station);
    let turn = plant.enter(Entry { kind, station });
    turn.expect("a turn that is taken")
}

fn play_round(plant: &mut Plant, order: Order, random: &mut Random) {
    let n = plant.size();
    let passes: Vec<usize> = match order {
        Order::Driven => {
            let rounds = plant.tally.rounds;
            assert!(plant.drive().result().is_ok() && plant.tally.rounds == rounds + 1);
            return;
        }
        Order::Passes => random.order(n),
        Order::Falling => (0..n).rev().collect(),
        Order::Rising => (0..n).collect(),
        Order::Random | Order::Delaying => Vec::new(),
    };
    loop {
        let ready = unfinished_stations(n, plant.table());
        let board = match order {
            Order::Random => random.pick(&ready),
            Order::Delaying => most_delaying(plant, ready, random),
            _ => first_of(&passes, &ready),
        };
        if take_turn(plant, board) {
            return;
        }
    }
}

/// The ready board whose turn leaves the fewest suspicions in the table;
/// of several, one at random: the first in a random order.
fn most_delaying(plant: &Plant, mut ready: Vec<usize>, random: &mut Random) -> usize {
    random.shuffle(&mut ready);
    let now = suspicions(plant);
    let mut least = (usize::MAX, ready[0]);
    for board in ready {
        let mut tried = plant.clone();
        take_turn(&mut tried, board);
        let after = suspicions(&tried);
        if after < least.0 {
            least = (after, board);
        }
        if after == now {
            break;
        }
    }
    least.1
}

/// The first board of the order that is ready.
fn first_of(order: &[usize], ready: &[usize]) -> usize {
    let first = order.iter().find(|board| ready.contains(board));
    *first.expect("a board is ready in an open round")
}

/// How many suspicions the rows of the table hold.
fn suspicions(plant: &Plant) -> usize {
    let rows = plant.lines().expect("a good table").map(|line| line.row());
    rows.flatten().map(|byte| usize::from(*byte)).sum()
}
