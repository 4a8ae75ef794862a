//! The slowest plants, one of each size from 3 to 64. Those of the cube are read: a
//! line of samples/slowest.txt has the size, `dead`, the boards that crash first,
//! `turns`, and the boards that then take a turn of kind 1, in order. Those of the
//! ring follow a rule.

use crate::schedule::{Entry, CRASH, TURN};
use std::cmp::Reverse;

const LINES: &str = include_str!("../../../../samples/slowest.txt");

#[derive(Clone)]
pub struct Plant {
    pub n: usize,
    /// How many boards crash.
    pub dead: usize,
    /// The crashes, then the turns.
    pub entries: Vec<Entry>,
}

/// All plants of the cube, in ascending order of their sizes.
pub fn plants() -> Result<Vec<Plant>, String> {
    let plants: Option<Vec<Plant>> = LINES.lines().map(Plant::read).collect();
    let plants = plants.filter(|plants| plants.iter().map(|plant| plant.n).eq(3..=64));
    let problem = "samples/slowest.txt does not have a line for each size from 3 to 64, in order";
    plants.ok_or_else(|| String::from(problem))
}

/// All plants of the ring, in ascending order of their sizes.
pub fn ring_plants() -> impl Iterator<Item = Plant> {
    (3..=64).map(Plant::on_ring)
}

/// The boards of a ring in the order in which they take their whole passes, where
/// board 0 is dead. A suspicion of it begins with 1 and n - 1 and spreads from
/// there. Whoever is farther from both takes its pass earlier, so that in one
/// round it spreads by one board on either side.
fn unlucky_order(n: usize) -> Vec<usize> {
    let mut order: Vec<usize> = (1..n).collect();
    let steps = |tester: &usize| match *tester + 1 {
        tested if tested == n => 0,
        tested => (*tester).min(n - tested),
    };
    order.sort_by_key(|tester| Reverse(steps(tester)));
    order
}

impl Plant {
    /// Board 0 crashes; then half of n rounds, rounded down, in each of which the
    /// others take their whole passes in this order. A pass has one test, of n - 1
    /// two, as 0 does not reply, and then the turn that finishes it.
    fn on_ring(n: usize) -> Plant {
        let pass = |i: &usize| vec![[TURN, *i as u8]; if *i == n - 1 { 3 } else { 2 }];
        let round: Vec<Entry> = unlucky_order(n).iter().flat_map(pass).collect();
        let entries = [vec![[CRASH, 0]], round.repeat(n / 2)].concat();
        Plant { n, dead: 1, entries }
    }

    /// None if the line has another form, or if fewer than two boards stay live.
    fn read(line: &str) -> Option<Plant> {
        let (n, rest) = line.split_once(" dead ")?;
        let (dead, turns) = rest.split_once(" turns ")?;
        let [crashes, turns] = [entries(CRASH, dead)?, entries(TURN, turns)?];
        let (n, dead) = (n.parse().ok()?, crashes.len());
        let entries = [crashes, turns].concat();
        (dead + 2 <= n).then_some(Plant { n, dead, entries })
    }
}

/// Entries of one kind, by their stations.
fn entries(kind: u8, stations: &str) -> Option<Vec<Entry>> {
    let entry = |station: &str| Some([kind, station.parse().ok()?]);
    stations.split(' ').map(entry).collect()
}
