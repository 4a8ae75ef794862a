//! What is timed: plants, schedules and inputs.

use shared::random::Random;
use shared::table::{live_stations, unfinished_stations, HEAD, LIVE, STATUS};
use vcube::{line_length, Entry, Kind, Plant, Station, Wiring};

/// The turns of a station that are made before a plant is saved or mended: the dead are
/// partly known then.
const TURNS: usize = 6;

/// A fresh plant in which these stations crash.
pub fn without(wiring: Wiring, n: usize, dead: &[usize]) -> Plant {
    let mut plant = Plant::new(wiring, n).expect("a size");
    for station in dead.iter().copied().map(Station) {
        let kind = Kind::Crash;
        plant.enter(Entry { kind, station }).expect("a live one");
    }
    plant
}

/// The same of so many random stations.
pub fn with_dead(wiring: Wiring, n: usize, dead: usize, random: &mut Random) -> Plant {
    without(wiring, n, &random.order(n)[..dead])
}

/// Stations from 2 on are dead, and each live one suspects just these.
pub fn with_known_dead(wiring: Wiring, n: usize, dead: usize) -> Plant {
    let mut plant = without(wiring, n, &Vec::from_iter(2..2 + dead));
    let lines = plant.table_mut().chunks_exact_mut(line_length(n));
    for line in lines.filter(|line| line[STATUS] == LIVE) {
        line[HEAD + 2..][..dead].fill(1);
    }
    plant
}

/// A quarter of the stations is dead, and some turns were made.
pub fn later(wiring: Wiring, n: usize, random: &mut Random) -> Plant {
    let mut plant = with_dead(wiring, n, n / 4, random);
    for _ in 0..TURNS * n {
        enter(&mut plant, Kind::Turn, random);
    }
    plant
}

/// So many turns of live stations that have not finished their pass, in a random
/// interleaving over many rounds.
pub fn turns(plant: &Plant, entries: usize, random: &mut Random) -> Vec<u8> {
    let mut plant = plant.clone();
    let turn = |_| enter(&mut plant, Kind::Turn, random);
    (0..entries).flat_map(turn).collect()
}

/// Turns with late ones and crashes among them, until nobody is live.
pub fn exits(plant: &Plant, random: &mut Random) -> Vec<u8> {
    let (mut plant, mut schedule) = (plant.clone(), Vec::new());
    while !live_stations(plant.size(), plant.table()).is_empty() {
        let kind = match random.below(8) {
            0 => Kind::LateTurn,
            1 => Kind::Crash,
            _ => Kind::Turn,
        };
        schedule.extend(enter(&mut plant, kind, random));
    }
    schedule
}

/// An entry that is taken, of any station.
fn enter(plant: &mut Plant, kind: Kind, random: &mut Random) -> [u8; 2] {
    let ready = unfinished_stations(plant.size(), plant.table());
    let station = Station(random.pick(&ready));
    let entry = Entry { kind, station };
    plant.enter(entry).expect("its pass is not finished");
    entry.bytes()
}

/// A table of a later plant: as it is, with a byte of a row that is neither 0 nor 1, or
/// random bytes.
pub const DAMAGES: [&str; 3] = ["good", "one byte damaged", "random bytes"];

pub fn damaged(damage: &str, wiring: Wiring, n: usize, random: &mut Random) -> Vec<u8> {
    let mut table = later(wiring, n, random).table().to_vec();
    match damage {
        "one byte damaged" => {
            let line = random.below(n) * line_length(n);
            table[line + HEAD + random.below(n)] = random.between(2, 255) as u8;
        }
        "random bytes" => table = random.bytes(table.len()),
        _ => {}
    }
    table
}

/// An input of 64 boards with so many random entries, of which all can be read.
pub fn input(entries: usize, random: &mut Random) -> Vec<u8> {
    let mut text = String::from("64\n");
    for _ in 0..entries {
        let letter = char::from(random.pick(b"TLC"));
        text += &format!("{letter} {}\n", random.below(64));
    }
    text.into_bytes()
}
