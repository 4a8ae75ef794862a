//! Schedules: ones that a table takes, ones with nonsense among the entries,
//! and random ones.

use shared::groups::distances;
use shared::random::Random;
use shared::schedule::Style;
use shared::wiring::Wiring;

use super::Size;

/// From so many entries on, a schedule is a long one.
const LONG: usize = 256;

/// A schedule for the table; now and then a wrong one or one of odd length.
pub fn given(wiring: Wiring, size: Size, table: &[u8], random: &mut Random) -> Vec<u8> {
    let entries = how_many(size, random);
    let mut schedule = match random.below(10) {
        0 => random.bytes(2 * entries),
        1 => blind(size, entries, random),
        _ => taken_by(wiring, table, size, entries, random),
    };
    if random.once_in(4) {
        insert_nonsense(&mut schedule, size, random);
    }
    if random.once_in(20) {
        make_odd(&mut schedule, random);
    }
    schedule
}

fn how_many(size: Size, random: &mut Random) -> usize {
    match random.below(200) {
        0 => 2_000 * size / 64,
        1..=3 => random.between(LONG, 2 * LONG),
        4..=40 => random.below(4),
        _ => random.below(61),
    }
}

/// Entries that the table takes, as far as there are some.
fn taken_by(
    wiring: Wiring,
    table: &[u8],
    size: Size,
    entries: usize,
    random: &mut Random,
) -> Vec<u8> {
    if simulator::check_table(wiring.number(), size, table) != 0 {
        return blind(size, entries, random);
    }
    let style = Style::new(entries >= LONG, random);
    let taken = style.taken(wiring, size, &mut table.to_vec(), entries, random);
    taken.into_flattened()
}

/// Entries of right kinds and stations, whatever the table holds.
fn blind(size: Size, entries: usize, random: &mut Random) -> Vec<u8> {
    let stations: Vec<usize> = (0..size).collect();
    let style = Style::new(entries >= LONG, random);
    style.propose(&stations, entries, random).into_flattened()
}

/// Puts a wrong entry, or one that can be wrong here, at a random place.
pub fn insert_nonsense(schedule: &mut Vec<u8>, size: Size, random: &mut Random) {
    let kind = random.between(1, 3) as u8;
    let station = random.below(size) as u8;
    let entry = match random.below(6) {
        0 => [random.pick(&[0, 4, 5, 128, 255]), station],
        1 => [random.pick(&[0, 4, 129, 131]), random.byte()],
        2 => [kind, size as u8],
        3 => {
            let past = [size as u8 + 1, distances(size) as u8 - 1, 64, 128, 255];
            [kind, random.pick(&past)]
        }
        4 => [kind, random.byte()],
        _ => [kind, station],
    };
    let place = 2 * random.below(schedule.len() / 2 + 1);
    schedule.splice(place..place, entry);
}

fn make_odd(schedule: &mut Vec<u8>, random: &mut Random) {
    if random.once_in(2) {
        schedule.pop();
    } else {
        schedule.push(random.byte());
    }
}
