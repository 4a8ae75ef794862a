//! Calls on a plant: those that take a size.

use shared::call::{size, word, Call};
use shared::groups::{assignment_length, distances, group_length};
use shared::random::Random;
use shared::table::{line_length, live_stations, table_length, unfinished_stations, HEAD};
use shared::wiring::Wiring;

use super::{lines, mostly_cube, numbers, schedules, tables, Size};

/// The bytes of a change in a report.
const CHANGE: usize = 4;

/// From this size on a drive past the dead of half a ring has 256 grants or more.
const LONG_WAY: Size = 34;

fn wiring_number(wiring: Wiring, random: &mut Random) -> Vec<u8> {
    size(numbers::given_wiring(wiring, random))
}

pub fn fresh_table(wiring: Wiring, n: Size, random: &mut Random) -> Call {
    let given = numbers::given_size(n, random);
    let length = numbers::table_length(given, n, random);
    let wiring = wiring_number(wiring, random);
    let table = random.bytes(length);
    Call::new("fresh_table", [wiring, size(given), table], random)
}

pub fn group_list(n: Size, random: &mut Random) -> Call {
    let level = numbers::level(n, random);
    let station = match random.once_in(4) {
        // Of all stations it has the most empty groups.
        true => n - 1,
        false => numbers::station(n, random),
    };
    let right = group_length(n, station, level);
    // The second: with the absent numbers.
    let length = numbers::length_or(right, &[right + 1, 1 << (level - 1)], random);
    let level = numbers::given_level(level, n, random);
    let given = [numbers::given_size(n, random), station, level].map(size);
    let ([n, station, level], list) = (given, random.bytes(length));
    Call::new("group_list", [n, station, level, list], random)
}

pub fn assignment(n: Size, random: &mut Random) -> Call {
    let (given, table) = tables::given(mostly_cube(random), n, random);
    let station = station_in(&table, n, random);
    let right = assignment_length(n);
    // The last three: one byte for each entry, an entry for each station, with the absent numbers.
    let absent = assignment_length(distances(n));
    let wrong = [0, right - 1, right + 1, n - 1, 2 * n, absent];
    let length = numbers::length_or(right, &wrong, random);
    let list = random.bytes(length);
    Call::new("assignment", [size(given), table, size(station), list], random)
}

/// A live station, if there is one, or any.
fn station_in(table: &[u8], n: Size, random: &mut Random) -> usize {
    let live = live_stations(n, table);
    match live.is_empty() || random.once_in(6) {
        true => numbers::station(n, random),
        false => random.pick(&live),
    }
}

pub fn slot(n: Size, random: &mut Random) -> Call {
    let (given, table) = tables::given(mostly_cube(random), n, random);
    let station = match station_in(&table, n, random) {
        station if random.once_in(40) => numbers::alias(station, random),
        station => station,
    };
    Call::new("slot", [size(given), table, size(station)], random)
}

pub fn wait(wiring: Wiring, n: Size, random: &mut Random) -> Call {
    let (given, table) = tables::given(wiring, n, random);
    let wiring = wiring_number(wiring, random);
    Call::new("wait", [wiring, size(given), table], random)
}

pub fn one_dead(wiring: Wiring, n: Size, random: &mut Random) -> Call {
    let n = size(numbers::given_size(n, random));
    let wiring = wiring_number(wiring, random);
    Call::new("one_dead", [wiring, n], random)
}

pub fn row(wiring: Wiring, n: Size, random: &mut Random) -> Call {
    let (given, table) = tables::given(wiring, n, random);
    let wiring = wiring_number(wiring, random);
    let station = size(numbers::station(n, random));
    Call::new("row", [wiring, size(given), table, station], random)
}

pub fn run(wiring: Wiring, n: Size, random: &mut Random) -> Call {
    let (given, table) = tables::given(wiring, n, random);
    let schedule = schedules::given(wiring, n, &table, random);
    let (rounds, tests) = numbers::tally(schedule.len() / 2, random);
    let length = numbers::length(2 * schedule.len(), random);
    let sheet = random.bytes(length);
    let wiring = wiring_number(wiring, random);
    let (n, rounds, tests) = (size(given), word(rounds), word(tests));
    let given = [wiring, n, table, rounds, tests, schedule, sheet];
    Call::new("run", given, random)
}

pub fn grant(wiring: Wiring, n: Size, random: &mut Random) -> Call {
    let (given, table, last) = granted(wiring, n, random);
    let wiring = wiring_number(wiring, random);
    Call::new("grant", [wiring, size(given), table, size(last)], random)
}

pub fn drive(wiring: Wiring, n: Size, random: &mut Random) -> Call {
    let (given, table, last) = granted(wiring, n, random);
    let (rounds, tests) = match random.once_in(3) {
        true => full_at_the_end(wiring, given, &table, last, random),
        // So near the top that the drive often stops.
        false => numbers::tally(2 * n, random),
    };
    let wiring = wiring_number(wiring, random);
    let (n, rounds, tests) = (size(given), word(rounds), word(tests));
    let given = [wiring, n, table, rounds, tests, size(last)];
    Call::new("drive", given, random)
}

/// The size, the table and the last granted number.
fn granted(wiring: Wiring, n: Size, random: &mut Random) -> (usize, Vec<u8>, usize) {
    let (given, mut table) = tables::given(wiring, n, random);
    if random.once_in(8) {
        tables::finish_all_but_one(wiring, &mut table, n, random);
    }
    if wiring == Wiring::Ring && n >= LONG_WAY && random.once_in(20) {
        tables::lead_past_the_dead(&mut table, n, random);
    }
    let unfinished = unfinished_stations(n, &table);
    let last = match unfinished[..] {
        [_, ..] if random.once_in(4) => random.pick(&unfinished),
        _ => numbers::last_granted(n, random),
    };
    (given, table, last)
}

/// A tally of which one part is full after as many rounds or tests as the drive makes from a tally of zeros, or of which the tests are full
/// one test before.
fn full_at_the_end(
    wiring: Wiring,
    n: usize,
    table: &[u8],
    last: usize,
    random: &mut Random,
) -> (u32, u32) {
    let made = simulator::drive(wiring.number(), n, &mut table.to_vec(), (0, 0), last);
    let other = random.any() as u32;
    let tests = u32::MAX - made.tests;
    match random.below(5) {
        0 => (u32::MAX - made.rounds, other),
        1 => (other, tests.saturating_add(1)),
        _ => (other, tests),
    }
}

pub fn doubt_lamp(wiring: Wiring, n: Size, random: &mut Random) -> Call {
    let given = numbers::given_size(n, random);
    let mut table = tables::any(wiring, n, random);
    match random.below(8) {
        0 | 1 => tables::clear_doubts(&mut table, n, n),
        2 => {
            tables::clear_doubts(&mut table, n, n);
            suspect_one_live(&mut table, n, random);
        }
        3 => tables::clear_doubts(&mut table, n, random.below(n)),
        4 => {
            // The first and the last station may suspect each other, whatever their status.
            tables::clear_doubts(&mut table, n, n);
            for (by, of) in [(0, n - 1), (n - 1, 0)] {
                table[by * line_length(n) + HEAD + of] = random.below(2) as u8;
            }
        }
        _ => {}
    }
    let length = numbers::table_length(given, n, random);
    tables::resize(&mut table, length, random);
    let wiring = wiring_number(wiring, random);
    Call::new("doubt_lamp", [wiring, size(given), table], random)
}

/// One live station, often the first or the last, suspects another live one, if there are two.
fn suspect_one_live(table: &mut [u8], n: Size, random: &mut Random) {
    let live = live_stations(n, table);
    if live.len() < 2 {
        return;
    }
    let last = live.len() - 1;
    let (by, of) = match random.below(4) {
        0 => (last, last - 1),
        1 => (0, 1),
        2 => (1, 0),
        _ => {
            let by = random.below(live.len());
            (by, (by + random.between(1, last)) % live.len())
        }
    };
    table[live[by] * line_length(n) + HEAD + live[of]] = 1;
}

pub fn mend(wiring: Wiring, n: Size, random: &mut Random) -> Call {
    let given = numbers::given_size(n, random);
    let mut table = match random.below(8) {
        0 => random.bytes(table_length(n)),
        1 => tables::any(wiring, n, random),
        _ => tables::round_over(wiring, n, random),
    };
    for _ in 0..random.pick(&[0, 0, 1, 1, 2, 3, n]) {
        tables::damage_one(&mut table, n, random);
    }
    if random.once_in(6) {
        // A line of which each byte may be anything.
        let start = random.below(n) * line_length(n);
        let line = random.bytes(line_length(n));
        table[start..][..line.len()].copy_from_slice(&line);
    }
    if random.once_in(8) {
        lines::break_one(&mut table, n, random);
    }
    let length = numbers::table_length(given, n, random);
    tables::resize(&mut table, length, random);
    let asked = CHANGE * table_length(n);
    let length = match random.below(16) {
        0 => asked - 1,
        1 => asked + 1,
        2 => asked + random.below(4 * CHANGE),
        3 => asked - random.below(4 * CHANGE),
        4 => asked / CHANGE,
        5 => 0,
        6 => asked + random.below(1_000),
        _ => asked,
    };
    let report = random.bytes(length);
    let wiring = wiring_number(wiring, random);
    Call::new("mend", [wiring, size(given), table, report], random)
}
