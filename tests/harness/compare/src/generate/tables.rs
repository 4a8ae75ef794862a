//! Tables: valid ones, ones where refusal 4 applies, and damaged ones.

use shared::random::Random;
use shared::schedule::Style;
use shared::table::{fresh, line_length, live_stations, unfinished_stations, HEAD};
use shared::table::{FINISHED, LIVE, NEXT_DISTANCE, STATUS, TESTS};
use shared::wiring::Wiring;

use super::{lines, numbers, Size};

/// The size handed over and a table; now and then one of them is wrong.
pub fn given(wiring: Wiring, size: Size, random: &mut Random) -> (usize, Vec<u8>) {
    let n = numbers::given_size(size, random);
    let mut table = any(wiring, size, random);
    let length = numbers::table_length(n, size, random);
    resize(&mut table, length, random);
    (n, table)
}

/// A table of the right length. Mostly refusals 3 and 4 of the wiring do not meet
/// it.
pub fn any(wiring: Wiring, size: Size, random: &mut Random) -> Vec<u8> {
    let mut table = valid(wiring, size, random);
    if random.once_in(14) {
        finish_all_live(wiring, &mut table, size);
    }
    if random.once_in(8) {
        damage(&mut table, size, random);
    }
    if random.once_in(16) {
        lines::break_one(&mut table, size, random);
    }
    table
}

/// A valid table, or one whose every live line is finished.
pub fn round_over(wiring: Wiring, size: Size, random: &mut Random) -> Vec<u8> {
    let mut table = valid(wiring, size, random);
    if random.once_in(2) {
        finish_all_live(wiring, &mut table, size);
    }
    table
}

/// Changes one byte of a line. The table can still be valid afterwards.
pub fn damage_one(table: &mut [u8], size: Size, random: &mut Random) {
    let own = random.below(size);
    let length = line_length(size);
    let line = &mut table[own * length..][..length];
    damage_line(line, own, size, random);
}

/// A table that refusals 1 to 4 do not meet.
pub fn valid(wiring: Wiring, size: Size, random: &mut Random) -> Vec<u8> {
    match random.below(8) {
        0 => fresh(size),
        1..=3 => after_a_run(wiring, size, random),
        _ => by_the_rules(wiring, size, random),
    }
}

/// The table that a random schedule leaves behind, or the same long after.
fn after_a_run(wiring: Wiring, size: Size, random: &mut Random) -> Vec<u8> {
    let mut table = fresh(size);
    let entries = random.between(1, 3 * size);
    Style::new(false, random).taken(wiring, size, &mut table, entries, random);
    if random.once_in(3) {
        lines::count_anew(&mut table, size, random);
    }
    table
}

/// How often each kind of byte takes which value, in 16 parts.
struct Weights {
    live: usize,
    at_end: usize,
    finished: usize,
    suspected: usize,
}

const PARTS: [usize; 7] = [0, 1, 4, 8, 12, 15, 16];

/// A random table that keeps the line rules.
fn by_the_rules(wiring: Wiring, size: Size, random: &mut Random) -> Vec<u8> {
    let weights = Weights {
        live: random.pick(&[16, 16, 15, 12, 8, 2, 0]),
        at_end: random.pick(&PARTS),
        finished: random.pick(&PARTS),
        suspected: random.pick(&PARTS),
    };
    let mut table = Vec::new();
    for own in 0..size {
        table.extend(line(wiring, size, own, &weights, random));
    }
    if random.once_in(24) {
        lines::tell_each_other(&mut table, size, random);
    }
    reopen_one(&mut table, size, random);
    // More often in a small plant, whose runs end after few tests.
    if size < 4 && random.once_in(2) || random.once_in(2 + size / 8) {
        isolate_one(wiring, &mut table, size, random);
    }
    table
}

fn line(wiring: Wiring, size: Size, own: usize, weights: &Weights, random: &mut Random) -> Vec<u8> {
    let live = random.below(16) < weights.live;
    let end = wiring.end(size);
    let next = match random.below(16) < weights.at_end {
        true => end,
        false => random.between(1, end),
    };
    let finished = next == end && random.below(16) < weights.finished;
    let tests = random.below(next);
    let mut line = vec![0; HEAD];
    line[NEXT_DISTANCE] = next as u8;
    line[FINISHED] = u8::from(finished);
    line[TESTS] = tests as u8;
    match live {
        true => lines::set_status(&mut line, own, size, LIVE, random),
        false => lines::leave(&mut line, own, size, random),
    }
    for other in 0..size {
        let suspected = other != own && random.below(16) < weights.suspected;
        line.push(u8::from(suspected));
    }
    line
}

/// If refusal 4 applies, one live line becomes unfinished.
fn reopen_one(table: &mut [u8], size: Size, random: &mut Random) {
    let live = live_stations(size, table);
    if !live.is_empty() && unfinished_stations(size, table).is_empty() {
        let station = random.pick(&live);
        table[station * line_length(size) + FINISHED] = 0;
    }
}

/// A station that can take a turn comes to suspect all others, so that it
/// leaves at its next test, whatever the reply. Mostly nobody suspects it.
/// Often the others are finished and the one that it tests may be dead, or only
/// the one that it tests is live.
fn isolate_one(wiring: Wiring, table: &mut [u8], size: Size, random: &mut Random) {
    let unfinished = unfinished_stations(size, table);
    if unfinished.is_empty() {
        return;
    }
    let station = random.pick(&unfinished);
    let next = random.between(1, wiring.end(size) - 1);
    let tested = first_from(wiring, next, size, station);
    let (unsuspected, others) = (!random.once_in(4), random.below(3));
    let dead = random.once_in(3);
    for (own, line) in table.chunks_exact_mut(line_length(size)).enumerate() {
        match others {
            _ if own == station => suspect_all(line, next),
            0 if dead && Some(own) == tested => lines::leave(line, own, size, random),
            0 => finish(wiring, line, size),
            1 if Some(own) == tested => lines::set_status(line, own, size, LIVE, random),
            1 => lines::leave(line, own, size, random),
            _ => {}
        }
        if own == station || unsuspected {
            line[HEAD + station] = 0;
        }
    }
}

/// The first station from a distance on. One that suspects all others tests it.
fn first_from(wiring: Wiring, distance: usize, size: Size, station: usize) -> Option<usize> {
    let mut others = (distance..wiring.end(size)).map(|m| wiring.at(size, station, m));
    others.find(|other| *other < size)
}

fn suspect_all(line: &mut [u8], next: usize) {
    line[NEXT_DISTANCE] = next as u8;
    line[FINISHED] = 0;
    line[TESTS] = 0;
    line[HEAD..].fill(1);
}

fn finish(wiring: Wiring, line: &mut [u8], size: Size) {
    line[NEXT_DISTANCE] = wiring.end(size) as u8;
    line[FINISHED] = 1;
}

/// Of the stations that can take a turn all but one become finished.
pub fn finish_all_but_one(wiring: Wiring, table: &mut [u8], size: Size, random: &mut Random) {
    let mut others = unfinished_stations(size, table);
    if !others.is_empty() {
        others.swap_remove(random.below(others.len()));
    }
    for station in others {
        finish(wiring, &mut table[station * line_length(size)..], size);
    }
}

/// A table of the ring: the first half of the stations is live and goes on with
/// its pass at the other half, of which only the last one is live.
pub fn lead_past_the_dead(table: &mut [u8], size: Size, random: &mut Random) {
    let half = size / 2;
    for (own, line) in table.chunks_exact_mut(line_length(size)).take(size).enumerate() {
        if own < half || own + 1 == size {
            lines::set_status(line, own, size, LIVE, random);
        } else {
            lines::leave(line, own, size, random);
        }
        line[NEXT_DISTANCE] = half.saturating_sub(own).max(1) as u8;
        line[FINISHED] = 0;
        line[TESTS] = 0;
        line[HEAD..].fill(0);
    }
}

/// Every live line becomes finished, so that refusal 4 applies if one is live.
fn finish_all_live(wiring: Wiring, table: &mut [u8], size: Size) {
    for line in table.chunks_exact_mut(line_length(size)) {
        if line[STATUS] == LIVE {
            finish(wiring, line, size);
        }
    }
}

/// Changes one to three bytes. The table can still be valid afterwards.
fn damage(table: &mut [u8], size: Size, random: &mut Random) {
    for _ in 0..random.between(1, 3) {
        damage_one(table, size, random);
    }
}

/// Changes one byte, often to the first value out of its range, or brings the
/// next distance to a border.
pub fn damage_line(line: &mut [u8], own: usize, size: Size, random: &mut Random) {
    let column = HEAD + random.below(size);
    match random.below(12) {
        0 => line[STATUS] = random.pick(&[4, 5, 8, 128, 255]),
        1 => line[NEXT_DISTANCE] = random.pick(&[0, 128, 255]),
        2 => line[FINISHED] = random.pick(&[1, 2, 3, 128, 255]),
        3 => line[TESTS] = line[NEXT_DISTANCE],
        4 => line[TESTS] = random.byte(),
        5 => line[column] = random.pick(&[2, 3, 128, 254, 255]),
        6 => line[HEAD + own] = 1,
        7 => line[column] ^= 1,
        8 => line[random.below(HEAD)] = random.byte(),
        9 | 10 => {
            line[NEXT_DISTANCE] = random.pick(&borders(size)) as u8;
            line[FINISHED] = random.pick(&[0, 1]);
            line[TESTS] = 0;
        }
        _ => line[random.below(line_length(size))] = random.byte(),
    }
}

/// Next distances at the ends of a pass: of the ring n, of the cube 2^d.
fn borders(size: Size) -> [usize; 4] {
    let end = Wiring::Cube.end(size);
    [size, size + 1, end, end + 1]
}

/// Of the stations below this one no live one suspects a live one.
pub fn clear_doubts(table: &mut [u8], size: Size, below: usize) {
    let live = live_stations(size, table);
    for by in live.iter().filter(|by| **by < below) {
        for of in &live {
            table[by * line_length(size) + HEAD + of] = 0;
        }
    }
}

/// The table with this length.
pub fn resize(table: &mut Vec<u8>, length: usize, random: &mut Random) {
    let more = length.saturating_sub(table.len());
    table.truncate(length);
    let tail = if random.once_in(2) { vec![0; more] } else { random.bytes(more) };
    table.extend(tail);
}
