//! Wiring numbers, sizes, stations, last granted numbers, levels, tallies and
//! lengths, right and wrong.

use shared::groups::{dimension, distances};
use shared::random::Random;
use shared::table;
use shared::wiring::Wiring;

use super::files::former_table_length;
use super::Size;

/// The last granted number where no station was granted yet.
const NONE_YET: usize = 255;

const WRONG_SIZES: [usize; 12] =
    [0, 1, 65, 66, 127, 128, 255, 256, 258, 65538, usize::MAX - 1, usize::MAX];

/// Added to a right number these show a number cut to 8, 16, 32 or 63 bits.
const ALIASES: [usize; 5] = [1 << 8, 1 << 16, 1 << 31, 1 << 32, 1 << 63];

/// A table longer than this is not made.
const LONGEST_TABLE: usize = 20_000;

const WRONG_WIRINGS: [usize; 8] = [0, 3, 4, 127, 128, 255, usize::MAX - 1, usize::MAX];

/// The wiring number handed over: mostly that of the wiring that the table is
/// made for, now and then the other one.
pub fn given_wiring(wiring: Wiring, random: &mut Random) -> usize {
    match random.below(40) {
        0..=2 => wiring.other().number(),
        3 | 4 => random.pick(&WRONG_WIRINGS),
        5 => wiring.number() + random.pick(&ALIASES),
        6 if random.once_in(2) => random.any() as usize,
        _ => wiring.number(),
    }
}

/// The size handed over: mostly the right one.
pub fn given_size(size: Size, random: &mut Random) -> usize {
    if !random.once_in(14) {
        return size;
    }
    match random.below(8) {
        0..=2 => random.pick(&WRONG_SIZES),
        3 | 4 => random.below(67),
        5 => size + random.pick(&ALIASES),
        6 => random.below(300),
        _ => random.any() as usize,
    }
}

/// The length of the table for the size handed over, or for the right size;
/// now and then a wrong one.
pub fn table_length(n: usize, size: Size, random: &mut Random) -> usize {
    let fitting = n.checked_mul(n.saturating_add(table::HEAD));
    let fitting = fitting.filter(|length| *length <= LONGEST_TABLE);
    let right = table::table_length(size);
    match fitting {
        Some(_) if random.once_in(80) => former_table_length(n),
        Some(fitting) if n == size || random.once_in(2) => length(fitting, random),
        _ => length(right, random),
    }
}

/// Mostly the right length.
pub fn length(right: usize, random: &mut Random) -> usize {
    if !random.once_in(20) {
        return right;
    }
    match random.below(8) {
        0 => 0,
        1 => right.saturating_sub(1),
        2 => right + 1,
        3 => right / 2,
        4 => 2 * right,
        5 => right + 256,
        6 => random.below(20),
        _ => random.below(2 * right + 20),
    }
}

/// Mostly the right length, now and then one of these.
pub fn length_or(right: usize, wrong: &[usize], random: &mut Random) -> usize {
    let drawn = wrong.get(random.below(50));
    drawn.copied().unwrap_or_else(|| length(right, random))
}

/// Mostly a station of the plant.
pub fn station(size: Size, random: &mut Random) -> usize {
    let right = random.below(size);
    if !random.once_in(12) {
        return right;
    }
    match random.below(8) {
        0 | 1 => size,
        2 => random.pick(&[size + 1, distances(size) - 1, distances(size)]),
        3 => random.pick(&[63, 64, 65, 127, 128, 254, 255, 256, 257]),
        4 => right + random.pick(&ALIASES),
        5 => usize::MAX - random.below(2),
        6 => random.below(300),
        _ => random.any() as usize,
    }
}

/// The last granted number: mostly a station of the plant or 255.
pub fn last_granted(size: Size, random: &mut Random) -> usize {
    match random.below(16) {
        0..=2 => NONE_YET,
        3 => 0,
        4 => size - 1,
        5..=7 => odd_last_granted(size, random),
        _ => random.below(size),
    }
}

/// Often a number that would be right if it were cut.
fn odd_last_granted(size: Size, random: &mut Random) -> usize {
    match random.below(8) {
        0 => size,
        1 | 2 => random.pick(&[254, 256, 0xFFFF, 0xFFFF_FFFF]),
        3 => random.below(size) + random.pick(&ALIASES),
        4 => NONE_YET + random.pick(&ALIASES),
        5 => usize::MAX - random.below(2),
        6 => random.below(300),
        _ => random.any() as usize,
    }
}

/// A level of the plant, often the highest, at which groups have the most
/// lengths.
pub fn level(size: Size, random: &mut Random) -> usize {
    let last = dimension(size) as usize;
    match random.once_in(2) {
        true => last,
        false => random.between(1, last),
    }
}

/// Mostly the right level.
pub fn given_level(right: usize, size: Size, random: &mut Random) -> usize {
    if !random.once_in(10) {
        return right;
    }
    let last = dimension(size) as usize;
    match random.below(8) {
        0 => 0,
        1 | 2 => last + 1,
        3 => random.pick(&[6, 7, 8, 63, 64, 65, 255, 256, 257]),
        4 => right + random.pick(&ALIASES),
        5 => usize::MAX - random.below(2),
        6 => random.below(10),
        _ => random.any() as usize,
    }
}

/// A number that would be this one if it were cut.
pub fn alias(right: usize, random: &mut Random) -> usize {
    right.wrapping_add(random.pick(&ALIASES))
}

/// The number of what has words: from one before the first to one behind the last
/// of so many, or an odd one.
pub fn worded(last: usize, random: &mut Random) -> usize {
    let right = random.below(last + 2);
    if !random.once_in(2) {
        return right;
    }
    match random.below(8) {
        0..=3 => right + random.pick(&ALIASES),
        4 => usize::MAX - random.below(2),
        5 => random.pick(&[127, 128, 255]),
        6 => random.below(300),
        _ => random.any() as usize,
    }
}

/// The tally handed in: rounds and tests.
pub fn tally(entries: usize, random: &mut Random) -> (u32, u32) {
    match random.below(8) {
        0..=2 => (0, 0),
        3 | 4 => (random.below(1_000) as u32, random.below(100_000) as u32),
        5 => (random.any() as u32, random.any() as u32),
        _ => (figure(entries, random), figure(entries, random)),
    }
}

/// A figure anywhere, or so near the greatest that a run can reach it.
fn figure(entries: usize, random: &mut Random) -> u32 {
    match random.below(4) {
        0 => u32::MAX - random.below(3) as u32,
        1 => u32::MAX - random.below(entries + 2) as u32,
        _ => random.any() as u32,
    }
}
