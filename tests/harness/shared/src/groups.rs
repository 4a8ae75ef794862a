//! Sizes, and what is left of a group where the size is no power of two.

use std::ops::RangeInclusive;

use crate::random::Random;

/// The sizes of plants.
pub const SIZES: RangeInclusive<usize> = 2..=64;

/// Those that are powers of two.
pub const POWERS: [usize; 6] = [2, 4, 8, 16, 32, 64];

/// Any size; powers of two are more frequent than others.
pub fn random_size(random: &mut Random) -> usize {
    match random.once_in(4) {
        true => random.pick(&POWERS),
        false => random.between(*SIZES.start(), *SIZES.end()),
    }
}

/// 2^d for a size: the next distance of a finished line.
pub fn distances(n: usize) -> usize {
    n.next_power_of_two()
}

/// d, the logarithm of the size to base 2, rounded up.
pub fn dimension(n: usize) -> u32 {
    distances(n).ilog2()
}

/// How many of a group are numbers below n. Any number can stand for the
/// station.
pub fn group_length(n: usize, station: usize, level: usize) -> usize {
    let first = 1 << (level - 1);
    let distances = first..2 * first;
    distances.filter(|m| station ^ m < n).count()
}

/// The length of an assignment's list: two bytes for each other station.
pub fn assignment_length(n: usize) -> usize {
    2 * (n - 1)
}
