//! Calls about results: one list or two, often with as many results as are
//! taken at most, one less or one more; and totals.

use shared::call::{members, results, Call};
use shared::random::Random;

use super::totals;

/// The most results that are taken.
pub const MOST_RESULTS: usize = 4_096;

/// From so many results on their number does not fit into 16 bits.
const PAST_16_BITS: usize = 1 << 16;

pub fn call(random: &mut Random) -> Call {
    match random.below(5) {
        0 => Call::new("figures_of_list", [one_list(random)], random),
        1 => Call::new("figures_of_two_lists", two_lists(random), random),
        2 => Call::new("totals_of_list", [one_list(random)], random),
        3 => {
            let both = totals::two(random).map(|totals| members(&totals));
            Call::new("join_totals", both, random)
        }
        _ => Call::new("figures_of_totals", [members(&totals::one(random))], random),
    }
}

/// The most results that are taken, one less, or one more.
pub fn border(random: &mut Random) -> usize {
    MOST_RESULTS - 1 + random.below(3)
}

/// The length of a list.
fn length(random: &mut Random) -> usize {
    match random.below(20) {
        0 => 0,
        1 => 1,
        2 => 2,
        3..=5 => border(random),
        6 => random.between(MOST_RESULTS + 2, 2 * MOST_RESULTS),
        7 => PAST_16_BITS + random.below(3),
        8 => random.between(3, MOST_RESULTS),
        _ => few(random),
    }
}

/// A number of results that is soon counted, but not 0.
pub fn few(random: &mut Random) -> usize {
    random.between(1, 24)
}

/// A list of so many results.
pub fn list(length: usize, random: &mut Random) -> Vec<u16> {
    let sort = match length == MOST_RESULTS && random.once_in(2) {
        // The greatest sums, and the greatest variance.
        true => random.between(1, 2),
        false => random.below(10),
    };
    match sort {
        0 => vec![0; length],
        1 => vec![u16::MAX; length],
        2 => halves(length, random),
        3 => vec![random.any() as u16; length],
        4 => {
            let values = [0, 1, u16::MAX - 1, random.any() as u16];
            drawn(length, || random.pick(&values))
        }
        5 => drawn(length, || u16::MAX - random.below(40) as u16),
        6 | 7 => drawn(length, || random.below(40) as u16),
        8 => with_one_other(length, random),
        _ => drawn(length, || random.any() as u16),
    }
}

fn drawn(length: usize, result: impl FnMut() -> u16) -> Vec<u16> {
    std::iter::repeat_with(result).take(length).collect()
}

/// 0 and the greatest result, or 0 and an even one, so that the variance can be
/// whole; in equal number, or nearly.
fn halves(length: usize, random: &mut Random) -> Vec<u16> {
    let even = 2 * random.between(1, 20) as u16;
    let mut list = vec![0; length];
    list[length / 2..].fill(random.pick(&[even, u16::MAX, u16::MAX]));
    if random.once_in(2) {
        list.reverse();
    }
    list
}

/// All the same but one, which is often the first or the last.
fn with_one_other(length: usize, random: &mut Random) -> Vec<u16> {
    let mut list = vec![random.between(1, 40) as u16; length];
    if length != 0 {
        let place = random.below(length);
        let other = random.pick(&[0, 41, u16::MAX]);
        list[random.pick(&[0, place, length - 1])] = other;
    }
    list
}

fn one_list(random: &mut Random) -> Vec<u8> {
    let length = length(random);
    results(&list(length, random))
}

/// Two lists that are cut from one, or made each by itself.
fn two_lists(random: &mut Random) -> [Vec<u8>; 2] {
    let [first, second] = two_lengths(random);
    let lists = if random.once_in(2) {
        [first, second].map(|length| list(length, random))
    } else {
        let mut whole = list(first + second, random);
        let behind = whole.split_off(first);
        [whole, behind]
    };
    lists.map(|list| results(&list))
}

fn two_lengths(random: &mut Random) -> [usize; 2] {
    match random.below(16) {
        0 => [0, 0],
        1 => [0, length(random)],
        2 => [length(random), 0],
        3..=7 => {
            let sum = border(random);
            cut(sum, random)
        }
        8 => [0; 2].map(|_| random.between(MOST_RESULTS / 2 + 1, MOST_RESULTS)),
        9 => [MOST_RESULTS + 1 + random.below(3), few(random)],
        10 => [few(random), MOST_RESULTS + 1 + random.below(3)],
        11 => {
            let sum = PAST_16_BITS + random.below(MOST_RESULTS + 1);
            cut(sum, random)
        }
        12 => cut(1, random),
        _ => [0; 2].map(|_| few(random)),
    }
}

/// Two numbers with this sum, which is not 0; often one of them is 0 or 1.
fn cut(sum: usize, random: &mut Random) -> [usize; 2] {
    let anywhere = random.below(sum + 1);
    let first = random.pick(&[0, 1, anywhere, anywhere, sum - 1, sum]);
    [first, sum - first]
}
