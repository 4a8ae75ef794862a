//! Totals handed in: those of lists, and such as no list has.

use shared::random::Random;

use super::results::{self, MOST_RESULTS};
use crate::answer::members_of;

/// Count, sum, squares, least, greatest.
type Totals = [u64; 5];

/// The greatest result.
const GREATEST: u64 = u16::MAX as u64;

/// What the most results can have: count, sum, sum of squares.
const MOST: [u64; 3] = repeated(MOST_RESULTS as u64, GREATEST);

/// Count, sum and sum of squares of a result that comes so often.
const fn repeated(count: u64, result: u64) -> [u64; 3] {
    [count, count * result, count * result * result]
}

/// Totals for figures.
pub fn one(random: &mut Random) -> Totals {
    let mut totals = of_list(random);
    let member = random.below(MOST.len());
    match random.below(16) {
        0..=2 => {}
        3 => totals[0] = results::border(random) as u64,
        4..=6 => totals[member] = MOST[member] + random.below(2) as u64,
        7 | 8 => totals[member] = u64::MAX - random.below(2) as u64,
        9 => totals[0] = 0,
        10 | 11 => {
            totals[0] = 0;
            totals[1 + random.below(2)] = greater(random);
        }
        12 => totals[2] /= 2,
        13 => totals[1] = random.between(0, MOST[1] as usize) as u64,
        14 => totals[2] = random.between(0, MOST[2] as usize) as u64,
        _ => totals = anything(random),
    }
    totals
}

/// Totals for a join.
pub fn two(random: &mut Random) -> [Totals; 2] {
    match random.below(12) {
        0..=3 => [of_list(random), of_list(random)],
        4 | 5 => {
            let sum = results::border(random);
            let first = random.below(sum + 1);
            [first, sum - first].map(|count| of_repeated(count as u64, random))
        }
        6 | 7 => at_a_bound(random),
        8 | 9 => past_64_bits(random),
        10 => without_count(random),
        _ => [anything(random), anything(random)],
    }
}

/// Totals of a list, which may be empty.
fn of_list(random: &mut Random) -> Totals {
    match random.below(6) {
        0 => [0; 5],
        1 => of_repeated(random.between(1, MOST_RESULTS) as u64, random),
        _ => of_few(random),
    }
}

/// Totals of a short list that is not empty.
fn of_few(random: &mut Random) -> Totals {
    let length = results::few(random);
    let list = results::list(length, random);
    members_of(&simulator::totals(&list))
}

/// Totals of one result that comes so often.
fn of_repeated(count: u64, random: &mut Random) -> Totals {
    let any = random.any() % (GREATEST + 1);
    let result = random.pick(&[0, any, GREATEST, GREATEST]);
    let [count, sum, squares] = repeated(count, result);
    match count {
        0 => [0; 5],
        _ => [count, sum, squares, result, result],
    }
}

/// More than any sum or sum of squares that is taken.
fn greater(random: &mut Random) -> u64 {
    random.pick(&[MOST[2] + 1, u64::MAX - 1, u64::MAX])
}

/// Totals of which one member is, in all, at its bound or one more.
fn at_a_bound(random: &mut Random) -> [Totals; 2] {
    let [mut first, mut second] = [of_few(random), of_few(random)];
    let member = random.below(MOST.len());
    let sum = MOST[member] + random.below(2) as u64;
    let anything = random.below(sum as usize + 1) as u64;
    first[member] = random.pick(&[0, anything, anything, sum]);
    second[member] = sum - first[member];
    [first, second]
}

/// Totals of which one member is nearly 2^64 in one of them.
fn past_64_bits(random: &mut Random) -> [Totals; 2] {
    let mut both = [of_few(random), of_few(random)];
    let member = random.below(MOST.len());
    both[0][member] = u64::MAX - random.below(2) as u64;
    both[1][member] = random.pick(&[0, 1, 2, MOST[member], u64::MAX]);
    random.shuffle(&mut both);
    both
}

/// Totals of which one or both have count 0, but other members that are not 0.
fn without_count(random: &mut Random) -> [Totals; 2] {
    let mut both = [of_few(random), of_few(random)];
    match random.below(4) {
        0 => both.iter_mut().for_each(|totals| totals[0] = 0),
        _ => both[random.below(2)][0] = 0,
    }
    both
}

/// Members that have nothing to do with each other, mostly within the bounds.
fn anything(random: &mut Random) -> Totals {
    let mut totals = [0; 5].map(|_: u64| random.any());
    for (member, most) in totals.iter_mut().zip(MOST) {
        if !random.once_in(8) {
            *member %= most + 1;
        }
    }
    totals
}
