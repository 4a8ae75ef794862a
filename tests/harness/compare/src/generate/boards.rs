//! Calls of a board. Its line is one of a table, and what it hears is mostly the row of another line of that table.

use shared::call::{size, Call};
use shared::groups::SIZES;
use shared::random::Random;
use shared::table::{line_length, live_stations, unfinished_stations, HEAD, STATUS};
use shared::wiring::Wiring;
use simulator::{board_next, Given};

use super::{lines, numbers, tables, Size};

/// Bits of a byte.
const BITS: usize = 8;

pub fn call(wiring: Wiring, n: Size, random: &mut Random) -> Call {
    let table = tables::valid(wiring, n, random);
    let own = board_of(n, &table, random);
    let line = line_of(own, n, &table, random);
    let number = wiring.number();
    let given = Given { wiring: number, n, own: own as u8 };
    // Any, where it is none.
    let tested = usize::from(board_next(given, &line).1);
    let other = (own + random.between(1, n - 1)) % n;
    let [wiring, asked, own_given, line] = arguments(wiring, own, n, line, random);
    match random.below(21) {
        0 | 20 => Call::new("board_fresh", [wiring, asked, own_given, line], random),
        1 | 2 => Call::new("board_next", [wiring, asked, own_given, line], random),
        3 | 4 => {
            let length = packed_length(n, random);
            let row = random.bytes(length);
            Call::new("board_row", [wiring, asked, own_given, line, row], random)
        }
        5..=10 => {
            let reply = heard(own, tested.min(n - 1), n, &table, random);
            let given = [wiring, asked, own_given, line, reply];
            Call::new("board_replied", given, random)
        }
        11 | 12 => Call::new("board_not_replied", [wiring, asked, own_given, line], random),
        13 | 14 => {
            let by = sender(own, other, n, random);
            Call::new("board_told", [wiring, asked, own_given, line, by], random)
        }
        15..=17 => {
            let row = heard(own, other, n, &table, random);
            let from = sender(own, other, n, random);
            let given = [wiring, asked, own_given, line, from, row];
            Call::new("board_exchanged", given, random)
        }
        _ => Call::new("board_round_closed", [wiring, asked, own_given, line], random),
    }
}

/// Mostly one that can take a turn, if there is one.
fn board_of(n: Size, table: &[u8], random: &mut Random) -> usize {
    let likely = match random.below(12) {
        0 | 1 => Vec::new(),
        2 => live_stations(n, table),
        _ => unfinished_stations(n, table),
    };
    match likely.is_empty() {
        true => random.below(n),
        false => random.pick(&likely),
    }
}

/// Its line in the table. Now and then it suspects all others, or all but one, or some of its bytes are others.
fn line_of(own: usize, n: Size, table: &[u8], random: &mut Random) -> Vec<u8> {
    let mut line = table[own * line_length(n)..][..line_length(n)].to_vec();
    if random.once_in(8) {
        line[HEAD..].fill(1);
        line[HEAD + own] = 0;
        if random.once_in(2) {
            line[HEAD + random.below(n)] = 0;
        }
    }
    match random.below(24) {
        0..=2 => tables::damage_line(&mut line, own, n, random),
        3 => lines::break_line(&mut line, own, n, random),
        4 => line[HEAD + own] = 1,
        _ => {}
    }
    line
}

/// Wiring, size, board and line, of which now and then one is wrong, or several are.
fn arguments(
    wiring: Wiring,
    own: usize,
    n: Size,
    mut line: Vec<u8>,
    random: &mut Random,
) -> [Vec<u8>; 4] {
    let often = random.once_in(12);
    let mut number = numbers::given_wiring(wiring, random);
    if often && random.once_in(3) {
        number = 0;
    }
    let asked = match often && random.once_in(3) {
        true => random.pick(&[0, 1, 65]),
        false => numbers::given_size(n, random),
    };
    let board = match random.once_in(if often { 2 } else { 24 }) {
        true => no_board(own, n, random),
        false => own,
    };
    if often && random.once_in(2) {
        line[STATUS] = random.between(4, 255) as u8;
    }
    let right = match SIZES.contains(&asked) && random.once_in(2) {
        true => line_length(asked),
        false => line_length(n),
    };
    let length = match random.below(if often { 6 } else { 60 }) {
        0 => right - 1,
        1 => right + 1,
        // Without its head.
        2 => n,
        _ => numbers::length(right, random),
    };
    tables::resize(&mut line, length, random);
    [size(number), size(asked), size(board), line]
}

/// A number that no board has.
fn no_board(own: usize, n: Size, random: &mut Random) -> usize {
    match random.below(5) {
        0 => n,
        1 => n + random.below(200),
        2 => random.pick(&[64, 255, 256, usize::MAX]),
        3 => usize::MAX - random.below(300),
        _ => numbers::alias(own, random),
    }
}

/// The other station, or now and then a number that no other has.
fn sender(own: usize, other: usize, n: Size, random: &mut Random) -> Vec<u8> {
    size(match random.below(10) {
        0 => own,
        1 => no_board(other, n, random),
        _ => other,
    })
}

/// The length of a packed row: mostly the right one.
fn packed_length(n: Size, random: &mut Random) -> usize {
    let right = n.div_ceil(BITS);
    // The last two: for 64 boards, and a byte for each board.
    let wrong = [right - 1, right + 1, n / BITS, n / BITS + 1, BITS, n];
    numbers::length_or(right, &wrong, random)
}

/// The packed row of a station of the table, mostly with some bits changed, or any bytes.
fn heard(own: usize, from: usize, n: Size, table: &[u8], random: &mut Random) -> Vec<u8> {
    let row = &table[from * line_length(n) + HEAD..][..n];
    let mut packed = vec![0; n.div_ceil(BITS)];
    for (k, byte) in row.iter().enumerate() {
        packed[k / BITS] |= byte << (k % BITS);
    }
    let mut put = |board: usize, bit: u8| {
        packed[board / BITS] &= !(1 << (board % BITS));
        packed[board / BITS] |= bit << (board % BITS);
    };
    if random.once_in(3) {
        put(own, random.below(3) as u8 / 2);
    }
    if random.once_in(3) {
        put(from, 1);
    }
    if random.once_in(3) && !n.is_multiple_of(BITS) {
        packed[n / BITS] |= random.byte() << (n % BITS);
    }
    if random.once_in(8) {
        packed = random.bytes(packed.len());
    }
    let length = packed_length(n, random);
    tables::resize(&mut packed, length, random);
    packed
}

#[cfg(test)]
mod tests {
    use std::collections::{BTreeMap, BTreeSet};

    use shared::groups;

    use super::*;
    use crate::answer::answer;
    use shared::call::number;

    /// The refusals of each call, as docs/RULES.md lists them, and 0.
    const NUMBERS: [(&str, &[u8]); 8] = [
        ("vcube_board_fresh", &[0, 1, 9, 24, 25]),
        ("vcube_board_next", &[0, 1, 3, 9, 10, 11, 24, 25]),
        ("vcube_board_row", &[0, 1, 3, 9, 10, 13, 24, 25]),
        ("vcube_board_replied", &[0, 1, 3, 9, 10, 11, 13, 24, 25]),
        ("vcube_board_not_replied", &[0, 1, 3, 9, 10, 11, 24, 25]),
        ("vcube_board_told", &[0, 1, 3, 9, 10, 24, 25]),
        ("vcube_board_exchanged", &[0, 1, 3, 9, 10, 13, 24, 25]),
        ("vcube_board_round_closed", &[0, 1, 3, 9, 24, 25]),
    ];

    #[test]
    fn all_refusals_and_outcomes_come() {
        let (mut numbers, mut turns) = (BTreeMap::new(), BTreeMap::new());
        for k in 0..15_000 {
            let random = &mut Random::numbered(1, k);
            let n = groups::random_size(random);
            let call = call(random.pick(&Wiring::ALL), n, random);
            let (name, answer) = (call.function.name, answer(&call));
            let of_function: &mut BTreeSet<u8> = numbers.entry(name).or_default();
            of_function.insert(answer.number);
            if answer.number == 0 && name.ends_with("replied") {
                let [wiring, outcome] = [&call.arguments[0], answer.arguments.last().unwrap()];
                let of_wiring: &mut BTreeSet<_> = turns.entry((name, number(wiring))).or_default();
                of_wiring.insert((answer.arguments[3][0], number(outcome)));
            }
        }
        let listed = NUMBERS.map(|(name, listed)| (name, listed.iter().copied().collect()));
        assert_eq!(numbers, BTreeMap::from(listed));
        // Statuses and outcomes of a turn that is taken: a board that is told leaves, one that comes to be alone too.
        for wiring in [1, 2] {
            let replied = [(0, 0), (0, 1), (0, 5), (2, 2), (3, 5)];
            assert_eq!(turns[&("vcube_board_replied", wiring)], replied.into());
            let not_replied = [(0, 0), (0, 3), (3, 3)];
            assert_eq!(turns[&("vcube_board_not_replied", wiring)], not_replied.into());
        }
    }
}
