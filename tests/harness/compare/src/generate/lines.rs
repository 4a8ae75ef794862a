//! Bytes 4 and 5 of a line: such as its status allows, and such as break a line
//! rule.

use shared::random::Random;
use shared::table::{line_length, CLOSED_SINCE, STATUS, TOLD_BY};
use shared::table::{CRASHED, LEFT_ALONE, LEFT_TOLD, LIVE, NOT_RECORDED, TOLD_BY_NONE};

use super::Size;

/// The greatest number that neither 254 nor 255 is.
const GREATEST: u8 = 253;

/// Gives a line any status of a station that is not live.
pub fn leave(line: &mut [u8], own: usize, size: Size, random: &mut Random) {
    let status = random.pick(&[CRASHED, LEFT_TOLD, LEFT_ALONE]);
    set_status(line, own, size, status, random);
}

/// Gives a line this status, and bytes 4 and 5 that it may have.
pub fn set_status(line: &mut [u8], own: usize, size: Size, status: u8, random: &mut Random) {
    line[STATUS] = status;
    line[TOLD_BY] = match status {
        LEFT_TOLD if random.once_in(4) => NOT_RECORDED,
        LEFT_TOLD => another(own, size, random),
        _ => TOLD_BY_NONE,
    };
    line[CLOSED_SINCE] = match status {
        LIVE => 0,
        _ => closed_since(random),
    };
}

/// Another station.
fn another(own: usize, size: Size, random: &mut Random) -> u8 {
    ((own + random.between(1, size - 1)) % size) as u8
}

/// Any count; often one at either end.
fn closed_since(random: &mut Random) -> u8 {
    let any = random.byte();
    random.pick(&[0, 0, 1, 254, 255, 255, any, any])
}

/// Two stations have each been told by the other.
pub fn tell_each_other(table: &mut [u8], size: Size, random: &mut Random) {
    let one = random.below(size);
    let other = another(one, size, random);
    for (own, teller) in [(one, other), (other.into(), one as u8)] {
        let line = &mut table[own * line_length(size)..];
        line[STATUS] = LEFT_TOLD;
        line[TOLD_BY] = teller;
        line[CLOSED_SINCE] = closed_since(random);
    }
}

/// Gives every line that is not live another count.
pub fn count_anew(table: &mut [u8], size: Size, random: &mut Random) {
    for line in table.chunks_exact_mut(line_length(size)) {
        if line[STATUS] != LIVE {
            line[CLOSED_SINCE] = closed_since(random);
        }
    }
}

/// Gives a line another status, and then a byte 4 or a byte 5 that it must not
/// have.
pub fn break_one(table: &mut [u8], size: Size, random: &mut Random) {
    let own = random.below(size);
    let length = line_length(size);
    break_line(&mut table[own * length..][..length], own, size, random);
}

/// The same of a line.
pub fn break_line(line: &mut [u8], own: usize, size: Size, random: &mut Random) {
    let (status, place, byte) = wrong(own, size, random);
    set_status(line, own, size, status, random);
    line[place] = byte;
}

/// A status, 4 or 5, and what the byte there must not be.
fn wrong(own: usize, size: Size, random: &mut Random) -> (u8, usize, u8) {
    let station = another(own, size, random);
    let any = random.pick(&[station, station, own as u8]);
    let past = random.between(size, GREATEST.into()) as u8;
    let last = random.pick(&[CRASHED, LEFT_ALONE]);
    match random.below(16) {
        0 => (LIVE, CLOSED_SINCE, 1),
        1 => (LIVE, CLOSED_SINCE, 255),
        2 => (LIVE, CLOSED_SINCE, random.between(2, 254) as u8),
        3 => (LIVE, TOLD_BY, 0),
        4 => (LIVE, TOLD_BY, any),
        5 => (LIVE, TOLD_BY, NOT_RECORDED),
        6 => (LIVE, TOLD_BY, past),
        7 => (CRASHED, TOLD_BY, any),
        8 => (CRASHED, TOLD_BY, NOT_RECORDED),
        9 => (LEFT_ALONE, TOLD_BY, any),
        10 => (LEFT_ALONE, TOLD_BY, NOT_RECORDED),
        11 => (last, TOLD_BY, past),
        12 => (LEFT_TOLD, TOLD_BY, TOLD_BY_NONE),
        13 => (LEFT_TOLD, TOLD_BY, own as u8),
        14 => (LEFT_TOLD, TOLD_BY, size as u8),
        _ => (LEFT_TOLD, TOLD_BY, past),
    }
}
