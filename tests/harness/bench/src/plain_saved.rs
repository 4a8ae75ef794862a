//! Saving and loading a plant in plain Rust over the lent bytes. A load goes over the
//! file once and keeps where each line stands; it judges the lines there, and copies
//! them when all is found right.

use crate::plain::{check_table, end, keeps_line_rules};
use shared::table::{FINISHED, HEAD, LIVE, STATUS};
use std::mem::replace;
use vcube::{Loaded, Refusal, Tally, Wiring};

/// The tags.
const SIZE: u8 = 1;
const TALLY: u8 = 2;
const LINE: u8 = 3;

/// The opening, the size field and the tally field, heads included.
const OPENING: [u8; 4] = [4, 0, 1, 2];
const FRONT: usize = 19;

/// The bytes of a line field before the line: tag, length and station.
const LINE_FIELD: usize = 4;

/// The most stations of a plant.
const MOST: usize = 64;

/// Save: refusals 1 to 4, 13.
pub fn save(n: usize, table: &[u8], tally: Tally, saved: &mut [u8]) -> Result<(), Refusal> {
    check_table(Wiring::Cube, n, table)?;
    if saved.len() != FRONT + n * (LINE_FIELD + n + HEAD) {
        return Err(Refusal::ListLength);
    }
    let (front, fields) = saved.split_at_mut(FRONT);
    front[..4].copy_from_slice(&OPENING);
    front[4..11].copy_from_slice(&[SIZE, 0, 1, n as u8, TALLY, 0, 8]);
    front[11..15].copy_from_slice(&tally.rounds.to_be_bytes());
    front[15..].copy_from_slice(&tally.tests.to_be_bytes());
    let fields = fields.chunks_exact_mut(LINE_FIELD + n + HEAD);
    for ((field, line), i) in fields.zip(table.chunks_exact(n + HEAD)).zip(0..) {
        let [high, low] = ((1 + n + HEAD) as u16).to_be_bytes();
        field[..LINE_FIELD].copy_from_slice(&[LINE, high, low, i]);
        field[LINE_FIELD..].copy_from_slice(line);
    }
    Ok(())
}

/// Load: refusals 18, 21, 22, 19, 1, 20, 2, 3, 4, in this order.
pub fn load(saved: &[u8], table: &mut [u8]) -> Result<Loaded, Refusal> {
    let mut lines = [&[][..]; MOST];
    let loaded = judge(saved, table.len(), &mut lines)?;
    for (place, line) in table.chunks_exact_mut(loaded.n + HEAD).zip(lines) {
        place.copy_from_slice(line);
    }
    Ok(loaded)
}

/// Gathers the lines by station and judges all.
fn judge<'a>(
    saved: &'a [u8],
    table: usize,
    lines: &mut [&'a [u8]; MOST],
) -> Result<Loaded, Refusal> {
    let (mut size, mut tally) = (None, None);
    let (mut front_twice, mut wrong_line, mut in_order) = (false, false, true);
    let mut before = (0, 0);
    let mut rest = saved.strip_prefix(&OPENING).unwrap_or(saved);
    while !rest.is_empty() {
        let (tag, contents) = next_field(&mut rest).ok_or(Refusal::FieldPastEnd)?;
        let mut rank = (tag, 0);
        match tag {
            SIZE => front_twice |= size.replace(contents).is_some(),
            TALLY => front_twice |= tally.replace(contents).is_some(),
            LINE => match contents {
                [station, line @ ..] => {
                    rank.1 = *station;
                    let place = lines.get_mut(usize::from(*station));
                    let was_free = place.is_some_and(|place| replace(place, line).is_empty());
                    wrong_line |= line.is_empty() || !was_free;
                }
                [] => wrong_line = true,
            },
            _ => in_order = false,
        }
        in_order &= before <= rank;
        before = rank;
    }
    if !saved.starts_with(&OPENING) {
        return Err(Refusal::NoOpening);
    }
    if !in_order {
        return Err(Refusal::FieldOrder);
    }
    let (Some([n]), Some(tally), false) = (size, tally, front_twice) else {
        return Err(Refusal::SizeOrTallyField);
    };
    let tally = <[u8; 8]>::try_from(tally).map_err(|_| Refusal::SizeOrTallyField)?;
    let (n, tally) = (usize::from(*n), u64::from_be_bytes(tally));
    if !(2..=MOST).contains(&n) {
        return Err(Refusal::SizeOutOfRange);
    }
    let (lines, behind) = lines.split_at(n);
    let are_right = lines.iter().all(|line| line.len() == n + HEAD);
    if wrong_line || !are_right || !behind.iter().all(|line| line.is_empty()) {
        return Err(Refusal::LineField);
    }
    if table != n * (n + HEAD) {
        return Err(Refusal::TableLength);
    }
    let end = end(Wiring::Cube, n);
    let mut numbered = lines.iter().enumerate();
    if !numbered.all(|(i, line)| keeps_line_rules(end, i, line)) {
        return Err(Refusal::LineRule);
    }
    let mut live = lines.iter().filter(|line| line[STATUS] == LIVE).peekable();
    if live.peek().is_some() && live.all(|line| line[FINISHED] == 1) {
        return Err(Refusal::RoundNotClosed);
    }
    let (rounds, tests) = ((tally >> 32) as u32, tally as u32);
    let tally = Tally { rounds, tests };
    Ok(Loaded { n, tally })
}

/// Takes the next field off the rest: its tag and its contents.
fn next_field<'a>(rest: &mut &'a [u8]) -> Option<(u8, &'a [u8])> {
    let ([tag, high, low], behind) = rest.split_first_chunk()?;
    let length = u16::from_be_bytes([*high, *low]);
    let (contents, behind) = behind.split_at_checked(length.into())?;
    *rest = behind;
    Some((*tag, contents))
}
