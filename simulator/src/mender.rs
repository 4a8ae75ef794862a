//! The mender: after a brownout it makes a table obey all rules, and lists what
//! it changed.

use crate::line::{self, row_part_mut};
use crate::numbers::{Size, Station};
use crate::plant::{check_length, Plant};
use crate::refusal::Refusal;
use crate::wiring::Wiring;

/// The bytes of a change in the report: the offset, high byte first, the old byte
/// and the new one.
const CHANGE: usize = 4;

/// Mends the table: refusals 24, 1, 2 and 23. The changes go to the front of the
/// report, and zeros behind them. Gives the number and how many changes there
/// are, 0 where the call is refused.
pub fn mend(wiring: usize, n: usize, table: &mut [u8], report: &mut [u8]) -> (u8, usize) {
    let (wiring, size) = match admit(wiring, n, table, report) {
        Ok(admitted) => admitted,
        Err(refusal) => return (refusal.number(), 0),
    };
    let old = table.to_vec();
    mend_table(wiring, size, table);
    let changes = changes(&old, table);
    report.fill(0);
    for (listed, change) in report.chunks_exact_mut(CHANGE).zip(&changes) {
        listed.copy_from_slice(change);
    }
    (0, changes.len())
}

fn admit(wiring: usize, n: usize, table: &[u8], report: &[u8]) -> Result<(Wiring, Size), Refusal> {
    let wiring = Wiring::new(wiring)?;
    let size = Size::new(n)?;
    check_length(size, table)?;
    Refusal::ReportTooShort.when(report.len() < CHANGE * size.table_length())?;
    Ok((wiring, size))
}

/// Each line, and then all of them if the round is over.
fn mend_table(wiring: Wiring, size: Size, table: &mut [u8]) {
    let lines = table.chunks_exact_mut(size.line_length());
    for (own, line) in size.stations().zip(lines) {
        mend_line(wiring, size, own, line);
    }
    if Plant::decode(wiring, size, table).all_live_finished() {
        let lines = table.chunks_exact_mut(size.line_length());
        lines.for_each(restart);
    }
}

/// In the order of the request: status, bytes 1 to 3, byte 4, byte 5, row.
fn mend_line(wiring: Wiring, size: Size, own: Station, line: &mut [u8]) {
    if line[0] > 3 {
        line[0] = 1;
    }
    if !line::pass_is_valid(wiring.end(size), line) {
        restart(line);
    }
    if !line::told_by_is_valid(size, own, line) {
        line[4] = if line[0] == 2 { 254 } else { 255 };
    }
    if !line::rounds_are_valid(line) {
        line[5] = 0;
    }
    for (k, byte) in row_part_mut(line).iter_mut().enumerate() {
        if *byte > 1 || (*byte == 1 && k == own.index()) {
            *byte = 0;
        }
    }
}

/// Bytes 1 to 3 as they are at the start of a round.
fn restart(line: &mut [u8]) {
    line[1..4].copy_from_slice(&[1, 0, 0]);
}

/// The bytes that differ, by rising offset.
fn changes(old: &[u8], new: &[u8]) -> Vec<[u8; CHANGE]> {
    let bytes = old.iter().zip(new).enumerate();
    let differing = bytes.filter(|(_, (old, new))| old != new);
    let change = |(offset, (old, new)): (usize, (&u8, &u8))| {
        let [high, low] = u16::try_from(offset).expect("two bytes").to_be_bytes();
        [high, low, *old, *new]
    };
    differing.map(change).collect()
}
