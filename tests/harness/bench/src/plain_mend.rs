//! Mending in plain Rust over the lent bytes.

use crate::plain::{check_shape, end, is_another, keeps_pass_rules};
use shared::table::{CLOSED_SINCE, CRASHED, FINISHED, HEAD, LEFT_ALONE, LEFT_TOLD, LIVE};
use shared::table::{NEXT_DISTANCE, NOT_RECORDED, STATUS, TESTS, TOLD_BY, TOLD_BY_NONE};
use vcube::{Refusal, Wiring};

/// The bytes of a listed change.
const CHANGE: usize = 4;

/// Makes the table keep all rules, and lists each byte that was changed: refusals 1, 2
/// and 23. Gives how many changes there are.
pub fn mend(
    wiring: Wiring,
    n: usize,
    table: &mut [u8],
    report: &mut [u8],
) -> Result<usize, Refusal> {
    check_shape(n, table)?;
    if report.len() < CHANGE * table.len() {
        return Err(Refusal::ReportTooShort);
    }
    let end = end(wiring, n);
    let over = is_over(end, n, table);
    let mut changes = 0;
    let mut offset = 0;
    for (own, line) in table.chunks_exact_mut(n + HEAD).enumerate() {
        let head = mended_head(end, n, own, line, over);
        for (byte, new) in line.iter_mut().zip(head) {
            put(byte, new, offset, report, &mut changes);
            offset += 1;
        }
        for (k, byte) in line[HEAD..].iter_mut().enumerate() {
            let new = if k == own || *byte > 1 { 0 } else { *byte };
            put(byte, new, offset, report, &mut changes);
            offset += 1;
        }
    }
    report[CHANGE * changes..].fill(0);
    Ok(changes)
}

/// Writes the byte, and lists it if it was another one.
fn put(byte: &mut u8, new: u8, offset: usize, report: &mut [u8], changes: &mut usize) {
    if *byte != new {
        let place = &mut report[CHANGE * *changes..][..CHANGE];
        place.copy_from_slice(&[(offset / 256) as u8, offset as u8, *byte, new]);
        *byte = new;
        *changes += 1;
    }
}

/// Whether the round is over once the lines are mended.
fn is_over(end: usize, n: usize, table: &[u8]) -> bool {
    let mut some = false;
    for line in table.chunks_exact(n + HEAD) {
        if line[STATUS] == LIVE {
            if line[FINISHED] != 1 || !keeps_pass_rules(end, line) {
                return false;
            }
            some = true;
        }
    }
    some
}

/// Bytes 0 to 5 of a line, mended.
fn mended_head(end: usize, n: usize, own: usize, line: &[u8], over: bool) -> [u8; HEAD] {
    let status = match line[STATUS] {
        status @ ..=LEFT_ALONE => status,
        _ => CRASHED,
    };
    let [next, finished, tests] = match over || !keeps_pass_rules(end, line) {
        true => [1, 0, 0],
        false => [line[NEXT_DISTANCE], line[FINISHED], line[TESTS]],
    };
    let told_by = match status {
        LEFT_TOLD if is_another(n, own, line[TOLD_BY]) => line[TOLD_BY],
        LEFT_TOLD => NOT_RECORDED,
        _ => TOLD_BY_NONE,
    };
    let since = match status {
        LIVE => 0,
        _ => line[CLOSED_SINCE],
    };
    [status, next, finished, tests, told_by, since]
}
