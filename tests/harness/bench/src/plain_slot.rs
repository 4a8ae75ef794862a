//! The slot of a station in plain Rust over the lent bytes.

use crate::plain::{check_table, end, is_due};
use shared::table::{HEAD, LIVE, STATUS};
use std::mem::replace;
use vcube::{Refusal, Slot, Station, Wiring};

/// The tests of station i a round, and the most with one more dead: refusals 1 to 4, 9, 10.
pub fn slot(n: usize, table: &[u8], Station(i): Station) -> Result<Slot, Refusal> {
    check_table(Wiring::Cube, n, table)?;
    if i >= n {
        return Err(Refusal::NoSuchStation);
    }
    if table[i * (n + HEAD) + STATUS] != LIVE {
        return Err(Refusal::NotLive);
    }
    let mut row = [0; 64];
    let row = &mut row[..n];
    row.copy_from_slice(&table[i * (n + HEAD) + HEAD..][..n]);
    let tests_now = tests(row, i);
    let others = (0..n).filter(|k| *k != i);
    let tests_without = others.map(|k| {
        let before = replace(&mut row[k], 1);
        let tests = tests(row, i);
        row[k] = before;
        tests
    });
    Ok(Slot { most: tests_without.max().unwrap_or(0), tests: tests_now })
}

/// How many distances are due by the row.
fn tests(row: &[u8], i: usize) -> usize {
    let distances = 1..end(Wiring::Cube, row.len());
    distances.filter(|m| is_due(row, i, *m)).count()
}
