//! The drive in plain Rust over the lent bytes, with the turns of `plain`. As the rules
//! read, each grant looks at the lines from the one behind that of the last granted
//! station on, and after each turn all lines are looked through for a live one.

use crate::plain::{check_table, is_full, take_entry};
use shared::schedule::TURN;
use shared::table::{FINISHED, HEAD, LIVE, STATUS};
use vcube::{Driven, Refusal, Station, Tally, Wiring};

/// Drive: refusals 1 to 4, 16 and 17, then 7 before each grant.
pub fn drive(
    wiring: Wiring,
    n: usize,
    table: &mut [u8],
    tally: &mut Tally,
    last: &mut Option<Station>,
) -> Driven {
    let rounds = tally.rounds;
    let mut driven = Driven { refusal: check(wiring, n, table, *last).err(), grants: 0 };
    while driven.refusal.is_none() && tally.rounds == rounds && is_some_live(n, table) {
        if is_full(*tally) {
            driven.refusal = Some(Refusal::TallyFull);
            break;
        }
        let station = grant(n, table, *last);
        *last = Some(Station(station));
        let entry = [TURN, station as u8];
        take_entry(wiring, n, table, tally, &entry, &mut [0; 4]);
        driven.grants += 1;
    }
    driven
}

/// Refusals 1 to 4, 16 and 17.
fn check(wiring: Wiring, n: usize, table: &[u8], last: Option<Station>) -> Result<(), Refusal> {
    check_table(wiring, n, table)?;
    if last.is_some_and(|station| station.0 >= n) {
        return Err(Refusal::LastGranted);
    }
    if !is_some_live(n, table) {
        return Err(Refusal::NoneLive);
    }
    Ok(())
}

fn is_some_live(n: usize, table: &[u8]) -> bool {
    let mut lines = table.chunks_exact(n + HEAD);
    lines.any(|line| line[STATUS] == LIVE)
}

/// The next station after the last one, going round, that is live and
/// unfinished. There is one while a station is live and the round is open.
fn grant(n: usize, table: &[u8], last: Option<Station>) -> usize {
    let first = last.map_or(0, |station| station.0 + 1);
    let mut order = (first..n).chain(0..first);
    let granted = order.find(|i| {
        let line = &table[i * (n + HEAD)..];
        line[STATUS] == LIVE && line[FINISHED] == 0
    });
    granted.expect("an open round")
}
