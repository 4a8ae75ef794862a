//! The doubt lamp in plain Rust over the lent bytes.

use crate::plain::check_table;
use shared::table::{HEAD, LIVE, STATUS};
use vcube::{Doubt, Refusal, Station, Wiring};

/// The first live station that suspects a live one, and which one: refusals 1 to 4.
pub fn doubt_lamp(wiring: Wiring, n: usize, table: &[u8]) -> Result<Option<Doubt>, Refusal> {
    check_table(wiring, n, table)?;
    let is_live = |station: usize| table[station * (n + HEAD) + STATUS] == LIVE;
    for (by, line) in table.chunks_exact(n + HEAD).enumerate() {
        if line[STATUS] != LIVE {
            continue;
        }
        for (of, byte) in line[HEAD..].iter().enumerate() {
            if *byte == 1 && is_live(of) {
                let (by, of) = (Station(by), Station(of));
                return Ok(Some(Doubt { by, of }));
            }
        }
    }
    Ok(None)
}
