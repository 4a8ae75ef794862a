//! The doubt lamp: whether some live station suspects another live station.

use crate::numbers::Station;
use crate::plant::Plant;

/// The first pair of a live station and another live one that it suspects, if
/// there is one: refusals 24 and 1 to 4. Gives the number and the pair, which is
/// none where the call is refused.
pub fn doubt_lamp(wiring: usize, n: usize, table: &[u8]) -> (u8, Option<(u8, u8)>) {
    match Plant::admit_on(wiring, n, table) {
        Ok(plant) => (0, all_pairs(&plant).first().copied()),
        Err(refusal) => (refusal.number(), None),
    }
}

/// All pairs: the live stations in rising order, each row in rising order.
fn all_pairs(plant: &Plant) -> Vec<(u8, u8)> {
    let live = |station: &Station| plant.line(*station).is_live();
    let mut pairs = Vec::new();
    for one in plant.size().stations().filter(live) {
        let row = plant.line(one).row;
        for other in plant.size().stations().filter(live) {
            if row.suspects(other) {
                pairs.push((one.number(), other.number()));
            }
        }
    }
    pairs
}
