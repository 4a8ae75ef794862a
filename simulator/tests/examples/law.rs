//! From a fresh table on no live station suspects all others: who comes to does so by a
//! test without a reply, and leaves at once. No proof and no comparison says so.

use crate::plant::{Plant, CUBE, HEAD, RING};

/// Any entries: mostly turns, and late turns and crashes so often that few stay live.
fn entry(state: &mut u64, n: usize) -> [u8; 2] {
    let mut below = |limit: u64| {
        *state = state
            .wrapping_mul(6_364_136_223_846_793_005)
            .wrapping_add(1);
        (*state >> 33) % limit
    };
    let kind = match below(40) {
        0 => 3,
        1..=8 => 2,
        _ => 1,
    };
    [kind, below(n as u64) as u8]
}

fn suspects_all_others(plant: &Plant, station: usize) -> bool {
    let row = plant.line(station)[HEAD..].iter().enumerate();
    row.filter(|(k, _)| *k != station)
        .all(|(_, byte)| *byte == 1)
}

#[test]
fn nobody_who_suspects_all_others_stays_live() {
    let (mut state, mut alone) = (1, 0);
    for wiring in [CUBE, RING] {
        for n in [2, 3, 4, 5, 6, 8, 11, 16].repeat(40) {
            let mut plant = Plant::fresh(wiring, n);
            for _ in 0..20 * n {
                let entry = entry(&mut state, n);
                plant.run(&entry);
                let all_others = (0..n).filter(|station| suspects_all_others(&plant, *station));
                assert!(all_others
                    .clone()
                    .all(|station| plant.line(station)[0] != 0));
            }
            alone += (0..n)
                .filter(|station| plant.line(*station)[0] == 3)
                .count();
        }
    }
    assert!(alone > 100, "{alone}");
}
