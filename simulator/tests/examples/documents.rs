//! Examples of the owner's scope, as today's lines have them.

use crate::plant::{Plant, CUBE, RING};
use simulator::check_table;
use simulator::program::saved_after_run;

/// Bytes 1 to 3 of the line of a dead station of five, and whether they keep the line
/// rules: next distance runs to 8 on the cube and to 5 on the ring.
#[test]
#[rustfmt::skip]
fn line_rules_of_bytes_1_to_3() {
    let right = [[1, 0, 0], [2, 0, 1], [5, 0, 4]];
    let wrong = [[0, 0, 0], [1, 0, 1], [2, 0, 2], [1, 1, 0], [4, 1, 0], [2, 2, 0], [9, 0, 0], [9, 1, 0], [255, 0, 0]];
    let number = |wiring, pass: &[u8]| {
        let mut plant = Plant::fresh(wiring, 5);
        plant.line_mut(3)[..4].copy_from_slice(&[&[1], pass].concat());
        check_table(wiring, 5, &plant.table)
    };
    for wiring in [CUBE, RING] {
        assert_eq!(right.map(|pass| number(wiring, &pass)), [0; 3]);
        assert_eq!(wrong.map(|pass| number(wiring, &pass)), [3; 9]);
    }
    assert_eq!([[8, 1, 7], [8, 0, 0], [6, 0, 0]].map(|pass| number(CUBE, &pass)), [0; 3]);
    assert_eq!([[8, 1, 7], [8, 0, 0], [6, 0, 0]].map(|pass| number(RING, &pass)), [3; 3]);
    assert_eq!([[5, 1, 4], [5, 1, 0]].map(|pass| [number(CUBE, &pass), number(RING, &pass)]), [[3, 0]; 2]);
}

/// The sample of edition 2 is what the run of the sample's input saves.
#[test]
fn saved_sample() {
    let input = include_bytes!("../../../samples/eight-boards-4-out.txt");
    let saved = include_bytes!("../../../samples/eight-boards-4-out.saved");
    assert_eq!(saved_after_run(input), Some(saved.to_vec()));
    assert_eq!(saved_after_run(b"2\nT 2\n"), None);
}
