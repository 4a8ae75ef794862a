//! Sentences of the owner's change requests on turns and rounds, each with a case worked out by hand. Those on files
//! have theirs in tests/programs/convert.py, others in crates/examples.

use crate::plant::{Plant, CUBE, HEAD, RING};
use simulator::check_table;

/// A byte of a station's line.
type Byte = (usize, usize, u8);

fn put(plant: &mut Plant, bytes: &[Byte]) {
    for (station, byte, value) in bytes {
        plant.line_mut(*station)[*byte] = *value;
    }
}

/// A schedule on a fresh table but for some bytes: the lines of the sheet, and the bytes
/// that differ afterwards, but for 1, 0, 0 in bytes 1 to 3 of all lines where the last
/// entry closes the round.
struct Case {
    wiring: usize,
    n: usize,
    before: &'static [Byte],
    schedule: &'static [u8],
    sheet: &'static [[u8; 4]],
    after: &'static [Byte],
    closes: bool,
}

impl Case {
    fn check(&self, number: usize) {
        let mut plant = Plant::fresh(self.wiring, self.n);
        put(&mut plant, self.before);
        let accepted = check_table(self.wiring, self.n, &plant.table);
        assert_eq!(accepted, 0, "case {number}");
        let mut expected = Plant {
            table: plant.table.clone(),
            ..plant
        };
        put(&mut expected, self.after);
        if self.closes {
            for station in 0..self.n {
                expected.line_mut(station)[1..4].copy_from_slice(&[1, 0, 0]);
            }
        }
        let taken = (0, self.sheet.len(), self.sheet.to_vec());
        assert_eq!(plant.run(self.schedule), taken, "case {number}");
        assert_eq!(plant.table, expected.table, "case {number}");
        let tests = self.sheet.iter().filter(|line| line[1] != 255).count();
        let tally = (u32::from(self.closes), tests as u32);
        assert_eq!(plant.tally, tally, "case {number}");
    }
}

const SUSPECTED: usize = HEAD;

#[rustfmt::skip]
const CASES: [Case; 14] = [
    // Sizes between: of three the distances go to 3, and station 0 tests 1 and 2.
    Case { wiring: CUBE, n: 3, before: &[(0, 1, 3), (0, 3, 2)], schedule: &[1, 0], sheet: &[[0, 255, 0, 0]],
        after: &[(0, 1, 4), (0, 2, 1)], closes: false },
    // Who is suspected by the tested leaves, and the tested is given nothing.
    Case { wiring: CUBE, n: 4, before: &[(0, SUSPECTED + 3, 1), (1, SUSPECTED, 1)], schedule: &[1, 0], sheet: &[[0, 1, 2, 2]],
        after: &[(0, 0, 2), (0, 1, 2), (0, 3, 1), (0, 4, 1)], closes: false },
    // So it does where both suspect each other.
    Case { wiring: CUBE, n: 4, before: &[(0, SUSPECTED + 1, 1), (1, SUSPECTED, 1)], schedule: &[1, 0], sheet: &[[0, 1, 2, 2]],
        after: &[(0, 0, 2), (0, 1, 2), (0, 3, 1), (0, 4, 1)], closes: false },
    // Where neither does, both rows become the union.
    Case { wiring: CUBE, n: 4, before: &[(0, SUSPECTED + 2, 1), (1, SUSPECTED + 3, 1)], schedule: &[1, 0], sheet: &[[0, 1, 1, 0]],
        after: &[(0, 1, 2), (0, 3, 1), (0, SUSPECTED + 3, 1), (1, SUSPECTED + 2, 1)], closes: false },
    // A late reply tells neither, and nothing reaches the tested.
    Case { wiring: CUBE, n: 4, before: &[(0, SUSPECTED + 2, 1), (1, SUSPECTED, 1)], schedule: &[2, 0], sheet: &[[0, 1, 3, 0]],
        after: &[(0, 1, 2), (0, 3, 1), (0, SUSPECTED + 1, 1)], closes: false },
    // A round that closes on the very entry counts: a tester that is told, ..
    Case { wiring: CUBE, n: 4, before: &[(0, 1, 2), (2, SUSPECTED, 1), (1, 1, 4), (1, 2, 1), (2, 1, 4), (2, 2, 1), (3, 1, 4), (3, 2, 1)],
        schedule: &[1, 0], sheet: &[[0, 2, 2, 2]], after: &[(0, 0, 2), (0, 4, 2), (0, 5, 1)], closes: true },
    // .. and one that is alone.
    Case { wiring: CUBE, n: 2, before: &[(1, 1, 2), (1, 2, 1)], schedule: &[2, 0], sheet: &[[0, 1, 3, 3]],
        after: &[(0, 0, 3), (0, 5, 1), (0, SUSPECTED + 1, 1)], closes: true },
    // The count stops at 255, and a 254 in byte 4 stays; the dead are tested.
    Case { wiring: CUBE, n: 4, before: &[(0, 1, 3), (0, 3, 1), (1, 0, 1), (1, 5, 254), (2, 0, 2), (2, 4, 254), (2, 5, 255), (3, 0, 3)],
        schedule: &[1, 0], sheet: &[[0, 255, 0, 0]], after: &[(1, 5, 255), (3, 5, 1)], closes: true },
    // With nobody live no round closes.
    Case { wiring: CUBE, n: 2, before: &[(1, 0, 1), (1, 1, 2), (1, 2, 1)], schedule: &[3, 0], sheet: &[[0, 255, 4, 1]],
        after: &[(0, 0, 1)], closes: false },
    // The ring: an exchange sets next distance to n, and the next turn finishes the pass.
    Case { wiring: RING, n: 5, before: &[], schedule: &[1, 3, 1, 3], sheet: &[[3, 4, 1, 0], [3, 255, 0, 0]],
        after: &[(3, 1, 5), (3, 2, 1), (3, 3, 1)], closes: false },
    // Any other test adds 1, and behind n - 1 comes 0.
    Case { wiring: RING, n: 5, before: &[], schedule: &[2, 4, 1, 4], sheet: &[[4, 0, 3, 0], [4, 1, 1, 0]],
        after: &[(4, 1, 5), (4, 3, 2), (4, SUSPECTED, 1), (1, SUSPECTED, 1)], closes: false },
    // So does outcome 5.
    Case { wiring: RING, n: 5, before: &[(3, SUSPECTED + 4, 1)], schedule: &[1, 3], sheet: &[[3, 4, 5, 0]],
        after: &[(3, 1, 2), (3, 3, 1), (4, 0, 2), (4, 4, 3)], closes: false },
    // And outcome 2.
    Case { wiring: RING, n: 5, before: &[(0, SUSPECTED + 4, 1)], schedule: &[1, 4], sheet: &[[4, 0, 2, 2]],
        after: &[(4, 0, 2), (4, 1, 2), (4, 3, 1), (4, 4, 0)], closes: false },
    // Nobody replies: after n - 1 tests the station is alone.
    Case { wiring: RING, n: 3, before: &[(1, 0, 1), (2, 0, 1)], schedule: &[1, 0, 1, 0], sheet: &[[0, 1, 3, 0], [0, 2, 3, 3]],
        after: &[(0, 0, 3), (0, 1, 3), (0, 3, 2), (0, SUSPECTED + 1, 1), (0, SUSPECTED + 2, 1)], closes: false },
];

#[test]
fn entries() {
    for (number, case) in CASES.iter().enumerate() {
        case.check(number);
    }
}
