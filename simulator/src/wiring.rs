//! The wirings: who tests whom in a pass, and how far a test takes the pass.

use crate::groups::due_from;
use crate::line::Line;
use crate::numbers::{Distance, Size, Station};
use crate::outcome::Outcome;
use crate::refusal::Refusal;

/// How the stations are wired.
#[derive(Clone, Copy, Debug, PartialEq, Eq)]
pub enum Wiring {
    /// Distances are exclusive ors; a pass makes the tests that are due.
    Cube,
    /// Distances go round; a pass makes all tests up to the first exchange.
    Ring,
}

impl Wiring {
    /// The wiring with this number, or refusal 24.
    pub fn new(number: usize) -> Result<Wiring, Refusal> {
        match number {
            1 => Ok(Wiring::Cube),
            2 => Ok(Wiring::Ring),
            _ => Err(Refusal::NoSuchWiring),
        }
    }

    /// Its number.
    pub fn number(self) -> usize {
        match self {
            Wiring::Cube => 1,
            Wiring::Ring => 2,
        }
    }

    /// The next distance of a finished line.
    pub fn end(self, size: Size) -> Distance {
        match self {
            Wiring::Cube => size.end_of_cube(),
            Wiring::Ring => size.end_of_ring(),
        }
    }

    /// The next test of station i, which has this line: the distance and the
    /// station that stands there.
    pub fn next_test(self, size: Size, i: Station, line: &Line) -> Option<(Distance, Station)> {
        match self {
            Wiring::Cube => due_from(size, i, line.row, line.next).next(),
            Wiring::Ring => Some((line.next, size.station_after(i, line.next)?)),
        }
    }

    /// The next distance after a test at distance m with this outcome.
    pub fn next_after(self, size: Size, m: Distance, outcome: Outcome) -> Distance {
        match (self, outcome) {
            (Wiring::Ring, Outcome::Exchanged) => size.end_of_ring(),
            _ => m.following(),
        }
    }
}
