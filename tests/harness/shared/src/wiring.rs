//! The wirings: at which distance who stands, and how far a pass goes.

use crate::groups;

/// A wiring, and in calls its number.
#[derive(Clone, Copy, Debug, PartialEq, Eq)]
pub enum Wiring {
    Cube = 1,
    Ring = 2,
}

impl Wiring {
    pub const ALL: [Wiring; 2] = [Wiring::Cube, Wiring::Ring];

    pub fn number(self) -> usize {
        self as usize
    }

    pub fn other(self) -> Wiring {
        match self {
            Wiring::Cube => Wiring::Ring,
            Wiring::Ring => Wiring::Cube,
        }
    }

    /// The next distance of a finished line.
    pub fn end(self, n: usize) -> usize {
        match self {
            Wiring::Cube => groups::distances(n),
            Wiring::Ring => n,
        }
    }

    /// The number at a distance below the end; on the cube it can be an absent
    /// one.
    pub fn at(self, n: usize, station: usize, distance: usize) -> usize {
        match self {
            Wiring::Cube => station ^ distance,
            Wiring::Ring => (station + distance) % n,
        }
    }
}
