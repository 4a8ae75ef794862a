//! The size n, and stations, distances and levels as types of their own.

use crate::line::HEAD;
use crate::refusal::Refusal;

/// The size n, 2 to 64.
#[derive(Clone, Copy, Debug, PartialEq, Eq)]
pub struct Size(u8);

/// The number of a station of the plant, below n.
#[derive(Clone, Copy, Debug, PartialEq, Eq)]
pub struct Station(u8);

/// A distance from one station to another: on the cube the exclusive or of their
/// numbers, on the ring the steps from the one to the other.
/// As a next distance it can also be 2^d, on the ring n.
#[derive(Clone, Copy, Debug, PartialEq, Eq, PartialOrd, Ord)]
pub struct Distance(u8);

/// A level, 1 to d.
#[derive(Clone, Copy, Debug, PartialEq, Eq)]
pub struct Level(u8);

impl Size {
    pub fn new(n: usize) -> Result<Size, Refusal> {
        match n {
            2..=64 => Ok(Size(n as u8)),
            _ => Err(Refusal::SizeOutOfRange),
        }
    }

    pub fn count(self) -> usize {
        usize::from(self.0)
    }

    /// 2^d, the least power of two that is not below n.
    fn distances(self) -> u8 {
        self.0.next_power_of_two()
    }

    /// d, the logarithm of n to base 2, rounded up.
    fn dimension(self) -> u8 {
        self.distances().trailing_zeros() as u8
    }

    pub fn line_length(self) -> usize {
        self.count() + HEAD
    }

    pub fn table_length(self) -> usize {
        self.count() * self.line_length()
    }

    /// The station with this number, or refusal 9.
    pub fn station(self, number: u8) -> Result<Station, Refusal> {
        Refusal::NoSuchStation.when(number >= self.0)?;
        Ok(Station(number))
    }

    /// The level with this number, or refusal 12.
    pub fn level(self, number: u8) -> Result<Level, Refusal> {
        Refusal::NoSuchLevel.when(number == 0 || number > self.dimension())?;
        Ok(Level(number))
    }

    /// All levels, 1 to d.
    pub fn levels(self) -> impl Iterator<Item = Level> {
        (1..=self.dimension()).map(Level)
    }

    /// All stations, 0 to n - 1.
    pub fn stations(self) -> impl Iterator<Item = Station> {
        (0..self.0).map(Station)
    }

    /// The station at this distance from station i on the cube, if one stands
    /// there.
    pub fn station_at(self, i: Station, distance: Distance) -> Option<Station> {
        self.station(i.0 ^ distance.0).ok()
    }

    /// The station so many steps after station i on the ring: station 0 comes
    /// after the last one. There is none at n steps, which lead back to i.
    pub fn station_after(self, i: Station, steps: Distance) -> Option<Station> {
        let reached = Station((i.0 + steps.0) % self.0);
        (steps < self.end_of_ring()).then_some(reached)
    }

    /// The distances of the cube not below the given one, up to 2^d - 1.
    pub fn distances_from(self, next: Distance) -> impl Iterator<Item = Distance> {
        (next.0..self.distances()).map(Distance)
    }

    /// The next distance of a finished line of the cube: 2^d.
    pub fn end_of_cube(self) -> Distance {
        Distance(self.distances())
    }

    /// The next distance of a finished line of the ring: n.
    pub fn end_of_ring(self) -> Distance {
        Distance(self.0)
    }
}

impl Station {
    pub fn number(self) -> u8 {
        self.0
    }

    pub fn index(self) -> usize {
        usize::from(self.0)
    }
}

impl Distance {
    pub const FIRST: Distance = Distance(1);

    /// A next distance as it stands in a line that keeps the line rules.
    pub fn from_byte(byte: u8) -> Distance {
        Distance(byte)
    }

    pub fn number(self) -> u8 {
        self.0
    }

    /// The distance one further.
    pub fn following(self) -> Distance {
        Distance(self.0 + 1)
    }

    /// The level s with 2^(s-1) <= m < 2^s.
    pub fn level(self) -> Level {
        Level(8 - self.0.leading_zeros() as u8)
    }
}

impl Level {
    /// The distances of this level: from 2^(s-1) up to but without 2^s.
    pub fn distances(self) -> impl Iterator<Item = Distance> {
        let first = 1 << (self.0 - 1);
        (first..2 * first).map(Distance)
    }
}
