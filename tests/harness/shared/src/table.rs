//! A view of the lines of a lent table. Any bytes can stand there.

use crate::wiring::Wiring;

/// The bytes of a line before its row.
pub const HEAD: usize = 6;

// What each of them holds.
pub const STATUS: usize = 0;
pub const NEXT_DISTANCE: usize = 1;
pub const FINISHED: usize = 2;
pub const TESTS: usize = 3;
/// The station whose row told it to leave.
pub const TOLD_BY: usize = 4;
/// The rounds closed since it ceased to be live.
pub const CLOSED_SINCE: usize = 5;

// Statuses.
pub const LIVE: u8 = 0;
pub const CRASHED: u8 = 1;
pub const LEFT_TOLD: u8 = 2;
pub const LEFT_ALONE: u8 = 3;

/// Byte 4 where no station told it to leave.
pub const TOLD_BY_NONE: u8 = 255;
/// Byte 4 where it was never recorded which station told it to leave.
pub const NOT_RECORDED: u8 = 254;

/// One line of a table.
#[derive(Clone, Copy, Debug)]
pub struct Line<'a>(&'a [u8]);

impl<'a> Line<'a> {
    pub fn status(self) -> u8 {
        self.0[STATUS]
    }

    pub fn is_live(self) -> bool {
        self.status() == LIVE
    }

    pub fn is_finished(self) -> bool {
        self.0[FINISHED] != 0
    }

    pub fn row(self) -> &'a [u8] {
        &self.0[HEAD..]
    }
}

pub fn line_length(n: usize) -> usize {
    n + HEAD
}

pub fn table_length(n: usize) -> usize {
    n * line_length(n)
}

/// The whole lines that the table has.
pub fn lines(n: usize, table: &[u8]) -> impl Iterator<Item = Line<'_>> {
    table.chunks_exact(line_length(n)).map(Line)
}

pub fn live_stations(n: usize, table: &[u8]) -> Vec<usize> {
    stations(n, table, |line| line.is_live())
}

/// The live stations that have not finished their pass.
pub fn unfinished_stations(n: usize, table: &[u8]) -> Vec<usize> {
    stations(n, table, |line| line.is_live() && !line.is_finished())
}

fn stations(n: usize, table: &[u8], holds: impl Fn(Line) -> bool) -> Vec<usize> {
    let numbered = lines(n, table).enumerate();
    let chosen = numbered.filter(|(_, line)| holds(*line));
    chosen.map(|(station, _)| station).collect()
}

/// A fresh table, by the simulator. It is the same on both wirings.
pub fn fresh(n: usize) -> Vec<u8> {
    let mut table = vec![0; table_length(n)];
    simulator::fresh_table(Wiring::Cube.number(), n, &mut table);
    table
}
