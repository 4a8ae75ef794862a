//! The whole table, decoded into lines.

use crate::line::{keeps_line_rules, Line};
use crate::numbers::{Size, Station};
use crate::refusal::Refusal;
use crate::wiring::Wiring;

/// The lines of a table, in station order, and how the stations are wired.
#[derive(Clone, Debug, PartialEq, Eq)]
pub struct Plant {
    wiring: Wiring,
    size: Size,
    lines: Vec<Line>,
}

impl Plant {
    pub fn fresh(wiring: Wiring, size: Size) -> Plant {
        let lines = vec![Line::FRESH; size.count()];
        Plant {
            wiring,
            size,
            lines,
        }
    }

    /// The same as `admit`, by refusal 24 of the wiring's number before.
    pub fn admit_on(wiring: usize, n: usize, table: &[u8]) -> Result<Plant, Refusal> {
        Plant::admit(Wiring::new(wiring)?, n, table)
    }

    /// Judges the bytes of a table by refusals 1 to 4 and decodes it.
    pub fn admit(wiring: Wiring, n: usize, table: &[u8]) -> Result<Plant, Refusal> {
        let size = Size::new(n)?;
        check_length(size, table)?;
        Refusal::LineRule.when(!keeps_all_line_rules(wiring, size, table))?;
        let plant = Plant::decode(wiring, size, table);
        Refusal::RoundNotClosed.when(plant.all_live_finished())?;
        Ok(plant)
    }

    /// Used only on bytes that keep the line rules.
    pub fn decode(wiring: Wiring, size: Size, table: &[u8]) -> Plant {
        let parts = table.chunks_exact(size.line_length());
        let lines = parts.map(|part| Line::decode(size, part)).collect();
        Plant {
            wiring,
            size,
            lines,
        }
    }

    pub fn encode(&self, table: &mut [u8]) {
        let parts = table.chunks_exact_mut(self.size.line_length());
        for (line, part) in self.lines.iter().zip(parts) {
            line.encode(part);
        }
    }

    pub fn wiring(&self) -> Wiring {
        self.wiring
    }

    pub fn size(&self) -> Size {
        self.size
    }

    pub fn line(&self, station: Station) -> &Line {
        &self.lines[station.index()]
    }

    pub fn line_mut(&mut self, station: Station) -> &mut Line {
        &mut self.lines[station.index()]
    }

    fn live(&self) -> impl Iterator<Item = &Line> {
        self.lines.iter().filter(|line| line.is_live())
    }

    pub fn none_live(&self) -> bool {
        self.live().next().is_none()
    }

    /// Some station is live and every live one is finished.
    pub fn all_live_finished(&self) -> bool {
        !self.none_live() && self.live().all(|line| line.finished)
    }

    /// Closes the round on every line, live or not.
    pub fn close_round(&mut self) {
        self.lines.iter_mut().for_each(Line::close_round);
    }

    /// Refusal 10.
    pub fn check_live(&self, station: Station) -> Result<(), Refusal> {
        Refusal::NotLive.when(!self.line(station).is_live())
    }
}

/// Refusal 2.
pub fn check_length(size: Size, table: &[u8]) -> Result<(), Refusal> {
    Refusal::TableLength.when(table.len() != size.table_length())
}

fn keeps_all_line_rules(wiring: Wiring, size: Size, table: &[u8]) -> bool {
    let parts = table.chunks_exact(size.line_length());
    let mut lines = size.stations().zip(parts);
    lines.all(|(own, part)| keeps_line_rules(wiring, size, own, part))
}
