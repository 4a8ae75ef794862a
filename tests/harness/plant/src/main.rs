//! The table after each entry of a recording, by the simulator: what the logs of a running plant, and the page, are held against.
//!
//! `plant_tables cube|ring <RECORDING` prints a line for each entry: the four numbers of its line of the run sheet, the
//! rounds closed, the pair of the doubt lamp (255 255 if it is out), rounds, turns and turns from a crash of the wait, the
//! station that is granted next (255 if none is live), and the table in hexadecimal digits. Line 0 is the fresh table.

use simulator::{doubt_lamp, fresh_table, grant, run, wait, HEAD};
use std::io::{self, Write};

const NONE: u8 = 255;
const CRASH: u8 = 3;

struct Plant {
    wiring: usize,
    n: usize,
    table: Vec<u8>,
    tally: (u32, u32),
    last: u8,
}

impl Plant {
    fn fresh(wiring: usize, n: usize) -> Result<Plant, String> {
        let mut table = vec![0; n * (n + HEAD)];
        match fresh_table(wiring, n, &mut table) {
            0 => Ok(Plant { wiring, n, table, tally: (0, 0), last: NONE }),
            refusal => Err(format!("the simulator refuses the size {n}: {refusal}")),
        }
    }

    /// Takes the entry of a line; gives its line of the run sheet.
    fn take(&mut self, line: &str) -> Result<[u8; 4], String> {
        let entry = entry(line).ok_or(format!("cannot be read: {line}"))?;
        let (wiring, n, mut sheet) = (self.wiring, self.n, [0; 4]);
        let answer = run(wiring, n, &mut self.table, self.tally, &entry, &mut sheet);
        if answer.number != 0 {
            return Err(format!("the simulator refuses {line}: {}", answer.number));
        }
        self.tally = (answer.rounds, answer.tests);
        if entry[0] != CRASH {
            self.last = entry[1];
        }
        Ok(sheet)
    }

    fn shown(&self, [station, tested, outcome, status]: [u8; 4]) -> String {
        let (wiring, n, table) = (self.wiring, self.n, &self.table);
        let (by, of) = doubt_lamp(wiring, n, table).1.unwrap_or((NONE, NONE));
        let wait = wait(wiring, n, table);
        let granted = match grant(wiring, n, table, self.last.into()) {
            (0, station) => station,
            _ => NONE,
        };
        let table: String = table.iter().map(|byte| format!("{byte:02x}")).collect();
        format!(
            "{station} {tested} {outcome} {status} {} {by} {of} {} {} {} {granted} {table}\n",
            self.tally.0, wait.rounds, wait.turns_until_known, wait.turns_from_crash
        )
    }
}

/// T, L or C, a space and a station.
fn entry(line: &str) -> Option<[u8; 2]> {
    let (letter, station) = line.split_once(' ')?;
    let kind = 1 + ["T", "L", "C"].iter().position(|one| *one == letter)?;
    Some([kind as u8, station.parse().ok()?])
}

fn main() -> Result<(), String> {
    let wiring = match std::env::args().nth(1).as_deref() {
        Some("cube") => 1,
        Some("ring") => 2,
        _ => return Err("usage: plant_tables cube|ring <RECORDING".into()),
    };
    let failed = |error: io::Error| error.to_string();
    let recording = io::read_to_string(io::stdin()).map_err(failed)?;
    let mut lines = recording.lines();
    let size = lines.next().and_then(|line| line.parse().ok());
    let mut plant = Plant::fresh(wiring, size.ok_or("no size")?)?;
    let mut out = plant.shown([NONE; 4]);
    for line in lines {
        let sheet = plant.take(line)?;
        out += &plant.shown(sheet);
    }
    io::stdout().write_all(out.as_bytes()).map_err(failed)
}
