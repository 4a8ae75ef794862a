//! A plant to be handed to the calls, and its entries.

use simulator::{fresh_table, run};

pub const CUBE: usize = 1;
pub const RING: usize = 2;

/// The bytes of a line before its row.
pub const HEAD: usize = 6;

/// A table on a wiring, and its tally of rounds and tests.
pub struct Plant {
    pub wiring: usize,
    pub n: usize,
    pub table: Vec<u8>,
    pub tally: (u32, u32),
}

impl Plant {
    pub fn fresh(wiring: usize, n: usize) -> Plant {
        let mut table = vec![170; n * (n + HEAD)];
        assert_eq!(fresh_table(wiring, n, &mut table), 0);
        Plant {
            wiring,
            n,
            table,
            tally: (0, 0),
        }
    }

    pub fn line(&self, station: usize) -> &[u8] {
        &self.table[station * (self.n + HEAD)..][..self.n + HEAD]
    }

    pub fn line_mut(&mut self, station: usize) -> &mut [u8] {
        &mut self.table[station * (self.n + HEAD)..][..self.n + HEAD]
    }

    /// With these suspicions: who suspects whom.
    pub fn with(mut self, suspicions: &[(usize, usize)]) -> Plant {
        for (by, of) in suspicions {
            self.line_mut(*by)[HEAD + of] = 1;
        }
        self
    }

    /// With these stations crashed, and known to all others.
    pub fn without(mut self, dead: &[usize]) -> Plant {
        for of in dead {
            self.line_mut(*of)[0] = 1;
            for by in (0..self.n).filter(|by| !dead.contains(by)) {
                self.line_mut(by)[HEAD + of] = 1;
            }
        }
        self
    }

    /// Runs a schedule: the number, the entries taken, and the lines of the sheet.
    pub fn run(&mut self, schedule: &[u8]) -> (u8, usize, Vec<[u8; 4]>) {
        let mut sheet = vec![170; 2 * schedule.len()];
        let (n, table, tally) = (self.n, &mut self.table, self.tally);
        let given = run(self.wiring, n, table, tally, schedule, &mut sheet);
        self.tally = (given.rounds, given.tests);
        let lines = sheet.chunks_exact(4).take(given.taken);
        let lines = lines.map(|line| line.try_into().unwrap());
        (given.number, given.taken, lines.collect())
    }
}
