//! The run as one would write it for speed alone: a row is a word, whose bit k says that
//! station k is suspected or that there is none, and nothing is checked. The bytes of the
//! table are read before the entries and written behind them, within the time.

use shared::schedule::{CRASH, TURN};
use shared::table::{CLOSED_SINCE, CRASHED, FINISHED, HEAD, LEFT_ALONE, LEFT_TOLD};
use shared::table::{LIVE, NEXT_DISTANCE, STATUS, TESTS, TOLD_BY};
use vcube::{Answer, Outcome, Tally, Wiring};

/// The most stations. A place is taken modulo this, so that it needs no check.
const MOST: usize = 64;

struct Plant {
    wiring: Wiring,
    n: usize,
    end: usize,
    rows: [u64; MOST],
    heads: [[u8; HEAD]; MOST],
    /// The live stations that have not finished their pass.
    open: u64,
}

/// Run, of entries that are all taken.
pub fn run(
    wiring: Wiring,
    n: usize,
    table: &mut [u8],
    tally: &mut Tally,
    schedule: &[u8],
    sheet: &mut [u8],
) -> Answer {
    let end = if wiring == Wiring::Cube { n.next_power_of_two() } else { n };
    let absent = u64::MAX.checked_shl(n as u32).unwrap_or(0);
    let (rows, heads) = ([absent; MOST], [[0; HEAD]; MOST]);
    let mut plant = Plant { wiring, n, end, rows, heads, open: 0 };
    for (i, line) in table.chunks_exact(n + HEAD).enumerate() {
        plant.heads[i].copy_from_slice(&line[..HEAD]);
        plant.open |= u64::from(line[STATUS] == LIVE && line[FINISHED] == 0) << i;
        for (part, eight) in line[HEAD..].chunks(8).enumerate() {
            let mut bytes = [0; 8];
            bytes[..eight.len()].copy_from_slice(eight);
            let bits = u64::from_le_bytes(bytes).wrapping_mul(0x0102_0408_1020_4080) >> 56;
            plant.rows[i] |= bits << (8 * part);
        }
    }
    let entries = schedule.as_chunks::<2>().0;
    for (&[kind, station], place) in entries.iter().zip(sheet.as_chunks_mut::<4>().0) {
        let i = usize::from(station) % MOST;
        let (tested, outcome) = match kind {
            CRASH => (u8::MAX, plant.leave(i, CRASHED, Outcome::Crash)),
            _ => plant.turn(kind, i),
        };
        tally.tests += u32::from(tested != u8::MAX);
        tally.rounds += u32::from(plant.open == 0 && plant.close_round());
        *place = [station, tested, outcome as u8, plant.heads[i][STATUS]];
    }
    for (i, line) in table.chunks_exact_mut(n + HEAD).enumerate() {
        line[..HEAD].copy_from_slice(&plant.heads[i]);
        for (part, eight) in line[HEAD..].chunks_mut(8).enumerate() {
            let bits = plant.rows[i] >> (8 * part);
            let seven = (bits & 0x7F).wrapping_mul(0x0002_0408_1020_4081);
            let bytes = seven & 0x0101_0101_0101_0101 | (bits >> 7 & 1) << 56;
            eight.copy_from_slice(&bytes.to_le_bytes()[..eight.len()]);
        }
    }
    Answer { refusal: None, taken: entries.len() }
}

impl Plant {
    #[inline(always)]
    fn turn(&mut self, kind: u8, i: usize) -> (u8, Outcome) {
        let m = self.next_test(i);
        if m >= self.end {
            [self.heads[i][NEXT_DISTANCE], self.heads[i][FINISHED]] = [m as u8, 1];
            self.open &= !(1 << i);
            return (u8::MAX, Outcome::PassFinished);
        }
        let around = if i + m < self.n { 0 } else { self.n };
        let j = if self.wiring == Wiring::Cube { i ^ m } else { i + m - around } % MOST;
        self.heads[i][NEXT_DISTANCE] = m as u8 + 1;
        self.heads[i][TESTS] += 1;
        let outcome = if self.heads[j][STATUS] != LIVE || kind != TURN {
            self.rows[i] |= 1 << j;
            Outcome::NoReply
        } else if self.rows[j] >> i & 1 == 1 {
            self.heads[i][TOLD_BY] = j as u8;
            self.leave(i, LEFT_TOLD, Outcome::Told)
        } else if self.rows[i] >> j & 1 == 1 {
            self.heads[j][TOLD_BY] = i as u8;
            self.leave(j, LEFT_TOLD, Outcome::TestedTold)
        } else {
            // Neither suspects the other, nor itself: the union is the row of both.
            let union = self.rows[i] | self.rows[j];
            (self.rows[i], self.rows[j]) = (union, union);
            if self.wiring == Wiring::Ring {
                self.heads[i][NEXT_DISTANCE] = self.n as u8;
            }
            Outcome::Exchanged
        };
        if self.rows[i] | 1 << i == u64::MAX && self.heads[i][STATUS] == LIVE {
            self.leave(i, LEFT_ALONE, outcome);
        }
        (j as u8, outcome)
    }

    #[inline(always)]
    fn leave(&mut self, i: usize, status: u8, outcome: Outcome) -> Outcome {
        self.open &= !(1 << i);
        self.heads[i][STATUS] = status;
        outcome
    }

    /// The distance of the next test of i, or the end. On the cube its digits below the
    /// highest are among those at whose levels i suspects its whole own group.
    #[inline(always)]
    fn next_test(&self, i: usize) -> usize {
        let mut m = usize::from(self.heads[i][NEXT_DISTANCE]);
        if self.wiring == Wiring::Ring {
            return m;
        }
        let whole = (0..6).fold(0, |whole, h| {
            let (width, row) = (1 << h, self.rows[i]);
            let group = row >> ((i ^ width) & (MOST - width)) | u64::MAX << width;
            whole | usize::from(group == u64::MAX) << h
        });
        loop {
            let others = ((1 << m.ilog2()) - 1) & !whole;
            let below = (1 << (usize::BITS - (m & others).leading_zeros())) - 1;
            m = (((m - 1) | below | others) + 1) & !others;
            if m >= self.end || i ^ m < self.n {
                return m;
            }
            m += 1;
        }
    }

    /// Where no station is live no round closes.
    fn close_round(&mut self) -> bool {
        let lines = &mut self.heads[..self.n];
        if lines.iter().all(|head| head[STATUS] != LIVE) {
            return false;
        }
        for (i, head) in lines.iter_mut().enumerate() {
            let is_live = head[STATUS] == LIVE;
            self.open |= u64::from(is_live) << i;
            head[CLOSED_SINCE] = head[CLOSED_SINCE].saturating_add(u8::from(!is_live));
            [head[NEXT_DISTANCE], head[FINISHED], head[TESTS]] = [1, 0, 0];
        }
        true
    }
}
