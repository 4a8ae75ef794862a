//! The boards of a plant on their cable, and the bus master, who sees what goes over it.

use crate::board::{Board, Given, Message};
use crate::outcome::Outcome;
use crate::run::NO_STATION;

// Kinds of entries.
const LATE_TURN: u8 = 2;
const CRASH: u8 = 3;

pub struct Cable(Vec<Board>);

impl Cable {
    /// Boards that begin with the lines of a table. Used only on a valid one.
    pub fn new(wiring: usize, n: usize, table: &[u8]) -> Cable {
        let lines = (0..).zip(table.chunks_exact(table.len() / n));
        let boards = lines.map(|(own, line)| Board::admit(Given { wiring, n, own }, line));
        Cable(boards.collect::<Result<_, _>>().expect("a valid table"))
    }

    /// Writes the lines of the boards.
    pub fn encode(&self, table: &mut [u8]) {
        let lines = table.chunks_exact_mut(table.len() / self.0.len());
        for (board, line) in self.0.iter().zip(lines) {
            board.line().encode(line);
        }
    }

    /// Carries out an entry that a run takes. Gives its line of the sheet.
    pub fn take(&mut self, [kind, i]: [u8; 2]) -> [u8; 4] {
        let own = usize::from(i);
        let (tested, outcome) = match kind {
            CRASH => {
                self.0[own].crash();
                (NO_STATION, Outcome::Crash)
            }
            _ => self.turn(own, kind == LATE_TURN),
        };
        if self.is_round_over() {
            for board in &mut self.0 {
                board.hear(Message::Closed);
            }
        }
        [i, tested, outcome as u8, self.0[own].line().status.number()]
    }

    /// The tested station, and the outcome by what went over the cable.
    fn turn(&mut self, i: usize, late: bool) -> (u8, Outcome) {
        let boards = &mut self.0;
        let Some((tested, test)) = boards[i].begin_turn() else {
            return (NO_STATION, Outcome::PassFinished);
        };
        let j = tested.index();
        let reply = boards[j].hear(test);
        let in_time = reply.is_some() && !late;
        if !in_time {
            boards[i].time_out();
        }
        // One that comes late is heard too.
        let answer = reply.and_then(|reply| boards[i].hear(reply));
        let outcome = match &answer {
            Some(Message::Exchange(..)) => Outcome::Exchanged,
            Some(_) => Outcome::TestedTold,
            None if in_time => Outcome::Told,
            None => Outcome::NoReply,
        };
        if let Some(answer) = answer {
            boards[j].hear(answer);
        }
        (tested.number(), outcome)
    }

    /// Some board is live, and every live one has finished its pass.
    fn is_round_over(&self) -> bool {
        let lines = self.0.iter().map(Board::line);
        let mut live = lines.filter(|line| line.is_live()).peekable();
        live.peek().is_some() && live.all(|line| line.finished)
    }
}
