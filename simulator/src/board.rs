//! A board by itself: it owns its line, and hears and sends messages. Written from the section of docs/RULES.md on
//! boards on the cable alone.

use crate::line::{keeps_line_rules, Line, Row, Status};
use crate::numbers::{Distance, Size, Station};
use crate::outcome::Outcome;
use crate::refusal::Refusal;
use crate::wiring::Wiring;

/// What goes over the cable. The station is the sender, the bytes are its row, packed.
pub enum Message {
    Test,
    Reply(Station, Vec<u8>),
    Told(Station),
    Exchange(Station, Vec<u8>),
    /// The round is closed.
    Closed,
}

/// What a call is told of plant and board: any numbers.
#[derive(Clone, Copy, Debug)]
pub struct Given {
    pub wiring: usize,
    pub n: usize,
    pub own: u8,
}

pub struct Board {
    wiring: Wiring,
    size: Size,
    own: Station,
    line: Line,
    /// Whose reply it waits for.
    awaited: Option<Station>,
}

impl Board {
    /// Refusals 24, 1, 9, 25.
    pub fn fresh(given: Given, length: usize) -> Result<Board, Refusal> {
        let wiring = Wiring::new(given.wiring)?;
        let size = Size::new(given.n)?;
        let own = size.station(given.own)?;
        Refusal::LineLength.when(length != size.line_length())?;
        let (line, awaited) = (Line::FRESH, None);
        Ok(Board {
            wiring,
            size,
            own,
            line,
            awaited,
        })
    }

    /// Refusals 24, 1, 9, 25, 3.
    pub fn admit(given: Given, line: &[u8]) -> Result<Board, Refusal> {
        let mut board = Board::fresh(given, line.len())?;
        let keeps = keeps_line_rules(board.wiring, board.size, board.own, line);
        Refusal::LineRule.when(!keeps)?;
        board.line = Line::decode(board.size, line);
        Ok(board)
    }

    pub fn line(&self) -> &Line {
        &self.line
    }

    /// The other station with this number, or refusal 9.
    pub fn another(&self, number: u8) -> Result<Station, Refusal> {
        let station = self.size.station(number)?;
        Refusal::NoSuchStation.when(station == self.own)?;
        Ok(station)
    }

    /// The board, or refusal 13 of a packed row.
    pub fn check_packed(self, packed: &[u8]) -> Result<Board, Refusal> {
        Refusal::ListLength.when(packed.len() != self.packed_length())?;
        Ok(self)
    }

    fn packed_length(&self) -> usize {
        self.size.count().div_ceil(8)
    }

    /// Its row, packed: board k has bit k % 8 of byte k / 8.
    pub fn packed_row(&self) -> Vec<u8> {
        let mut packed = vec![0; self.packed_length()];
        let suspected = self.size.stations().filter(|k| self.line.row.suspects(*k));
        for k in suspected.map(Station::index) {
            packed[k / 8] |= 1 << (k % 8);
        }
        packed
    }

    /// The row in a packed one: of all stations but the sender.
    fn heard(&self, from: Station, packed: &[u8]) -> Row {
        let has = |k: &Station| packed[k.index() / 8] >> (k.index() % 8) & 1 == 1;
        let others = self.size.stations().filter(|k| *k != from);
        others.filter(has).fold(Row::EMPTY, Row::with)
    }

    fn next_test(&self) -> Option<(Distance, Station)> {
        self.wiring.next_test(self.size, self.own, &self.line)
    }

    pub fn next_tested(&self) -> Option<Station> {
        self.next_test().map(|(_, j)| j)
    }

    /// Its turn, with the packed row of the tested station, or without a reply.
    pub fn turn(&mut self, reply: Option<&[u8]>) -> Outcome {
        let Some((m, j)) = self.next_test() else {
            self.line.next = self.wiring.end(self.size);
            self.line.finished = true;
            return Outcome::PassFinished;
        };
        let outcome = match reply.map(|packed| self.heard(j, packed)) {
            None => self.suspect(j),
            Some(heard) if heard.suspects(self.own) => self.leave_told(j),
            Some(_) if self.line.row.suspects(j) => Outcome::TestedTold,
            Some(heard) => self.join(heard),
        };
        self.line.next = self.wiring.next_after(self.size, m, outcome);
        self.line.tests += 1;
        let is_alone = self.line.row.suspects_all_others(self.size, self.own);
        if self.line.is_live() && is_alone {
            self.line.status = Status::Alone;
        }
        outcome
    }

    fn suspect(&mut self, j: Station) -> Outcome {
        self.line.row = self.line.row.with(j);
        Outcome::NoReply
    }

    /// It leaves, told by this station.
    pub fn leave_told(&mut self, by: Station) -> Outcome {
        self.line.status = Status::Told(Some(by));
        Outcome::Told
    }

    fn join(&mut self, heard: Row) -> Outcome {
        self.line.row = self.line.row.union_but_own(heard, self.own);
        Outcome::Exchanged
    }

    /// It joins the packed row of this station.
    pub fn join_packed(&mut self, from: Station, packed: &[u8]) {
        self.join(self.heard(from, packed));
    }

    pub fn close_round(&mut self) {
        self.line.close_round();
    }

    /// Begins its turn: sends a test to this station, or finishes its pass.
    pub fn begin_turn(&mut self) -> Option<(Station, Message)> {
        self.awaited = self.next_tested();
        if self.awaited.is_none() {
            self.turn(None);
        }
        self.awaited.map(|j| (j, Message::Test))
    }

    /// No reply came in time.
    pub fn time_out(&mut self) {
        self.awaited = None;
        self.turn(None);
    }

    /// Hears a message. Gives what it sends back.
    pub fn hear(&mut self, message: Message) -> Option<Message> {
        match message {
            Message::Closed => self.close_round(),
            _ if !self.line.is_live() => {}
            Message::Test => return Some(Message::Reply(self.own, self.packed_row())),
            Message::Reply(from, packed) => return self.hear_reply(from, &packed),
            Message::Told(by) => _ = self.leave_told(by),
            Message::Exchange(from, packed) => self.join_packed(from, &packed),
        }
        None
    }

    /// A reply that it does not wait for any more is thrown away.
    fn hear_reply(&mut self, from: Station, packed: &[u8]) -> Option<Message> {
        self.awaited.take_if(|awaited| *awaited == from)?;
        let before = self.packed_row();
        match self.turn(Some(packed)) {
            Outcome::Exchanged => Some(Message::Exchange(self.own, before)),
            Outcome::TestedTold => Some(Message::Told(self.own)),
            _ => None,
        }
    }

    pub fn crash(&mut self) {
        self.line.status = Status::Crashed;
    }
}
