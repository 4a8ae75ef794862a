//! A board's own half: a board keeps its own line and nothing else.

use core::fmt;
use core::ops::Deref;

use crate::entries::NO_STATION;
use crate::{
    HEAD, MOST_STATIONS, Outcome, Refusal, Station, Status, Wiring, accepted, number_of, raw,
};

/// The length of the longest line.
const LONGEST_LINE: usize = line_length(MOST_STATIONS);

/// The length of the longest packed row.
const LONGEST_PACKED: usize = packed_length(MOST_STATIONS);

/// The length of a board's line in a plant of n.
/// It has no meaning for a size that the library refuses.
///
/// ```
/// assert_eq!(vcube::line_length(8), 14);
/// ```
#[must_use]
pub const fn line_length(n: usize) -> usize {
    n.wrapping_add(HEAD)
}

/// The length of a packed row in a plant of n.
/// It has no meaning for a size that the library refuses.
///
/// ```
/// assert_eq!(vcube::packed_length(8), 1);
/// assert_eq!(vcube::packed_length(64), 8);
/// ```
#[must_use]
pub const fn packed_length(n: usize) -> usize {
    n.div_ceil(8)
}

/// A board's row as it goes over the cable: board k has bit k % 8 of byte k / 8, bit 0
/// the lowest, which is 1 if it is suspected.
#[derive(Clone, Copy, PartialEq, Eq, Hash)]
pub struct PackedRow {
    bytes: [u8; LONGEST_PACKED],
    length: usize,
}

impl Deref for PackedRow {
    type Target = [u8];

    fn deref(&self) -> &[u8] {
        &self.bytes[..self.length]
    }
}

impl AsRef<[u8]> for PackedRow {
    fn as_ref(&self) -> &[u8] {
        self
    }
}

impl fmt::Debug for PackedRow {
    fn fmt(&self, f: &mut fmt::Formatter<'_>) -> fmt::Result {
        fmt::Debug::fmt(&**self, f)
    }
}

/// A board of a plant and its own line, which keeps the line rules: it was made by
/// [`new`](Board::new) or checked by [`from_line`](Board::from_line), and from such a
/// line no call leaves one that the next refuses (Rule Line kept).
///
/// In its turn a board asks for its [`next`](Board::next) test. If there is one, it
/// sends that board a test, and if that board is live, it replies with its
/// [`row`](Board::row) and changes nothing. If the reply comes in time, the board
/// takes it ([`replied`](Board::replied)); if not, or if there was no test, it has
/// [`not_replied`](Board::not_replied). After [`Outcome::TestedTold`] it sends told
/// to the tested board ([`told`](Board::told) there); after [`Outcome::Exchanged`]
/// its row ([`exchanged`](Board::exchanged) there); after any other outcome nothing.
/// A reply that comes later is thrown away. When a round closes, all boards are told
/// so, live or not ([`round_closed`](Board::round_closed)).
///
/// That is for a cable that loses nothing. On one that loses frames a board computes
/// a turn on a clone of itself, which it becomes once the bus master has noted that
/// turn, and the tested board is [`told`](Board::told) or has
/// [`exchanged`](Board::exchanged) only by that note (docs/RULES.md, "Entries in
/// force").
///
/// ```
/// use vcube::{Board, Outcome, Refusal, Station, Wiring};
///
/// let board = |own| Board::new(Wiring::Ring, 4, Station(own));
/// let (mut zero, mut two) = (board(0)?, board(2)?);
///
/// // Board 1 is dead: 0 suspects it.
/// assert_eq!(zero.next()?, Some(Station(1)));
/// assert_eq!(zero.not_replied()?, Outcome::NoReply);
///
/// // 2 replies with its row, 0 sends its own, and 2 suspects 1 too.
/// assert_eq!(zero.next()?, Some(Station(2)));
/// assert_eq!(zero.replied(&two.row()?)?, Outcome::Exchanged);
/// two.exchanged(Station(0), &zero.row()?)?;
/// assert_eq!(two.line(), [0, 1, 0, 0, 255, 0, 0, 1, 0, 0]);
///
/// // On the ring an exchange was the last test of the pass.
/// assert_eq!(zero.next()?, None);
/// assert_eq!(zero.not_replied()?, Outcome::PassFinished);
/// assert_eq!(zero.next(), Err(Refusal::PassFinished));
/// # Ok::<(), Refusal>(())
/// ```
#[derive(Clone, Debug, PartialEq, Eq, Hash)]
pub struct Board {
    wiring: Wiring,
    n: usize,
    own: Station,
    /// Zeros behind the line.
    bytes: [u8; LONGEST_LINE],
}

impl Board {
    /// Board, fresh: board `own` of a plant of n, with a line of a fresh table. Not after a
    /// reset in service: a board that left would be live again.
    ///
    /// # Errors
    ///
    /// [`Refusal::SizeOutOfRange`] or [`Refusal::NoSuchStation`].
    ///
    /// # Example
    ///
    /// ```
    /// use vcube::{Board, Refusal, Station, Wiring};
    ///
    /// let board = Board::new(Wiring::Cube, 3, Station(1))?;
    /// assert_eq!(board.line(), [0, 1, 0, 0, 255, 0, 0, 0, 0]);
    /// let none = Board::new(Wiring::Cube, 3, Station(3));
    /// assert_eq!(none, Err(Refusal::NoSuchStation));
    /// # Ok::<(), Refusal>(())
    /// ```
    pub fn new(wiring: Wiring, n: usize, own: Station) -> Result<Board, Refusal> {
        let mut board = Board { wiring, n, own, bytes: [0; LONGEST_LINE] };
        // A size above 64 is refused before the length.
        let length = line_length(n).min(LONGEST_LINE);
        let line = &mut board.bytes[..length];
        accepted(raw::board_fresh(number_of(wiring), n, own.0, line)).map(|()| board)
    }

    /// The board with this line, which was kept, or is of a table.
    ///
    /// # Errors
    ///
    /// [`Refusal::SizeOutOfRange`], [`Refusal::NoSuchStation`], [`Refusal::LineLength`] or
    /// [`Refusal::LineRule`].
    ///
    /// # Example
    ///
    /// ```
    /// use vcube::{Board, Refusal, Station, Wiring};
    ///
    /// let line = [0, 3, 0, 2, 255, 0, 0, 1, 0, 0];
    /// let board = Board::from_line(Wiring::Cube, 4, Station(0), &line)?;
    /// assert_eq!(board.next()?, Some(Station(3)));
    /// // Board 1 does not suspect itself.
    /// let other = Board::from_line(Wiring::Cube, 4, Station(1), &line);
    /// assert_eq!(other, Err(Refusal::LineRule));
    /// # Ok::<(), Refusal>(())
    /// ```
    pub fn from_line(
        wiring: Wiring,
        n: usize,
        own: Station,
        line: &[u8],
    ) -> Result<Board, Refusal> {
        // A closing checks the line, and is refused for nothing else. No line is as
        // long as one byte more than the longest.
        let mut copy = [0; LONGEST_LINE + 1];
        let length = line.len().min(copy.len());
        copy[..length].copy_from_slice(&line[..length]);
        accepted(raw::board_round_closed(number_of(wiring), n, own.0, &mut copy[..length]))?;
        let mut bytes = [0; LONGEST_LINE];
        bytes[..length].copy_from_slice(line);
        Ok(Board { wiring, n, own, bytes })
    }

    /// The line: six bytes, and the row.
    ///
    /// ```
    /// use vcube::{Board, HEAD, Station, Wiring};
    ///
    /// let mut board = Board::new(Wiring::Cube, 3, Station(0))?;
    /// board.not_replied()?;
    /// assert_eq!(board.line()[HEAD..], [0, 1, 0]);
    /// # Ok::<(), vcube::Refusal>(())
    /// ```
    #[must_use]
    pub fn line(&self) -> &[u8] {
        &self.bytes[..line_length(self.n)]
    }

    /// The status: whether the board is live, and if not, why.
    ///
    /// ```
    /// use vcube::{Board, Station, Status, Wiring};
    ///
    /// let mut board = Board::new(Wiring::Cube, 2, Station(0))?;
    /// assert_eq!(board.status(), Status::Live);
    /// // It suspects all others then.
    /// board.not_replied()?;
    /// assert_eq!(board.status(), Status::Alone);
    /// # Ok::<(), vcube::Refusal>(())
    /// ```
    #[must_use]
    pub fn status(&self) -> Status {
        Status::from_number(self.bytes[0]).expect("the line rules take 0 to 3")
    }

    /// Board, next: the board that the next turn tests; none where the turn finishes
    /// the pass.
    ///
    /// # Errors
    ///
    /// [`Refusal::NotLive`] or [`Refusal::PassFinished`].
    ///
    /// # Example
    ///
    /// ```
    /// use vcube::{Board, Station, Wiring};
    ///
    /// let board = Board::new(Wiring::Cube, 8, Station(5))?;
    /// assert_eq!(board.next()?, Some(Station(4)));
    /// # Ok::<(), vcube::Refusal>(())
    /// ```
    pub fn next(&self) -> Result<Option<Station>, Refusal> {
        let mut tested = 0;
        accepted(raw::board_next(self.wiring(), self.n, self.own.0, self.line(), &mut tested))?;
        Ok((tested != NO_STATION).then_some(Station(tested)))
    }

    /// Board, row: the board's row, packed, as a reply or an exchange. A board that is
    /// not live is refused, and sends no row.
    ///
    /// # Errors
    ///
    /// [`Refusal::NotLive`].
    ///
    /// # Example
    ///
    /// ```
    /// use vcube::{Board, Station, Wiring};
    ///
    /// let mut board = Board::new(Wiring::Cube, 9, Station(1))?;
    /// board.exchanged(Station(0), &[0b1010_0000, 0b1])?;
    /// assert_eq!(board.row()?.as_ref(), [0b1010_0000, 0b1]);
    /// # Ok::<(), vcube::Refusal>(())
    /// ```
    pub fn row(&self) -> Result<PackedRow, Refusal> {
        let mut row = PackedRow { bytes: [0; LONGEST_PACKED], length: packed_length(self.n) };
        let packed = &mut row.bytes[..row.length];
        accepted(raw::board_row(self.wiring(), self.n, self.own.0, self.line(), packed))?;
        Ok(row)
    }

    /// Board, replied: the turn, with the reply of the board that [`Board::next`] gives;
    /// its outcome. Where that gives none, the turn finishes the pass, and of the reply
    /// only the length is looked at. Any bytes of the length [`packed_length`] are a row.
    ///
    /// # Errors
    ///
    /// [`Refusal::NotLive`], [`Refusal::PassFinished`] or [`Refusal::ListLength`].
    ///
    /// # Example
    ///
    /// ```
    /// use vcube::{Board, Outcome, Station, Status, Wiring};
    ///
    /// let mut board = Board::new(Wiring::Cube, 8, Station(5))?;
    /// // Board 4 replies that it suspects 5.
    /// assert_eq!(board.replied(&[0b10_0000])?, Outcome::Told);
    /// assert_eq!(board.status(), Status::Told);
    /// # Ok::<(), vcube::Refusal>(())
    /// ```
    pub fn replied(&mut self, packed: &[u8]) -> Result<Outcome, Refusal> {
        let (wiring, n, own, mut outcome) = (self.wiring(), self.n, self.own.0, 0);
        accepted(raw::board_replied(wiring, n, own, self.line_mut(), packed, &mut outcome))?;
        Ok(outcome_of(outcome))
    }

    /// Board, not replied: the turn without a reply in time. Its outcome is
    /// [`Outcome::NoReply`], or [`Outcome::PassFinished`] where [`Board::next`] gives
    /// none.
    ///
    /// # Errors
    ///
    /// [`Refusal::NotLive`] or [`Refusal::PassFinished`].
    ///
    /// # Example
    ///
    /// ```
    /// use vcube::{Board, Outcome, Station, Wiring};
    ///
    /// let mut board = Board::new(Wiring::Ring, 3, Station(2))?;
    /// assert_eq!(board.not_replied()?, Outcome::NoReply);
    /// assert_eq!(board.next()?, Some(Station(1)));
    /// # Ok::<(), vcube::Refusal>(())
    /// ```
    pub fn not_replied(&mut self) -> Result<Outcome, Refusal> {
        let (wiring, n, own, mut outcome) = (self.wiring(), self.n, self.own.0, 0);
        accepted(raw::board_not_replied(wiring, n, own, self.line_mut(), &mut outcome))?;
        Ok(outcome_of(outcome))
    }

    /// Board, told: the board leaves, told by the board `by`, which tested it.
    ///
    /// # Errors
    ///
    /// [`Refusal::NotLive`] or [`Refusal::NoSuchStation`].
    ///
    /// # Example
    ///
    /// ```
    /// use vcube::{Board, Refusal, Station, Status, Wiring};
    ///
    /// let mut board = Board::new(Wiring::Cube, 8, Station(5))?;
    /// assert_eq!(board.told(Station(5)), Err(Refusal::NoSuchStation));
    /// board.told(Station(4))?;
    /// assert_eq!(board.status(), Status::Told);
    /// assert_eq!(board.row(), Err(Refusal::NotLive));
    /// # Ok::<(), Refusal>(())
    /// ```
    pub fn told(&mut self, by: Station) -> Result<(), Refusal> {
        let (wiring, n, own) = (self.wiring(), self.n, self.own.0);
        accepted(raw::board_told(wiring, n, own, self.line_mut(), by.0))
    }

    /// Board, exchanged: the board joins into its row that of the board `from`, which
    /// tested it. Any bytes of the length [`packed_length`] are a row.
    ///
    /// # Errors
    ///
    /// [`Refusal::NotLive`], [`Refusal::NoSuchStation`] or [`Refusal::ListLength`].
    ///
    /// # Example
    ///
    /// ```
    /// use vcube::{Board, Station, Wiring};
    ///
    /// let mut board = Board::new(Wiring::Cube, 4, Station(1))?;
    /// board.exchanged(Station(0), &[0b1000])?;
    /// assert_eq!(board.line(), [0, 1, 0, 0, 255, 0, 0, 0, 0, 1]);
    /// // What is said of board 1 itself, of the sender and of no board counts for nothing.
    /// board.exchanged(Station(0), &[0b1111_0011])?;
    /// assert_eq!(board.line(), [0, 1, 0, 0, 255, 0, 0, 0, 0, 1]);
    /// # Ok::<(), vcube::Refusal>(())
    /// ```
    pub fn exchanged(&mut self, from: Station, packed: &[u8]) -> Result<(), Refusal> {
        let (wiring, n, own) = (self.wiring(), self.n, self.own.0);
        accepted(raw::board_exchanged(wiring, n, own, self.line_mut(), from.0, packed))
    }

    /// Board, round closed: closes the round in the board's line.
    ///
    /// ```
    /// use vcube::{Board, Station, Wiring};
    ///
    /// let mut board = Board::new(Wiring::Cube, 4, Station(1))?;
    /// board.told(Station(0))?;
    /// board.round_closed();
    /// assert_eq!(board.line(), [2, 1, 0, 0, 0, 1, 0, 0, 0, 0]);
    /// # Ok::<(), vcube::Refusal>(())
    /// ```
    pub fn round_closed(&mut self) {
        let (wiring, n, own) = (self.wiring(), self.n, self.own.0);
        let number = raw::board_round_closed(wiring, n, own, self.line_mut());
        accepted(number).expect("no call leaves a line that is refused");
    }

    fn wiring(&self) -> usize {
        number_of(self.wiring)
    }

    fn line_mut(&mut self) -> &mut [u8] {
        &mut self.bytes[..line_length(self.n)]
    }
}

/// The outcome of a turn that was accepted.
fn outcome_of(number: usize) -> Outcome {
    let outcome = u8::try_from(number).ok().and_then(Outcome::from_number);
    outcome.expect("a turn has an outcome")
}
