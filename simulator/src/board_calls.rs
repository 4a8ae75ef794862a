//! The calls of a board over the bytes of its line.

use crate::board::{Board, Given};
use crate::numbers::Station;
use crate::refusal::{number_of, Refusal};
use crate::run::NO_STATION;

/// Board, fresh: refusals 24, 1, 9, 25.
pub fn board_fresh(given: Given, line: &mut [u8]) -> u8 {
    write(Board::fresh(given, line.len()), line)
}

/// Board, next: refusals 24, 1, 9, 25, 3, 10, 11. Gives the number and the tested station.
pub fn board_next(given: Given, line: &[u8]) -> (u8, u8) {
    match admit_turn(given, line) {
        Ok(board) => (0, board.next_tested().map_or(NO_STATION, Station::number)),
        Err(refusal) => (refusal.number(), 0),
    }
}

/// Board, row: refusals 24, 1, 9, 25, 3, 10, 13.
pub fn board_row(given: Given, line: &[u8], packed: &mut [u8]) -> u8 {
    let admitted = admit_live(given, line).and_then(|board| board.check_packed(packed));
    if let Ok(board) = &admitted {
        packed.copy_from_slice(&board.packed_row());
    }
    number_of(&admitted)
}

/// Board, replied: refusals 24, 1, 9, 25, 3, 10, 11, 13. Gives the number and the outcome.
pub fn board_replied(given: Given, line: &mut [u8], packed: &[u8]) -> (u8, u8) {
    let admitted = admit_turn(given, line).and_then(|board| board.check_packed(packed));
    turn(admitted, Some(packed), line)
}

/// Board, not replied: refusals 24, 1, 9, 25, 3, 10, 11. Gives the number and the outcome.
pub fn board_not_replied(given: Given, line: &mut [u8]) -> (u8, u8) {
    turn(admit_turn(given, line), None, line)
}

/// Board, told: refusals 24, 1, 9, 25, 3, 10, 9.
pub fn board_told(given: Given, line: &mut [u8], by: u8) -> u8 {
    let told = admit_live(given, line).and_then(|mut board| {
        let by = board.another(by)?;
        board.leave_told(by);
        Ok(board)
    });
    write(told, line)
}

/// Board, exchanged: refusals 24, 1, 9, 25, 3, 10, 9, 13.
pub fn board_exchanged(given: Given, line: &mut [u8], from: u8, packed: &[u8]) -> u8 {
    let joined = admit_live(given, line).and_then(|board| {
        let from = board.another(from)?;
        let mut board = board.check_packed(packed)?;
        board.join_packed(from, packed);
        Ok(board)
    });
    write(joined, line)
}

/// Board, round closed: refusals 24, 1, 9, 25, 3.
pub fn board_round_closed(given: Given, line: &mut [u8]) -> u8 {
    let closed = Board::admit(given, line).map(|mut board| {
        board.close_round();
        board
    });
    write(closed, line)
}

/// Refusals 24, 1, 9, 25, 3, 10.
fn admit_live(given: Given, line: &[u8]) -> Result<Board, Refusal> {
    let board = Board::admit(given, line)?;
    Refusal::NotLive.when(!board.line().is_live())?;
    Ok(board)
}

/// Refusals 24, 1, 9, 25, 3, 10, 11.
fn admit_turn(given: Given, line: &[u8]) -> Result<Board, Refusal> {
    let board = admit_live(given, line)?;
    Refusal::PassFinished.when(board.line().finished)?;
    Ok(board)
}

fn turn(mut board: Result<Board, Refusal>, reply: Option<&[u8]>, line: &mut [u8]) -> (u8, u8) {
    let outcome = board.as_mut().map_or(0, |board| board.turn(reply) as u8);
    (write(board, line), outcome)
}

/// Writes the line of the board, if there is one. Gives the number.
fn write(board: Result<Board, Refusal>, line: &mut [u8]) -> u8 {
    if let Ok(board) = &board {
        board.line().encode(line);
    }
    number_of(&board)
}
