//! The calls of the vCube watch library, as `include/vcube.h` of the repository declares them, with the same names, arguments and structs, and
//! those constants of the header that are plain numbers. Those that are bytes of a table, a sheet or a file, or errors, are `u8`.
//!
//! That header says what each call does, what has to hold of its pointers, and which numbers it returns. The crate `vcube` has the same calls as
//! safe functions over slices, the numbers of refusals, kinds, statuses and outcomes as enums, and a `Plant` that owns its table: take that, unless
//! you need the pointers.
//!
//! # The archive
//!
//! The archive libvcube.a is linked. It is looked for in the folder named by `VCUBE_LIB_DIR`; if that is not set, in `target/staticlib` of the
//! repository, where `make archive` writes it (for x86-64 Linux), and then where pkg-config says that `make install` put it. Without it
//! `cargo check` and `cargo doc` work; what links fails, and a warning says how to get it.
//!
//! # Safety
//!
//! Numbers and lengths may have any value. Each pointer to a buffer has to be valid for the length that follows it (aligned for `u16` in lists of
//! results), and each other pointer for its number or struct. What a call writes must not overlap with anything else of that call. No pointer is
//! kept.
//!
//! # Example
//!
//! ```
//! use vcube_sys::{VCUBE_HEAD, VCUBE_WIRING_CUBE, vcube_fresh_table};
//!
//! let mut table = [0; 2 * (2 + VCUBE_HEAD)];
//! // The pointer is valid for the length.
//! let number = unsafe { vcube_fresh_table(VCUBE_WIRING_CUBE, 2, table.as_mut_ptr(), table.len()) };
//! assert_eq!(number, vcube_sys::VCUBE_ACCEPTED);
//! assert_eq!(table, [0, 1, 0, 0, 255, 0, 0, 0, 0, 1, 0, 0, 255, 0, 0, 0]);
//! ```

#![no_std]
#![deny(missing_docs)]
#![allow(non_camel_case_types)]

#[cfg(test)]
extern crate std;

#[cfg(test)]
mod tests;

/// The wiring of a plant: the cube.
pub const VCUBE_WIRING_CUBE: usize = 1;

/// The wiring of a plant: the ring.
pub const VCUBE_WIRING_RING: usize = 2;

/// Bytes of a line before its row.
pub const VCUBE_HEAD: usize = 6;

/// What the opening of a saved plant holds.
pub const VCUBE_EDITION: u8 = 2;

/// The length of a change in the report of a mending.
pub const VCUBE_CHANGE_LENGTH: usize = 4;

/// The length of the longest group list.
pub const VCUBE_LONGEST_GROUP: usize = 32;

/// In an assignment: this distance is due.
pub const VCUBE_DUE: u8 = 255;

/// No station: none was tested, granted or doubted, or is to be tested next. In the run sheet it is one byte.
pub const VCUBE_NO_STATION: usize = 255;

/// Byte 4 of a line: no station told this one to leave.
pub const VCUBE_TOLD_BY_NONE: u8 = 255;

/// Byte 4 of a line: the station was told to leave, and by whom was not recorded.
pub const VCUBE_TOLD_NOT_RECORDED: u8 = 254;

/// The most results that figures are taken of.
pub const VCUBE_MOST_RESULTS: usize = 4096;

/// The length of a buffer for words.
pub const VCUBE_WORDS_LENGTH: usize = 128;

/// The length of a schedule into which an input is read.
pub const VCUBE_SCHEDULE_LENGTH: usize = 8192;

/// The tag of a field of a saved plant: the size.
pub const VCUBE_TAG_SIZE: u8 = 1;

/// The tag of a field of a saved plant: the tally.
pub const VCUBE_TAG_TALLY: u8 = 2;

/// The tag of a field of a saved plant: a line.
pub const VCUBE_TAG_LINE: u8 = 3;

/// The tag of a field of a saved plant: the opening.
pub const VCUBE_TAG_OPENING: u8 = 4;

// The numbers of the rules, with the words of the library. `make words` makes them.

/// No error.
pub const VCUBE_ACCEPTED: u8 = 0;

/// Refused: a plant has 2 to 64 boards.
pub const VCUBE_REFUSED_SIZE_OUT_OF_RANGE: u8 = 1;

/// Refused: the table's length is not n(n + 6).
pub const VCUBE_REFUSED_TABLE_LENGTH: u8 = 2;

/// Refused: a line breaks a line rule.
pub const VCUBE_REFUSED_LINE_RULE: u8 = 3;

/// Refused: every live board has finished its pass, but the round is not closed.
pub const VCUBE_REFUSED_ROUND_NOT_CLOSED: u8 = 4;

/// Refused: the schedule has an odd number of bytes.
pub const VCUBE_REFUSED_SCHEDULE_LENGTH: u8 = 5;

/// Refused: the run sheet is not twice as long as the schedule.
pub const VCUBE_REFUSED_SHEET_LENGTH: u8 = 6;

/// Refused: the count of rounds or of tests is at its limit, 4,294,967,295.
pub const VCUBE_REFUSED_TALLY_FULL: u8 = 7;

/// Refused: the kind of the entry is not 1, 2 or 3.
pub const VCUBE_REFUSED_UNKNOWN_KIND: u8 = 8;

/// Refused: no board has this number: boards are numbered from 0 to n - 1.
pub const VCUBE_REFUSED_NO_SUCH_STATION: u8 = 9;

/// Refused: this board is not live.
pub const VCUBE_REFUSED_NOT_LIVE: u8 = 10;

/// Refused: this board has already finished its pass in this round.
pub const VCUBE_REFUSED_PASS_FINISHED: u8 = 11;

/// Refused: there is no such level: levels go from 1 to d.
pub const VCUBE_REFUSED_NO_SUCH_LEVEL: u8 = 12;

/// Refused: the list or buffer for the answer has the wrong length.
pub const VCUBE_REFUSED_LIST_LENGTH: u8 = 13;

/// Refused: there are no results to compute figures from.
pub const VCUBE_REFUSED_NO_RESULT: u8 = 14;

/// Refused: there are more than 4,096 results, or the totals are higher than 4,096 results can give.
pub const VCUBE_REFUSED_TOO_MANY_RESULTS: u8 = 15;

/// Refused: the last granted number is neither a board's number nor 255.
pub const VCUBE_REFUSED_LAST_GRANTED: u8 = 16;

/// Refused: no board is live.
pub const VCUBE_REFUSED_NONE_LIVE: u8 = 17;

/// Refused: the file is cut off: a field or its head goes past the end.
pub const VCUBE_REFUSED_FIELD_PAST_END: u8 = 18;

/// Refused: the field with the size or the tally is missing, appears twice or has the wrong length.
pub const VCUBE_REFUSED_SIZE_OR_TALLY_FIELD: u8 = 19;

/// Refused: a board's line in the file is missing, appears twice, has the wrong length or names no board.
pub const VCUBE_REFUSED_LINE_FIELD: u8 = 20;

/// Refused: the file does not begin as edition 2 does; if it is of edition 1, convert it first.
pub const VCUBE_REFUSED_NO_OPENING: u8 = 21;

/// Refused: a field is out of order or has an unknown tag.
pub const VCUBE_REFUSED_FIELD_ORDER: u8 = 22;

/// Refused: the buffer for the report has fewer than 4n(n + 6) bytes.
pub const VCUBE_REFUSED_REPORT_TOO_SHORT: u8 = 23;

/// Refused: the wiring is neither 1, the cube, nor 2, the ring.
pub const VCUBE_REFUSED_NO_SUCH_WIRING: u8 = 24;

/// Refused: the length of the board's line is not n + 6.
pub const VCUBE_REFUSED_LINE_LENGTH: u8 = 25;

/// Kind of an entry: turn.
pub const VCUBE_KIND_TURN: u8 = 1;

/// Kind of an entry: turn whose reply comes late.
pub const VCUBE_KIND_LATE_TURN: u8 = 2;

/// Kind of an entry: crash.
pub const VCUBE_KIND_CRASH: u8 = 3;

/// Status: live.
pub const VCUBE_STATUS_LIVE: u8 = 0;

/// Status: crashed.
pub const VCUBE_STATUS_CRASHED: u8 = 1;

/// Status: left because told.
pub const VCUBE_STATUS_TOLD: u8 = 2;

/// Status: left because alone.
pub const VCUBE_STATUS_ALONE: u8 = 3;

/// Outcome: pass finished.
pub const VCUBE_OUTCOME_PASS_FINISHED: u8 = 0;

/// Outcome: exchanged.
pub const VCUBE_OUTCOME_EXCHANGED: u8 = 1;

/// Outcome: told, and left.
pub const VCUBE_OUTCOME_TOLD: u8 = 2;

/// Outcome: no reply.
pub const VCUBE_OUTCOME_NO_REPLY: u8 = 3;

/// Outcome: crash.
pub const VCUBE_OUTCOME_CRASH: u8 = 4;

/// Outcome: the tested board was told, and left.
pub const VCUBE_OUTCOME_TESTED_TOLD: u8 = 5;

// That was the last of them.

/// A fraction in lowest terms, its lower part positive. Zero is 0/1.
#[derive(Clone, Copy, Debug, Default, PartialEq, Eq, Hash)]
#[repr(C)]
pub struct vcube_fraction {
    /// The upper part.
    pub upper: u64,
    /// The lower part.
    pub lower: u64,
}

/// Figures of results.
#[derive(Clone, Copy, Debug, Default, PartialEq, Eq, Hash)]
#[repr(C)]
pub struct vcube_figures {
    /// How many results there are.
    pub count: u64,
    /// The least result.
    pub least: u64,
    /// The greatest result.
    pub greatest: u64,
    /// The mean.
    pub mean: vcube_fraction,
    /// The mean of the squared deviations from the mean.
    pub variance: vcube_fraction,
}

/// Totals of results.
#[derive(Clone, Copy, Debug, Default, PartialEq, Eq, Hash)]
#[repr(C)]
pub struct vcube_totals {
    /// How many results there are.
    pub count: u64,
    /// The sum of the results.
    pub sum: u64,
    /// The sum of their squares.
    pub squares: u64,
    /// The least result, 0 where there is none.
    pub least: u64,
    /// The greatest result, 0 where there is none.
    pub greatest: u64,
}

unsafe extern "C" {
    /// Version of the library that is linked, as one number: 10400 is 1.4.0.
    pub safe fn vcube_version() -> u32;
    /// Fresh table.
    pub fn vcube_fresh_table(wiring: usize, n: usize, table: *mut u8, table_length: usize) -> u8;
    /// Group list, on the cube.
    pub fn vcube_group_list(
        n: usize,
        station: usize,
        level: usize,
        list: *mut u8,
        list_length: usize,
    ) -> u8;
    /// Assignment, on the cube: which distances are due for a station, and who is ahead at the others.
    pub fn vcube_assignment(
        n: usize,
        table: *const u8,
        table_length: usize,
        station: usize,
        list: *mut u8,
        list_length: usize,
        count: *mut usize,
    ) -> u8;
    /// Slot, on the cube: how many tests a station makes in a round, and for how many its slot is timed.
    pub fn vcube_slot(
        n: usize,
        table: *const u8,
        table_length: usize,
        station: usize,
        tests: *mut usize,
        most: *mut usize,
    ) -> u8;
    /// Row: where a station's row begins in the table, and its length.
    pub fn vcube_row(
        wiring: usize,
        n: usize,
        table: *const u8,
        table_length: usize,
        station: usize,
        start: *mut usize,
        length: *mut usize,
    ) -> u8;
    /// Run: takes the entries of a schedule.
    pub fn vcube_run(
        wiring: usize,
        n: usize,
        table: *mut u8,
        table_length: usize,
        rounds: *mut u32,
        tests: *mut u32,
        schedule: *const u8,
        schedule_length: usize,
        sheet: *mut u8,
        sheet_length: usize,
        taken: *mut usize,
    ) -> u8;
    /// Grant: the station that is to have the next turn.
    pub fn vcube_grant(
        wiring: usize,
        n: usize,
        table: *const u8,
        table_length: usize,
        last: usize,
        station: *mut usize,
    ) -> u8;
    /// Drive: grants turns and takes them until the round closes.
    pub fn vcube_drive(
        wiring: usize,
        n: usize,
        table: *mut u8,
        table_length: usize,
        rounds: *mut u32,
        tests: *mut u32,
        last: *mut usize,
        grants: *mut usize,
    ) -> u8;
    /// Doubt lamp: a live station that suspects a live one.
    pub fn vcube_doubt_lamp(
        wiring: usize,
        n: usize,
        table: *const u8,
        table_length: usize,
        by: *mut usize,
        of: *mut usize,
    ) -> u8;
    /// Wait: after how many rounds and turns at most the dead are known.
    pub fn vcube_wait(
        wiring: usize,
        n: usize,
        table: *const u8,
        table_length: usize,
        rounds: *mut usize,
        turns_per_round: *mut usize,
        turns_until_known: *mut usize,
        turns_from_crash: *mut usize,
    ) -> u8;
    /// One dead: after how many rounds and grants at most one dead station is known.
    pub fn vcube_one_dead(wiring: usize, n: usize, rounds: *mut usize, grants: *mut usize) -> u8;
    /// Mend: makes a damaged table valid, and lists the bytes that it changed.
    pub fn vcube_mend(
        wiring: usize,
        n: usize,
        table: *mut u8,
        table_length: usize,
        report: *mut u8,
        report_length: usize,
        changes: *mut usize,
    ) -> u8;
    /// Save, on the cube.
    pub fn vcube_save(
        n: usize,
        table: *const u8,
        table_length: usize,
        rounds: u32,
        tests: u32,
        saved: *mut u8,
        saved_length: usize,
    ) -> u8;
    /// Load: reads a saved plant.
    pub fn vcube_load(
        saved: *const u8,
        saved_length: usize,
        table: *mut u8,
        table_length: usize,
        n: *mut usize,
        rounds: *mut u32,
        tests: *mut u32,
    ) -> u8;
    /// Size of a saved plant.
    pub fn vcube_saved_size(saved: *const u8, saved_length: usize, n: *mut usize) -> u8;
    /// Conversion of a file of edition 1 to a saved plant.
    pub fn vcube_convert(
        old: *const u8,
        old_length: usize,
        saved: *mut u8,
        saved_length: usize,
    ) -> u8;
    /// Length of the saved plant that a conversion makes.
    pub fn vcube_converted_length(old: *const u8, old_length: usize, length: *mut usize) -> u8;
    /// Figures of a list.
    pub fn vcube_figures_of_list(
        results: *const u16,
        length: usize,
        figures: *mut vcube_figures,
    ) -> u8;
    /// Figures of the one list that holds both.
    pub fn vcube_figures_of_two_lists(
        first: *const u16,
        first_length: usize,
        second: *const u16,
        second_length: usize,
        figures: *mut vcube_figures,
    ) -> u8;
    /// Totals of a list.
    pub fn vcube_totals_of_list(
        results: *const u16,
        length: usize,
        totals: *mut vcube_totals,
    ) -> u8;
    /// Join: the totals of the results of both.
    pub fn vcube_join_totals(
        first: *const vcube_totals,
        second: *const vcube_totals,
        joined: *mut vcube_totals,
    ) -> u8;
    /// Figures of totals.
    pub fn vcube_figures_of_totals(totals: *const vcube_totals, figures: *mut vcube_figures) -> u8;
    /// Words of a refusal.
    pub fn vcube_refusal_words(refusal: usize, words: *mut u8, words_length: usize) -> u8;
    /// Words of a status.
    pub fn vcube_status_words(status: usize, words: *mut u8, words_length: usize) -> u8;
    /// Words of an outcome.
    pub fn vcube_outcome_words(outcome: usize, words: *mut u8, words_length: usize) -> u8;
    /// Input: reads an input of the run program.
    pub fn vcube_read_input(
        input: *const u8,
        input_length: usize,
        schedule: *mut u8,
        schedule_length: usize,
        words: *mut u8,
        words_length: usize,
        n: *mut usize,
        entries: *mut usize,
        line: *mut usize,
    ) -> u8;
    /// Board, fresh: the board's line becomes one of a fresh table.
    pub fn vcube_board_fresh(
        wiring: usize,
        n: usize,
        board: usize,
        line: *mut u8,
        line_length: usize,
    ) -> u8;
    /// Board, next: the board that the next turn tests.
    pub fn vcube_board_next(
        wiring: usize,
        n: usize,
        board: usize,
        line: *const u8,
        line_length: usize,
        tested: *mut usize,
    ) -> u8;
    /// Board, row: the board's row, packed.
    pub fn vcube_board_row(
        wiring: usize,
        n: usize,
        board: usize,
        line: *const u8,
        line_length: usize,
        packed: *mut u8,
        packed_length: usize,
    ) -> u8;
    /// Board, replied: the turn, with a reply.
    pub fn vcube_board_replied(
        wiring: usize,
        n: usize,
        board: usize,
        line: *mut u8,
        line_length: usize,
        packed: *const u8,
        packed_length: usize,
        outcome: *mut usize,
    ) -> u8;
    /// Board, not replied: the turn without a reply in time.
    pub fn vcube_board_not_replied(
        wiring: usize,
        n: usize,
        board: usize,
        line: *mut u8,
        line_length: usize,
        outcome: *mut usize,
    ) -> u8;
    /// Board, told: the board leaves.
    pub fn vcube_board_told(
        wiring: usize,
        n: usize,
        board: usize,
        line: *mut u8,
        line_length: usize,
        by: usize,
    ) -> u8;
    /// Board, exchanged: joins another board's row into the board's own.
    pub fn vcube_board_exchanged(
        wiring: usize,
        n: usize,
        board: usize,
        line: *mut u8,
        line_length: usize,
        from: usize,
        packed: *const u8,
        packed_length: usize,
    ) -> u8;
    /// Board, round closed: closes the round in the board's line.
    pub fn vcube_board_round_closed(
        wiring: usize,
        n: usize,
        board: usize,
        line: *mut u8,
        line_length: usize,
    ) -> u8;
}
