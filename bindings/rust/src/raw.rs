//! The calls of vcube-sys as safe functions over slices. All `unsafe` of this crate is
//! in this module.
//!
//! Why it is sound:
//!
//! - A slice goes in as its pointer and its length, which [`call`] takes from the
//!   same slice. The pointer is valid for that length and aligned for the items,
//!   and a `&` or `&mut` is valid for its number or struct. The library reads and
//!   writes only there, and takes any number and any length.
//! - What is lent for writing is borrowed exclusively, so nothing of a call
//!   overlaps with what is written, and nobody else uses it meanwhile. What is lent
//!   for reading goes in as a `const` pointer.
//! - The library keeps no pointer after a call and has no state of its own.

use vcube_sys::{vcube_figures, vcube_totals};

/// `call!(safe = function(argument: type, ..) -> type)` defines a safe function that
/// calls one of vcube-sys. A slice among the arguments is a pointer and a length to
/// that. Behind the `@` stand what was made of the arguments so far (for the safe
/// function and for the call), and those that are left.
macro_rules! call {
    ($safe:ident = $function:ident($($left:tt)*) -> $number:ty) => {
        call!(@ $safe $function $number [] [] $($left)*);
    };
    (@ $safe:ident $function:ident $number:ty [$($taken:tt)*] [$($given:tt)*]) => {
        #[allow(clippy::too_many_arguments)]
        pub fn $safe($($taken)*) -> $number {
            unsafe { vcube_sys::$function($($given)*) }
        }
    };
    (@ $safe:ident $function:ident $number:ty [$($taken:tt)*] [$($given:tt)*]
     $argument:ident: &[$item:ty] $(, $($left:tt)*)?) => {
        call!(@ $safe $function $number [$($taken)* $argument: &[$item],]
              [$($given)* $argument.as_ptr(), $argument.len(),] $($($left)*)?);
    };
    (@ $safe:ident $function:ident $number:ty [$($taken:tt)*] [$($given:tt)*]
     $argument:ident: &mut [$item:ty] $(, $($left:tt)*)?) => {
        call!(@ $safe $function $number [$($taken)* $argument: &mut [$item],]
              [$($given)* $argument.as_mut_ptr(), $argument.len(),] $($($left)*)?);
    };
    (@ $safe:ident $function:ident $number:ty [$($taken:tt)*] [$($given:tt)*]
     $argument:ident: $other:ty $(, $($left:tt)*)?) => {
        call!(@ $safe $function $number [$($taken)* $argument: $other,] [$($given)* $argument,] $($($left)*)?);
    };
}

call!(fresh_table = vcube_fresh_table(wiring: usize, n: usize, table: &mut [u8]) -> u8);
call!(group_list = vcube_group_list(n: usize, station: usize, level: usize, list: &mut [u8]) -> u8);
call!(assignment = vcube_assignment(n: usize, table: &[u8], station: usize, list: &mut [u8], count: &mut usize) -> u8);
call!(slot = vcube_slot(n: usize, table: &[u8], station: usize, tests: &mut usize, most: &mut usize) -> u8);
call!(row = vcube_row(wiring: usize, n: usize, table: &[u8], station: usize, start: &mut usize, length: &mut usize) -> u8);
call!(run = vcube_run(wiring: usize, n: usize, table: &mut [u8], rounds: &mut u32, tests: &mut u32,
                      schedule: &[u8], sheet: &mut [u8], taken: &mut usize) -> u8);
call!(grant = vcube_grant(wiring: usize, n: usize, table: &[u8], last: usize, station: &mut usize) -> u8);
call!(drive = vcube_drive(wiring: usize, n: usize, table: &mut [u8], rounds: &mut u32, tests: &mut u32,
                          last: &mut usize, grants: &mut usize) -> u8);
call!(doubt_lamp = vcube_doubt_lamp(wiring: usize, n: usize, table: &[u8], by: &mut usize, of: &mut usize) -> u8);
call!(wait = vcube_wait(wiring: usize, n: usize, table: &[u8], rounds: &mut usize, turns_per_round: &mut usize,
                        turns_until_known: &mut usize, turns_from_crash: &mut usize) -> u8);
call!(one_dead = vcube_one_dead(wiring: usize, n: usize, rounds: &mut usize, grants: &mut usize) -> u8);
call!(mend = vcube_mend(wiring: usize, n: usize, table: &mut [u8], report: &mut [u8], changes: &mut usize) -> u8);
call!(save = vcube_save(n: usize, table: &[u8], rounds: u32, tests: u32, saved: &mut [u8]) -> u8);
call!(load = vcube_load(saved: &[u8], table: &mut [u8], n: &mut usize, rounds: &mut u32, tests: &mut u32) -> u8);
call!(saved_size = vcube_saved_size(saved: &[u8], n: &mut usize) -> u8);
call!(convert = vcube_convert(old: &[u8], saved: &mut [u8]) -> u8);
call!(converted_length = vcube_converted_length(old: &[u8], length: &mut usize) -> u8);
call!(figures_of_list = vcube_figures_of_list(results: &[u16], figures: &mut vcube_figures) -> u8);
call!(figures_of_two_lists = vcube_figures_of_two_lists(first: &[u16], second: &[u16], figures: &mut vcube_figures) -> u8);
call!(totals_of_list = vcube_totals_of_list(results: &[u16], totals: &mut vcube_totals) -> u8);
call!(join_totals = vcube_join_totals(first: &vcube_totals, second: &vcube_totals, joined: &mut vcube_totals) -> u8);
call!(figures_of_totals = vcube_figures_of_totals(totals: &vcube_totals, figures: &mut vcube_figures) -> u8);
call!(refusal_words = vcube_refusal_words(refusal: usize, words: &mut [u8]) -> u8);
call!(status_words = vcube_status_words(status: usize, words: &mut [u8]) -> u8);
call!(outcome_words = vcube_outcome_words(outcome: usize, words: &mut [u8]) -> u8);
#[cfg(feature = "alloc")]
call!(read_input = vcube_read_input(input: &[u8], schedule: &mut [u8], words: &mut [u8],
                                    n: &mut usize, entries: &mut usize, line: &mut usize) -> u8);
call!(board_fresh = vcube_board_fresh(wiring: usize, n: usize, board: usize, line: &mut [u8]) -> u8);
call!(board_next = vcube_board_next(wiring: usize, n: usize, board: usize, line: &[u8], tested: &mut usize) -> u8);
call!(board_row = vcube_board_row(wiring: usize, n: usize, board: usize, line: &[u8], packed: &mut [u8]) -> u8);
call!(board_replied = vcube_board_replied(wiring: usize, n: usize, board: usize, line: &mut [u8], packed: &[u8],
                                          outcome: &mut usize) -> u8);
call!(board_not_replied = vcube_board_not_replied(wiring: usize, n: usize, board: usize, line: &mut [u8],
                                                  outcome: &mut usize) -> u8);
call!(board_told = vcube_board_told(wiring: usize, n: usize, board: usize, line: &mut [u8], by: usize) -> u8);
call!(board_exchanged = vcube_board_exchanged(wiring: usize, n: usize, board: usize, line: &mut [u8], from: usize,
                                              packed: &[u8]) -> u8);
call!(board_round_closed = vcube_board_round_closed(wiring: usize, n: usize, board: usize, line: &mut [u8]) -> u8);
