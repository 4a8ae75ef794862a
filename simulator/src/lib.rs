//! A second implementation of the vCube watch, in plain Rust and without the toolchain: the calls of
//! include/vcube.h, and as programs `simulate`, `simulate_sheet`, `simulate_saved` and `simulate_convert`.
//! Nothing of it is proved. People wrote it who did not read the Rattle code, so that the two agree only where both
//! follow the rules. It was written from
//! - the owner's documents and the papers that they name (docs/SOURCES.md): all but what follows;
//! - include/vcube.h: totals, and the arguments and answers of each call;
//! - docs/RULES.md and include/vcube.h: words, the reading of an input, slot, wait, and boards on the cable;
//! - what the library's authors said of the sheet program (arguments, messages and both layouts) and of one dead board.
//!
//! Where the documents can be read in two ways, its authors were given the reading that docs/DECISIONS.md has (the
//! assignment, bytes 4 and 5, the order in which a file's faults are judged, the ring): there agreement shows nothing.

#![forbid(unsafe_code)]

mod board;
mod board_calls;
mod cable;
mod converter;
mod fields;
mod figures;
mod fraction;
mod granter;
mod groups;
mod input;
mod lamp;
mod line;
mod mender;
mod numbers;
mod one_dead;
mod outcome;
mod plant;
pub mod program;
mod questions;
mod reading;
mod refusal;
mod run;
mod saved;
pub mod sheet;
mod slot;
mod totals;
mod unread;
mod wait;
mod wiring;
mod words;

pub use board::Given;
pub use board_calls::{
    board_exchanged, board_fresh, board_next, board_not_replied, board_replied, board_round_closed,
    board_row, board_told,
};
pub use cable::Cable;
pub use converter::{convert, converted_length};
pub use figures::{figures, figures_of_two, Figures};
pub use fraction::Fraction;
pub use granter::{drive, grant, Driven};
pub use input::{read_input, InputRead, MOST_ENTRIES, SCHEDULE_LENGTH};
pub use lamp::doubt_lamp;
pub use line::HEAD;
pub use mender::mend;
pub use one_dead::{one_dead, OneDead};
pub use questions::{assignment, check_table, fresh_table, group_list, row, row_refusal};
pub use run::{run, Answer};
pub use saved::{load, save, saved_size, Loaded};
pub use slot::{slot, Slot};
pub use totals::{figures_of_totals, join_totals, totals, Totals};
pub use wait::{wait, Wait};
pub use wiring::Wiring;
pub use words::{of_refusal, outcome_words, refusal_words, status_words, WORDS_LENGTH};
