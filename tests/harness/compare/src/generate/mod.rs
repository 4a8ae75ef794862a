//! Random calls. Each is first made so that it is accepted; then, now and then, one or several of its parts are made wrong.

mod boards;
mod files;
mod lines;
mod long;
mod numbers;
mod plants;
mod results;
mod saves;
mod schedules;
mod tables;
mod texts;
mod totals;

use std::fmt;

use shared::groups;
use shared::random::Random;
use shared::wiring::Wiring;

use shared::call::Call;

/// The size of the plant that a call is made for.
type Size = usize;

/// One in so many calls is that of a board.
const OF_BOARDS: u64 = 6;

/// Where calls come from.
#[derive(Clone, Copy)]
pub struct Source {
    pub seed: u64,
    /// Whether all of them are long ones.
    pub is_long: bool,
}

/// As options of the command.
impl fmt::Display for Source {
    fn fmt(&self, f: &mut fmt::Formatter<'_>) -> fmt::Result {
        let long = if self.is_long { " --long" } else { "" };
        write!(f, "--seed {}{long}", self.seed)
    }
}

impl Source {
    /// The call with this number. Each sixth is one of a board; the others have numbers of their own.
    pub fn call(self, number: u64) -> Call {
        let of_board = !self.is_long && number.is_multiple_of(OF_BOARDS);
        let number = match self.is_long || of_board {
            true => number,
            false => number - number / OF_BOARDS,
        };
        let random = &mut Random::numbered(self.seed, number);
        if of_board {
            return of_one_board(random);
        }
        match self.is_long || random.once_in(400) {
            true => long::call(random),
            false => any(random),
        }
    }

    /// The schedule with this number, for table and boards.
    pub fn schedule(self, number: u64) -> Schedule {
        schedule(&mut Random::numbered(self.seed, number))
    }
}

/// A schedule, and what it begins with.
pub struct Schedule {
    pub wiring: usize,
    pub n: Size,
    pub table: Vec<u8>,
    pub entries: Vec<[u8; 2]>,
}

fn of_one_board(random: &mut Random) -> Call {
    let size = groups::random_size(random);
    boards::call(random.pick(&Wiring::ALL), size, random)
}

/// A schedule on a valid table. A run takes most of its entries.
fn schedule(random: &mut Random) -> Schedule {
    let (wiring, n) = (random.pick(&Wiring::ALL), groups::random_size(random));
    let table = tables::valid(wiring, n, random);
    let bytes = schedules::given(wiring, n, &table, random);
    let entries = bytes.as_chunks().0.to_vec();
    let wiring = wiring.number();
    Schedule { wiring, n, table, entries }
}

fn any(random: &mut Random) -> Call {
    match random.below(38) {
        0..=3 => results::call(random),
        4..=15 => of_file(random),
        16 | 17 => texts::call(random),
        _ => of_plant(random),
    }
}

fn of_file(random: &mut Random) -> Call {
    let size = groups::random_size(random);
    match random.below(16) {
        0 | 1 => saves::save(size, random),
        2..=4 => saves::saved_size(size, random),
        5..=9 => saves::load(size, random),
        10..=13 => saves::convert(size, random),
        _ => saves::converted_length(size, random),
    }
}

fn of_plant(random: &mut Random) -> Call {
    let size = groups::random_size(random);
    let wiring = random.pick(&Wiring::ALL);
    match random.below(55) {
        0 | 1 => plants::fresh_table(wiring, size, random),
        2..=5 => plants::group_list(size, random),
        6 | 7 => plants::assignment(size, random),
        8..=11 => plants::row(wiring, size, random),
        12..=15 => plants::grant(wiring, size, random),
        16..=20 => plants::drive(wiring, size, random),
        21..=24 => plants::doubt_lamp(wiring, size, random),
        25..=28 => plants::mend(wiring, size, random),
        29 | 30 => plants::slot(size, random),
        31..=34 => plants::wait(wiring, size, random),
        35 | 36 => plants::one_dead(wiring, size, random),
        _ => plants::run(wiring, size, random),
    }
}

/// Mostly the cube, for calls that judge a table by its rules alone.
fn mostly_cube(random: &mut Random) -> Wiring {
    match random.once_in(10) {
        true => Wiring::Ring,
        false => Wiring::Cube,
    }
}
