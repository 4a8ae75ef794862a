//! The sheet program: from its arguments to the printed text.

use crate::groups::{answers_from, due_from, DueOrAhead};
use crate::line::Row;
use crate::numbers::{Distance, Size, Station};
use crate::one_dead::{self, OneDead};
use crate::reading::{read_size, read_station};
use crate::wait::worst_case;
use crate::wiring::Wiring;

/// The argument that asks for the table over all sizes.
const SIZES: &[u8] = b"--sizes";

/// The heads of the sheet's columns.
const TESTED: &str = "whom it tests, in order";
const FIGURES: &str = "tests a round  most with one more dead";
const NOT_TESTED: &str = "whom it does not test (who stands ahead)";

/// The heads of the columns over all sizes.
const HEADS: &str = "| boards | nobody dead | one dead | rounds | grants | bus master ";

/// What the program prints.
pub struct Response {
    /// All of standard output.
    pub out: String,
    /// All of standard error.
    pub err: String,
}

/// The size and the dead boards, which are the row of every live one.
struct Plant {
    size: Size,
    dead: Row,
}

/// What the sheet says about a live board.
struct Entry {
    tested: String,
    tests: usize,
    most: usize,
    not_tested: String,
}

/// What the program prints for the arguments behind its name.
pub fn respond(arguments: &[&[u8]]) -> Response {
    let (out, err) = match print(arguments) {
        Ok(text) => (text, String::new()),
        Err(wrong) => (String::new(), format!("sheet: {wrong}\n")),
    };
    Response { out, err }
}

/// What is asked for, or what is wrong with the arguments, which are counted from 1. Others
/// that begin with a hyphen are the program's matter.
fn print(arguments: &[&[u8]]) -> Result<String, String> {
    if arguments
        .iter()
        .any(|one| std::str::from_utf8(one).is_err())
    {
        return Err("an argument is not text in UTF-8".into());
    }
    match arguments {
        [] => Err("a size is needed, from 2 to 64".into()),
        [SIZES] => Ok(print_sizes()),
        _ if arguments.contains(&SIZES) => Err("--sizes takes no other argument".into()),
        [first, boards @ ..] => read_plant(first, boards).map(|plant| print_sheet(&plant)),
    }
}

/// The size, and the dead boards from argument 2 on.
fn read_plant(first: &[u8], boards: &[&[u8]]) -> Result<Plant, String> {
    let size = read_size(first).and_then(|n| Size::new(n).ok());
    let size = size.ok_or("argument 1 is not a size from 2 to 64")?;
    let last = size.count() - 1;
    let mut dead = Row::EMPTY;
    for (argument, digits) in (2..).zip(boards) {
        let board = read_station(digits).and_then(|number| size.station(number).ok());
        let no_board = || format!("argument {argument} is not a board from 0 to {last}");
        let board = board.ok_or_else(no_board)?;
        if dead.suspects(board) {
            return Err(format!("argument {argument} repeats a board"));
        }
        dead = dead.with(board);
    }
    let plant = Plant { size, dead };
    match plant.live().count() {
        0 | 1 => Err("at least two boards must be live".into()),
        _ => Ok(plant),
    }
}

impl Plant {
    fn live(&self) -> impl Iterator<Item = Station> + '_ {
        let live = |board: &Station| !self.dead.suspects(*board);
        self.size.stations().filter(live)
    }

    fn entry(&self, board: Station) -> Entry {
        let tested: Vec<String> = tested(self.size, board, self.dead)
            .map(print_board)
            .collect();
        Entry {
            tests: tested.len(),
            tested: tested.join(" "),
            most: most_with_one_more(self.size, board, self.dead),
            not_tested: self.print_not_tested(board),
        }
    }

    /// The boards that this one does not test, each with the one ahead.
    fn print_not_tested(&self, board: Station) -> String {
        let print = |(_, other, answer)| match answer {
            DueOrAhead::Due => None,
            DueOrAhead::Ahead(ahead) => {
                Some(format!("{} ({})", print_board(other), print_board(ahead)))
            }
        };
        let answers = answers_from(self.size, board, self.dead, Distance::FIRST);
        join_or(answers.filter_map(print), ", ", "-")
    }

    fn print_dead(&self) -> String {
        let dead = |board: &Station| self.dead.suspects(*board);
        let boards = self.size.stations().filter(dead);
        join_or(boards.map(print_board), " ", "none")
    }
}

/// The boards that a board with this row tests, in order.
pub(crate) fn tested(size: Size, board: Station, row: Row) -> impl Iterator<Item = Station> {
    due_from(size, board, row, Distance::FIRST).map(|(_, other)| other)
}

/// The rounds until one more dead board is known everywhere, at most: the one
/// in which it dies, and those of the worst case.
fn rounds_until_known(size: Size) -> usize {
    worst_case(Wiring::Cube, size) + 1
}

/// The grants until then, whichever board it is: so many rounds, each with the
/// tests that the live boards make by the row with it, and a turn for each.
fn most_grants(size: Size, row: Row) -> usize {
    let live = |row: Row| size.stations().filter(move |board| !row.suspects(*board));
    let round = |other: Station| -> usize {
        let row = row.with(other);
        live(row)
            .map(|board| tested(size, board, row).count() + 1)
            .sum()
    };
    rounds_until_known(size) * greatest(live(row).map(round))
}

/// The greatest number of tests by the row with one more board, any but the
/// board itself.
pub(crate) fn most_with_one_more(size: Size, board: Station, row: Row) -> usize {
    let others = size.stations().filter(|other| *other != board);
    greatest(others.map(|other| tested(size, board, row.with(other)).count()))
}

fn print_board(board: Station) -> String {
    board.number().to_string()
}

/// The words with the separator between, or the other text if there are none.
fn join_or(words: impl Iterator<Item = String>, separator: &str, other: &str) -> String {
    let words: Vec<String> = words.collect();
    if words.is_empty() {
        String::from(other)
    } else {
        words.join(separator)
    }
}

/// The line on the bus master, where nobody is dead and something is proved.
fn print_bus_master(plant: &Plant) -> String {
    let proved = one_dead::proved(Wiring::Cube, plant.size);
    match proved.filter(|_| plant.dead == Row::EMPTY) {
        None => String::new(),
        Some(OneDead { rounds, grants, .. }) => {
            format!("Under a bus master, one board at a time: after at most {rounds} rounds, {grants} grants\n")
        }
    }
}

/// The first lines, those on who is tested and those on who is not.
fn print_sheet(plant: &Plant) -> String {
    let entries: Vec<Entry> = plant.live().map(|board| plant.entry(board)).collect();
    let lengths = entries.iter().map(|entry| entry.tested.len());
    let width = lengths.fold(TESTED.len(), usize::max);
    let first = format!(
        "{} boards, dead: {}\n",
        plant.size.count(),
        plant.print_dead()
    );
    let known = format!(
        "One more dead board is known everywhere after at most {} rounds, {} grants\n",
        rounds_until_known(plant.size),
        most_grants(plant.size, plant.dead)
    );
    let bus_master = print_bus_master(plant);
    let mut text = first + &known + &bus_master + &format!("\nboard  {TESTED:width$}  {FIGURES}\n");
    for (board, entry) in plant.live().map(print_board).zip(&entries) {
        let (tested, tests, most) = (&entry.tested, entry.tests, entry.most);
        text += &format!("{board:>5}  {tested:width$}  {tests:13}  {most:23}\n");
    }
    text += &format!("\nboard  {NOT_TESTED}\n");
    for (board, entry) in plant.live().map(print_board).zip(&entries) {
        text += &format!("{board:>5}  {}\n", entry.not_tested);
    }
    text
}

/// The table over all sizes: 21 rows of three sizes each.
fn print_sizes() -> String {
    let mut text = HEADS.repeat(3) + "|\n";
    text.push_str(&("|--:|--:|--:|--:|--:|--:".repeat(3) + "|\n"));
    for n in 2..23 {
        let sizes = [n, n + 21, n + 42].map(print_size);
        text.push_str(&(sizes.concat() + "|\n"));
    }
    text
}

/// The columns of one size: the greatest numbers of tests of any board with
/// nobody dead and with one dead, the rounds and grants until that one is known
/// everywhere, and the grants under a bus master.
fn print_size(n: usize) -> String {
    let size = Size::new(n).expect("the table has the sizes 2 to 64");
    let tests = |board| tested(size, board, Row::EMPTY).count();
    let most = |board| most_with_one_more(size, board, Row::EMPTY);
    let nobody_dead = greatest(size.stations().map(tests));
    let one_dead = greatest(size.stations().map(most));
    let rounds = rounds_until_known(size);
    let grants = most_grants(size, Row::EMPTY);
    let bus_master = one_dead::proved(Wiring::Cube, size);
    let bus_master = join_or(bus_master.iter().map(|one| one.grants.to_string()), "", "-");
    format!("| {n} | {nobody_dead} | {one_dead} | {rounds} | {grants} | {bus_master} ")
}

/// The greatest of the numbers, of which there is at least one.
fn greatest(numbers: impl Iterator<Item = usize>) -> usize {
    numbers.max().expect("a plant has at least 2 boards")
}
