//! Examples of docs/RULES.md. Its worked runs and files are read from the page itself.

use crate::plant::{Plant, CUBE, RING};
use simulator::{
    board_exchanged, board_next, board_replied, board_row, convert, converted_length, load,
    one_dead, save, saved_size, slot, wait, Cable, Given, Wait,
};

const RULES: &str = include_str!("../../../docs/RULES.md");

/// The lines of the page behind the only line that begins like this.
fn behind(begin: &str) -> impl Iterator<Item = &'static str> + '_ {
    let lines = RULES.lines();
    let count = lines.clone().filter(|line| line.starts_with(begin)).count();
    assert_eq!(count, 1, "lines of docs/RULES.md that begin {begin:?}");
    lines
        .skip_while(move |line| !line.starts_with(begin))
        .skip(1)
}

/// The numbers of a text, which has nothing else.
fn numbers(text: &str, radix: u32) -> Vec<u8> {
    let number = |word| u8::from_str_radix(word, radix).unwrap();
    text.split_whitespace().map(number).collect()
}

/// The entries of the table behind this line, and what they write on the run sheet.
fn worked_run(begin: &str) -> (Vec<u8>, Vec<[u8; 4]>) {
    let lines = behind(begin).skip_while(|line| !line.starts_with('|'));
    let rows = lines.take_while(|line| line.starts_with('|')).skip(2);
    let (mut schedule, mut sheet) = (Vec::new(), Vec::new());
    for row in rows {
        let cells: Vec<&str> = row.split('|').collect();
        schedule.extend(numbers(cells[1], 10));
        sheet.push(numbers(cells[2], 10).try_into().unwrap());
    }
    (schedule, sheet)
}

/// The bytes of the files that stand side by side behind this line, each in a column
/// of hexadecimal numbers.
fn files<const COUNT: usize>(begin: &str) -> [Vec<u8>; COUNT] {
    let lines = behind(begin).skip_while(|line| !line.starts_with("    "));
    let mut files = [const { Vec::new() }; COUNT];
    for line in lines.take_while(|line| line.starts_with("    ")) {
        let (left, right) = line.split_at_checked(44).unwrap_or((line, ""));
        for (file, column) in files.iter_mut().zip([left, right]) {
            file.extend(numbers(column, 16));
        }
    }
    files
}

/// What boards with the lines of this plant make of a schedule: the sheet, and their lines.
fn by_boards(plant: &Plant, schedule: &[u8]) -> (Vec<[u8; 4]>, Vec<u8>) {
    let mut cable = Cable::new(plant.wiring, plant.n, &plant.table);
    let entries = schedule.chunks_exact(2);
    let sheet = entries.map(|entry| cable.take([entry[0], entry[1]]));
    let sheet = sheet.collect();
    let mut table = vec![170; plant.table.len()];
    cable.encode(&mut table);
    (sheet, table)
}

#[test]
fn worked_run_on_the_cube() {
    let (schedule, sheet) = worked_run("### A worked run");
    assert_eq!(sheet.len(), 11);
    let mut plant = Plant::fresh(CUBE, 4);
    let of_boards = [8, 22].map(|length| by_boards(&plant, &schedule[..length]));
    assert_eq!(plant.run(&schedule[..8]), (0, 4, sheet[..4].to_vec()));
    // The table printed under The table.
    let lines = RULES.lines().map(str::trim_start);
    let printed = lines.filter(|line| line.starts_with("from byte "));
    let words = printed.map(|line| line.split_whitespace().skip(3));
    let table = words.flat_map(|words| words.map_while(|word| word.parse().ok()));
    let table = table.collect::<Vec<u8>>();
    assert_eq!(plant.table, table);
    assert_eq!(of_boards[0], (sheet[..4].to_vec(), table));
    assert_eq!(plant.run(&schedule[8..]), (0, 7, sheet[4..].to_vec()));
    assert_eq!(plant.tally, (1, 8));
    let other = [0, 1, 0, 0, 255, 0, 0, 1, 0, 0];
    let lines = [other, [2, 1, 0, 0, 0, 1, 0, 0, 0, 0], other, other];
    assert_eq!(plant.table, lines.concat());
    assert_eq!(of_boards[1], (sheet, lines.concat()));
}

#[test]
fn worked_run_on_the_ring() {
    let (schedule, sheet) = worked_run("Four stations, a fresh table, 1 not live");
    assert_eq!(sheet.len(), 7);
    let mut plant = Plant::fresh(RING, 4);
    plant.line_mut(1)[0] = 1;
    let of_boards = by_boards(&plant, &schedule);
    assert_eq!(plant.run(&schedule), (0, 7, sheet.clone()));
    assert_eq!(plant.tally, (1, 4));
    let other = [0, 1, 0, 0, 255, 0, 0, 1, 0, 0];
    let lines = [other, [1, 1, 0, 0, 255, 1, 0, 0, 0, 0], other, other];
    assert_eq!(plant.table, lines.concat());
    assert_eq!(of_boards, (sheet, lines.concat()));
}

#[test]
fn second_entry_by_boards() {
    let [zero, two] = [0, 2].map(|own| {
        let (wiring, n) = (CUBE, 4);
        Given { wiring, n, own }
    });
    let mut line = [0, 2, 0, 1, 255, 0, 0, 1, 0, 0];
    let mut tested = [0, 1, 0, 0, 255, 0, 0, 0, 0, 0];
    let mut row = [170];
    assert_eq!(board_next(zero, &line), (0, 2));
    assert_eq!((board_row(two, &tested, &mut row), row), (0, [0]));
    assert_eq!(board_replied(zero, &mut line, &row), (0, 1));
    assert_eq!((board_row(zero, &line, &mut row), row), (0, [2]));
    assert_eq!(board_exchanged(two, &mut tested, 0, &row), 0);
    assert_eq!(line, [0, 3, 0, 2, 255, 0, 0, 1, 0, 0]);
    assert_eq!(tested, [0, 1, 0, 0, 255, 0, 0, 1, 0, 0]);
}

/// Of eleven boards 3 suspects 0, 2, 8 and 10, and joins a row of which all bits are 1: it takes
/// neither its own nor that of the sender, 9, and no bit behind that of board 10.
#[test]
fn packed_rows() {
    let mut plant = Plant::fresh(RING, 11).with(&[(3, 0), (3, 2), (3, 8), (3, 10)]);
    let (mut packed, wiring) = ([170; 2], RING);
    let given = Given {
        wiring,
        n: 11,
        own: 3,
    };
    assert_eq!(board_row(given, plant.line(3), &mut packed), 0);
    assert_eq!(packed, [5, 5]);
    let line = plant.line_mut(3);
    assert_eq!(board_exchanged(given, line, 9, &[255; 2]), 0);
    assert_eq!(line[6..], [1, 1, 1, 0, 1, 1, 1, 1, 1, 0, 1]);
}

/// Of eight stations, 4 dead: the wait on each wiring, and the slot length of station 5; and
/// what is proved if one dies under a bus master.
#[test]
fn waits_and_slots() {
    for (wiring, waits, bus_master) in [
        (CUBE, [3, 30, 90, 120], (2, 34)),
        (RING, [4, 15, 60, 75], (3, 32)),
    ] {
        let plant = Plant::fresh(wiring, 8).without(&[4]);
        let given = wait(wiring, 8, &plant.table);
        let expected = Wait {
            number: 0,
            rounds: waits[0],
            turns_per_round: waits[1],
            turns_until_known: waits[2],
            turns_from_crash: waits[3],
        };
        assert_eq!(given, expected);
        let given = one_dead(wiring, 8);
        assert_eq!((given.rounds, given.grants), bus_master);
    }
    let plant = Plant::fresh(CUBE, 8).without(&[4]);
    let given = slot(8, &plant.table, 5);
    assert_eq!((given.tests, given.most), (5, 5));
}

#[test]
fn files_of_two_stations() {
    let [lines] = files::<1>("Two fresh stations with a tally of 0 and 0, in hexadecimal");
    let fresh = Plant::fresh(CUBE, 2).table;
    let mut saved = [170; 43];
    assert_eq!(save(2, &fresh, (0, 0), &mut saved), 0);
    assert_eq!(saved[..], lines);
    let mut table = [170; 16];
    let loaded = load(&saved, &mut table);
    assert_eq!(
        (loaded.number, loaded.size, loaded.rounds, loaded.tests),
        (0, 2, 0, 0)
    );
    assert_eq!((&table[..], saved_size(&saved)), (&fresh[..], (0, 2)));

    let [old, new] = files::<2>("Station 1 of two was told to leave");
    let mut converted = [170; 43];
    assert_eq!((old.len(), converted_length(&old)), (35, (0, 43)));
    assert_eq!(
        (convert(&old, &mut converted), &converted[..]),
        (0, &new[..])
    );
}
