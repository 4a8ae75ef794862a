//! Makes the calls of a record through the typed layer, and compares what they give
//! with what the simulator gave: number, buffers and figures.
//!
//! Usage: replay-typed FILE
//!
//! FILE may be `-`, which is standard input. tests/harness/shared/src/record.rs says
//! how a record is written; `compare --with` starts this program.
//!
//! Each call on a table is made twice: by the function over slices, and by the method of
//! a [`Plant`] with that table.
//!
//! Calls that the types cannot express go through vcube-sys: those with a wiring number
//! that is no wiring, and with a buffer of words, a schedule of an input, the line of a
//! new board or a buffer for its row of another length.
//!
//! Exit status: 0 all calls give what they must; 2 the record cannot be read; any other
//! if a call gives something else.

use std::collections::BTreeSet;
use std::env;
use std::fs::File;
use std::io::{self, BufReader, Read};
use std::panic;
use std::process::ExitCode;
use std::sync::atomic::{AtomicU64, Ordering};

use shared::header::Function;
use shared::record::Reader;
use vcube::*;

use Argument::{Bytes, Counter, Figure, Members, Number, Results, Size};
use Made::{ByNumbers, ByTypes};

/// The number where there is no station.
const NO_STATION: u8 = 255;

/// An argument: a number, or what a pointer points to.
#[derive(Clone, Debug, PartialEq)]
enum Argument {
    Size(usize),
    Number(u32),
    Bytes(Vec<u8>),
    Results(Vec<u16>),
    /// A `size_t` that a call puts there.
    Figure(usize),
    /// The same of a `uint32_t`.
    Counter(u32),
    /// The members of a struct.
    Members(Vec<u64>),
}

/// Numbers of eight bytes, the low one first.
fn wide(bytes: &[u8]) -> Vec<u64> {
    let (numbers, _) = bytes.as_chunks();
    numbers.iter().copied().map(u64::from_le_bytes).collect()
}

fn size(bytes: &[u8]) -> usize {
    usize::try_from(wide(bytes)[0]).expect("a size_t has 64 bits here")
}

fn narrow(bytes: &[u8]) -> u32 {
    u32::from_le_bytes(bytes.try_into().expect("four bytes"))
}

fn results(bytes: &[u8]) -> Vec<u16> {
    let (results, _) = bytes.as_chunks();
    results.iter().copied().map(u16::from_le_bytes).collect()
}

/// What a call has as its arguments, before or after it.
fn arguments(function: &Function, values: &[Vec<u8>]) -> Vec<Argument> {
    let arguments = function.arguments.iter().zip(values);
    let typed =
        arguments.map(|(argument, bytes)| match argument.form.letter.to_ascii_lowercase() {
            b'n' => Size(size(bytes)),
            b'w' => Number(narrow(bytes)),
            b'b' => Bytes(bytes.clone()),
            b'r' => Results(results(bytes)),
            b's' => Figure(size(bytes)),
            b'i' => Counter(narrow(bytes)),
            _ => Members(wide(bytes)),
        });
    typed.collect()
}

/// 0 or the number of the refusal.
fn number<T>(given: Result<T, Refusal>) -> u8 {
    given.err().map_or(0, Refusal::number)
}

fn wiring(number: usize) -> Option<Wiring> {
    Wiring::from_number(number.try_into().ok()?)
}

fn byte(station: Station) -> u8 {
    station.0.try_into().expect("a station in a buffer")
}

/// The last granted number by its type.
fn last_station(last: usize) -> Option<Station> {
    (last != NO_STATION.into()).then_some(Station(last))
}

/// The number of a station, if there is one.
fn station_number(station: Option<Station>) -> usize {
    station.map_or(NO_STATION.into(), |station| station.0)
}

fn totals(members: &[u64]) -> Totals {
    let [count, sum, squares, least, greatest] = *members else {
        panic!("totals have five members, not {}", members.len());
    };
    Totals { count, sum, squares, least, greatest }
}

/// Puts totals there, zeros where the call was refused; gives the number.
fn put_totals(place: &mut Vec<u64>, given: Result<Totals, Refusal>) -> u8 {
    let members = |one: Totals| [one.count, one.sum, one.squares, one.least, one.greatest];
    *place = given.map_or([0; 5], members).to_vec();
    number(given)
}

/// The same of figures.
fn put_figures(place: &mut Vec<u64>, given: Result<Figures, Refusal>) -> u8 {
    let fraction = |one: Fraction| [one.upper, one.lower];
    let members = |one: Figures| {
        let range = [one.count, one.least, one.greatest];
        [&range[..], &fraction(one.mean), &fraction(one.variance)].concat()
    };
    *place = given.map_or(vec![0; 7], members);
    number(given)
}

/// Puts words and zeros there; gives 0.
fn put_words(place: &mut [u8], words: &str) -> u8 {
    place.fill(0);
    place[..words.len()].copy_from_slice(words.as_bytes());
    0
}

/// The schedule by typed entries, if all of it is entries of known kinds; else the
/// bytes as they are.
fn typed_schedule(bytes: &[u8]) -> Vec<u8> {
    let (pairs, rest) = bytes.as_chunks();
    let entries = pairs.iter().map(|[kind, station]| {
        Some(Entry { kind: Kind::from_number(*kind)?, station: Station(usize::from(*station)) })
    });
    match entries.collect::<Option<Vec<Entry>>>() {
        Some(entries) if rest.is_empty() => schedule(&entries),
        _ => bytes.to_vec(),
    }
}

/// The statuses of all stations, as a valid table has them.
fn statuses(n: usize, table: &[u8]) -> Vec<u8> {
    table.chunks(n + HEAD).map(|line| line[0]).collect()
}

/// What the lines of a sheet say: read, they are the bytes that were written; and who
/// follows them has every status.
fn check_sheet(n: usize, before: &[u8], table: &[u8], sheet: &[u8], taken: usize) {
    let lines: Vec<SheetLine> = sheet_lines(sheet, taken).collect();
    let bytes = lines.iter().flat_map(|line| {
        let tested = line.tested.map_or(NO_STATION, byte);
        let (outcome, status) = (line.outcome.number(), line.status.number());
        [byte(line.station), tested, outcome, status]
    });
    assert!(bytes.eq(sheet[..4 * taken].iter().copied()));
    if taken > 0 {
        let mut followed = statuses(n, before);
        for (station, status) in lines.into_iter().flat_map(SheetLine::ceased) {
            followed[station.0] = status.number();
        }
        assert_eq!(followed, statuses(n, table));
    }
}

/// The entries of an assignment are the bytes of its list, and those that are due are
/// the distances and the count given; or all have one refusal.
fn check_assignment(
    list: &[u8],
    given: Result<usize, Refusal>,
    entries: Result<Vec<AssignmentEntry>, Refusal>,
    due: Result<Vec<Distance>, Refusal>,
) {
    let refusals = [given.err(), entries.as_ref().err().copied(), due.as_ref().err().copied()];
    assert_eq!(refusals, [given.err(); 3]);
    let (Ok(count), Ok(entries), Ok(due)) = (given, entries, due) else {
        return;
    };
    let bytes = entries.iter().flat_map(|entry| match entry.answer {
        DueOrAhead::Due => [entry.distance.0, DUE],
        DueOrAhead::Ahead(station) => [entry.distance.0, byte(station)],
    });
    assert!(bytes.eq(list.iter().copied()));
    let of_entries = entries.iter().filter(|entry| entry.answer == DueOrAhead::Due);
    assert!(of_entries.map(|entry| entry.distance).eq(due.iter().copied()));
    assert_eq!(due.len(), count);
}

/// Byte 4 of a line.
fn told_by_byte(n: usize, told_by: ToldBy) -> u8 {
    match told_by {
        ToldBy::Nobody => TOLD_BY_NONE,
        ToldBy::NotRecorded => TOLD_NOT_RECORDED,
        ToldBy::Station(other) => {
            assert!(other.0 < n);
            byte(other)
        }
    }
}

/// What a table says of a station: the bytes of its line, which begins that far before
/// its row; or the refusal that the row has.
fn check_head(
    wiring: Wiring,
    n: usize,
    table: &[u8],
    station: Station,
    row: Result<&[u8], Refusal>,
) {
    let of_status = status(wiring, n, table, station).map(Status::number);
    let of_told_by = told_by(wiring, n, table, station).map(|told_by| told_by_byte(n, told_by));
    let of_rounds_ago = rounds_ago(wiring, n, table, station);
    let expected = |column: usize| row.map(|_| table[station.0 * (n + HEAD) + column]);
    assert_eq!([of_status, of_told_by, of_rounds_ago], [0, 4, 5].map(expected));
}

/// A plant with this table. None where the plant refuses it: a call on it is then refused so.
fn plant_with(wiring: Wiring, n: usize, table: &[u8], refusal: Option<Refusal>) -> Option<Plant> {
    let plant = Plant::from_table(wiring, n, table);
    assert!(plant.is_ok() || plant.as_ref().err() == refusal.as_ref());
    plant.ok()
}

/// What a plant with this table says of all its stations: the bytes of their lines; or the
/// refusal that the row of a station has.
fn check_lines(wiring: Wiring, n: usize, table: &[u8], of: Station, row: Result<&[u8], Refusal>) {
    let Some(plant) = plant_with(wiring, n, table, row.err()) else {
        return;
    };
    assert_eq!((plant.row(of), plant.line(of).map(Line::row)), (row, row));
    let lines: Vec<Line> = match plant.lines() {
        Ok(lines) => lines.collect(),
        Err(refusal) => return assert_eq!(row, Err(refusal)),
    };
    assert_eq!(lines.len(), n);
    assert!(plant.statuses().is_ok_and(|all| all.eq(lines.iter().map(|line| line.status()))));
    assert!(plant.told_by().is_ok_and(|all| all.eq(lines.iter().map(|line| line.told_by()))));
    assert!(plant.rounds_ago().is_ok_and(|all| all.eq(lines.iter().map(|line| line.rounds_ago()))));
    for (line, bytes) in lines.iter().zip(table.chunks(n + HEAD)) {
        let told_by = told_by_byte(n, line.told_by());
        let head = [
            line.status().number(),
            line.next_distance(),
            line.has_finished_pass().into(),
            line.tests_made(),
            told_by,
            line.rounds_ago(),
        ];
        assert_eq!((&head[..], line.row()), bytes.split_at(HEAD));
        let suspected = (0..n).map(Station).filter(|other| line.suspects(*other));
        assert!(line.suspected().eq(suspected));
        assert!(plant.board(line.station()).is_ok_and(|board| board.line() == bytes));
    }
}

/// The changes of a mending: each says what its byte was and is, and there is none
/// besides.
fn check_changes(n: usize, before: &[u8], table: &[u8], report: &[u8], count: usize) {
    let mut mended = before.to_vec();
    for Change { line, byte, old, new } in changes(n, report, count) {
        let column = match byte {
            LineByte::Status => 0,
            LineByte::NextDistance => 1,
            LineByte::PassFinished => 2,
            LineByte::TestsMade => 3,
            LineByte::ToldBy => 4,
            LineByte::RoundsAgo => 5,
            LineByte::About(station) => HEAD + station.0,
        };
        let place = &mut mended[line.0 * (n + HEAD) + column];
        assert_eq!(*place, old);
        *place = new;
    }
    assert_eq!(mended, table);
}

/// A call of the board with this line, which the board's is afterwards. None where the
/// wiring is no wiring.
fn on_line<T>(
    wired: usize,
    n: usize,
    own: usize,
    line: &mut [u8],
    call: impl FnOnce(&mut Board) -> Result<T, Refusal>,
) -> Option<Result<T, Refusal>> {
    let board = Board::from_line(wiring(wired)?, n, Station(own), line);
    Some(board.and_then(|mut board| {
        let given = call(&mut board);
        line.copy_from_slice(board.line());
        assert_eq!(line[0], board.status().number());
        given
    }))
}

/// Puts the outcome of a turn there, 0 where it was refused; gives the number.
fn put_outcome(place: &mut usize, given: Result<Outcome, Refusal>) -> u8 {
    *place = given.map_or(0, |outcome| outcome.number().into());
    number(given)
}

/// `by_numbers!(function(argument, [buffer], ..))` makes the call by vcube-sys and returns its
/// number. Of a buffer its pointer goes in, and its length. The other pointers are borrows,
/// which are valid, and the library writes only where it may.
macro_rules! by_numbers {
    ($function:ident($($arguments:tt)*)) => { by_numbers!(@ $function [] $($arguments)*,) };
    (@ $function:ident [$($given:tt)*] $(,)?) => {
        return Some(ByNumbers(unsafe { vcube_sys::$function($($given)*) }))
    };
    (@ $function:ident [$($given:tt)*] [$buffer:ident], $($left:tt)*) => {
        by_numbers!(@ $function [$($given)* $buffer.as_mut_ptr(), $buffer.len(),] $($left)*)
    };
    (@ $function:ident [$($given:tt)*] $argument:expr, $($left:tt)*) => {
        by_numbers!(@ $function [$($given)* $argument,] $($left)*)
    };
}

/// How a call was made, and its number.
enum Made {
    ByTypes(u8),
    ByNumbers(u8),
}

/// Makes a call, through the types if they can express it: what it gives is then put
/// where the library would put it. None where it is a call that is not made here.
fn make(function: &str, lent: &mut [Argument]) -> Option<Made> {
    let number = match (function, lent) {
        ("vcube_fresh_table", [Size(wired), Size(n), Bytes(table)]) => {
            let Some(wiring) = wiring(*wired) else {
                by_numbers!(vcube_fresh_table(*wired, *n, [table]));
            };
            let given = fresh_table(wiring, *n, table);
            let plant = Plant::new(wiring, *n);
            match given {
                Err(Refusal::TableLength) => assert!(plant.is_ok()),
                _ => assert_eq!(
                    plant.map(|plant| plant.table().to_vec()),
                    given.map(|()| table.clone())
                ),
            }
            number(given)
        }
        ("vcube_group_list", [Size(n), Size(station), Size(level), Bytes(list)]) => {
            let (station, level) = (Station(*station), Level(*level));
            let given = group_list(*n, station, level, list);
            let members = group_stations(*n, station, level, &mut list.clone())
                .map(|members| members.map(byte).collect::<Vec<u8>>());
            assert_eq!(members, given.map(|()| list.clone()));
            assert!(given.is_err() || list.len() == group_length(*n, station, level));
            let plant = Plant::new(Wiring::Cube, *n);
            let of_plant = plant
                .and_then(|plant| Ok(plant.group(station, level)?.map(byte).collect::<Vec<u8>>()));
            assert!(of_plant == members || members == Err(Refusal::ListLength));
            number(given)
        }
        (
            "vcube_assignment",
            [Size(n), Bytes(table), Size(station), Bytes(list), Figure(count)],
        ) => {
            let station = Station(*station);
            let given = assignment(*n, table, station, list);
            let mut lent = list.clone();
            let entries = assignment_entries(*n, table, station, &mut lent);
            let entries = entries.map(|entries| entries.collect::<Vec<_>>());
            let due = due_distances(*n, table, station, &mut lent);
            let due = due.map(|due| due.collect::<Vec<_>>());
            if let Some(plant) = plant_with(Wiring::Cube, *n, table, given.err())
                && given != Err(Refusal::ListLength)
            {
                assert_eq!(
                    plant.assignment(station).map(|entries| entries.collect::<Vec<_>>()),
                    entries
                );
                assert_eq!(plant.due_distances(station).map(|due| due.collect::<Vec<_>>()), due);
            }
            check_assignment(list, given, entries, due);
            assert!(given.is_err() || list.len() == assignment_length(*n));
            *count = given.unwrap_or(0);
            number(given)
        }
        ("vcube_slot", [Size(n), Bytes(table), Size(station), Figure(tests), Figure(most)]) => {
            let given = slot(*n, table, Station(*station));
            if let Some(plant) = plant_with(Wiring::Cube, *n, table, given.err()) {
                assert_eq!(plant.slot(Station(*station)), given);
            }
            (*tests, *most) = given.map_or((0, 0), |slot| (slot.tests, slot.most));
            number(given)
        }
        (
            "vcube_row",
            [Size(wired), Size(n), Bytes(table), Size(station), Figure(start), Figure(length)],
        ) => {
            let Some(wiring) = wiring(*wired) else {
                by_numbers!(vcube_row(*wired, *n, [table], *station, start, length));
            };
            let station = Station(*station);
            let given = row(wiring, *n, table, station);
            let offset = |row: &[u8]| row.as_ptr() as usize - table.as_ptr() as usize;
            (*start, *length) = given.map_or((0, 0), |row| (offset(row), row.len()));
            check_head(wiring, *n, table, station, given);
            check_lines(wiring, *n, table, station, given);
            number(given)
        }
        (
            "vcube_run",
            [
                Size(wired),
                Size(n),
                Bytes(table),
                Counter(rounds),
                Counter(tests),
                Bytes(schedule),
                Bytes(sheet),
                Figure(taken),
            ],
        ) => {
            let Some(wiring) = wiring(*wired) else {
                by_numbers!(vcube_run(
                    *wired,
                    *n,
                    [table],
                    rounds,
                    tests,
                    [schedule],
                    [sheet],
                    taken
                ));
            };
            let (before, sheet_before) = (table.clone(), sheet.clone());
            let mut tally = Tally { rounds: *rounds, tests: *tests };
            let handed_in = tally;
            let answer = run(wiring, *n, table, &mut tally, &typed_schedule(schedule), sheet);
            if let Some(mut plant) = plant_with(wiring, *n, &before, answer.refusal) {
                plant.tally = handed_in;
                let (mut other, mut own_sheet) = (plant.clone(), sheet_before);
                assert_eq!(plant.run(schedule, &mut own_sheet), answer);
                assert_eq!((plant.table(), plant.tally, &own_sheet), (&table[..], tally, &*sheet));
                if let (&[kind, station], &mut [a, b, c, d]) = (&schedule[..], &mut sheet[..])
                    && let Some(kind) = Kind::from_number(kind)
                {
                    let line = SheetLine::from_bytes([a, b, c, d]);
                    let station = Station(station.into());
                    let next = other.next(station);
                    let taken = other.enter(Entry { kind, station });
                    if let (Ok(line), true) = (taken, kind != Kind::Crash) {
                        assert_eq!(next, Ok(line.tested));
                    }
                    assert_eq!(taken.map(Some), answer.result().map(|_| line));
                    assert_eq!(other, plant);
                }
            }
            (*rounds, *tests, *taken) = (tally.rounds, tally.tests, answer.taken);
            check_sheet(*n, &before, table, sheet, answer.taken);
            answer.refusal.map_or(0, Refusal::number)
        }
        ("vcube_grant", [Size(wired), Size(n), Bytes(table), Size(last), Figure(station)]) => {
            let Some(wiring) = wiring(*wired) else {
                by_numbers!(vcube_grant(*wired, *n, [table], *last, station));
            };
            let given = grant(wiring, *n, table, last_station(*last));
            assert_eq!(given, grant(wiring, *n, table, Some(Station(*last))));
            if let Some(mut plant) = plant_with(wiring, *n, table, given.err()) {
                plant.last = last_station(*last);
                assert_eq!(plant.grant(), given);
            }
            *station = given.map_or(0, |station| station.0);
            number(given)
        }
        (
            "vcube_drive",
            [
                Size(wired),
                Size(n),
                Bytes(table),
                Counter(rounds),
                Counter(tests),
                Figure(last),
                Figure(grants),
            ],
        ) => {
            let Some(wiring) = wiring(*wired) else {
                by_numbers!(vcube_drive(*wired, *n, [table], rounds, tests, last, grants));
            };
            let mut tally = Tally { rounds: *rounds, tests: *tests };
            let mut station = last_station(*last);
            let mut plant = Plant::from_table(wiring, *n, table);
            if let Ok(plant) = &mut plant {
                (plant.tally, plant.last) = (tally, station);
            }
            let driven = drive(wiring, *n, table, &mut tally, &mut station);
            match plant {
                Ok(mut plant) => {
                    assert_eq!(plant.drive(), driven);
                    assert_eq!(
                        (plant.table(), plant.tally, plant.last),
                        (&table[..], tally, station)
                    );
                }
                Err(refusal) => assert_eq!(driven.result(), Err(refusal)),
            }
            (*rounds, *tests) = (tally.rounds, tally.tests);
            (*last, *grants) = (station_number(station), driven.grants);
            driven.refusal.map_or(0, Refusal::number)
        }
        ("vcube_doubt_lamp", [Size(wired), Size(n), Bytes(table), Figure(by), Figure(of)]) => {
            let Some(wiring) = wiring(*wired) else {
                by_numbers!(vcube_doubt_lamp(*wired, *n, [table], by, of));
            };
            let given = doubt_lamp(wiring, *n, table);
            if let Some(plant) = plant_with(wiring, *n, table, given.err()) {
                assert_eq!(plant.doubt_lamp(), given);
            }
            (*by, *of) = match given {
                Ok(Some(doubt)) => (doubt.by.0, doubt.of.0),
                Ok(None) => (NO_STATION.into(), NO_STATION.into()),
                Err(_) => (0, 0),
            };
            number(given)
        }
        (
            "vcube_wait",
            [
                Size(wired),
                Size(n),
                Bytes(table),
                Figure(rounds),
                Figure(per_round),
                Figure(until_known),
                Figure(from_crash),
            ],
        ) => {
            let places = [rounds, per_round, until_known, from_crash];
            let Some(wiring) = wiring(*wired) else {
                let [rounds, per_round, until_known, from_crash] = places;
                by_numbers!(vcube_wait(
                    *wired,
                    *n,
                    [table],
                    rounds,
                    per_round,
                    until_known,
                    from_crash
                ));
            };
            let given = wait(wiring, *n, table);
            if let Some(plant) = plant_with(wiring, *n, table, given.err()) {
                assert_eq!(plant.wait(), given);
            }
            let figures = given.map_or([0; 4], |wait| {
                [wait.rounds, wait.turns_per_round, wait.turns_until_known, wait.turns_from_crash]
            });
            for (place, figure) in places.into_iter().zip(figures) {
                *place = figure;
            }
            number(given)
        }
        ("vcube_one_dead", [Size(wired), Size(n), Figure(rounds), Figure(grants)]) => {
            let Some(wiring) = wiring(*wired) else {
                by_numbers!(vcube_one_dead(*wired, *n, rounds, grants));
            };
            let given = one_dead(wiring, *n);
            match Plant::new(wiring, *n) {
                Ok(plant) => assert_eq!(Ok(plant.one_dead()), given),
                Err(refusal) => assert_eq!(given, Err(refusal)),
            }
            let known = given.unwrap_or(None);
            (*rounds, *grants) = known.map_or((0, 0), |known| (known.rounds, known.grants));
            number(given)
        }
        ("vcube_mend", [Size(wired), Size(n), Bytes(table), Bytes(report), Figure(count)]) => {
            let Some(wiring) = wiring(*wired) else {
                by_numbers!(vcube_mend(*wired, *n, [table], [report], count));
            };
            let (before, mut own_report) = (table.clone(), report.clone());
            let given = mend(wiring, *n, table, report);
            if let Some(mut plant) = plant_with(wiring, *n, &before, given.err()) {
                let changed =
                    plant.mend(&mut own_report).map(|changed| changed.collect::<Vec<_>>());
                let expected = given.map(|count| changes(*n, report, count).collect::<Vec<_>>());
                assert_eq!((changed, plant.table()), (expected, &table[..]));
                assert_eq!(own_report, *report);
            }
            check_changes(*n, &before, table, report, given.unwrap_or(0));
            *count = given.unwrap_or(0);
            number(given)
        }
        ("vcube_save", [Size(n), Bytes(table), Number(rounds), Number(tests), Bytes(saved)]) => {
            let tally = Tally { rounds: *rounds, tests: *tests };
            let mut own_saved = saved.clone();
            let given = save(*n, table, tally, saved);
            if let Some(mut plant) = plant_with(Wiring::Cube, *n, table, given.err()) {
                plant.tally = tally;
                assert_eq!((plant.save(&mut own_saved), &own_saved), (given, &*saved));
                assert!(given.is_err() || saved.len() == plant.saved_length());
            }
            assert!(given.is_err() || saved.len() == saved_length(*n));
            number(given)
        }
        (
            "vcube_load",
            [Bytes(saved), Bytes(table), Figure(n), Counter(rounds), Counter(tests)],
        ) => {
            let given = load(saved, table);
            let plant = Plant::load(Wiring::Cube, saved);
            if given != Err(Refusal::TableLength) {
                let loaded =
                    plant.as_ref().map(|plant| Loaded { n: plant.size(), tally: plant.tally });
                assert_eq!(loaded.map_err(|refusal| *refusal), given);
                assert!(plant.is_ok_and(|plant| plant.table() == &table[..]) || given.is_err());
            }
            assert!(
                given.is_ok_and(|loaded| table.len() == table_length(loaded.n)) || given.is_err()
            );
            (*n, *rounds, *tests) =
                given.map_or((0, 0, 0), |one| (one.n, one.tally.rounds, one.tally.tests));
            number(given)
        }
        ("vcube_saved_size", [Bytes(saved), Figure(n)]) => {
            let given = saved_size(saved);
            *n = given.unwrap_or(0);
            number(given)
        }
        ("vcube_convert", [Bytes(old), Bytes(saved)]) => number(convert(old, saved)),
        ("vcube_converted_length", [Bytes(old), Figure(length)]) => {
            let given = converted_length(old);
            *length = given.unwrap_or(0);
            number(given)
        }
        ("vcube_figures_of_list", [Results(list), Members(place)]) => {
            put_figures(place, figures(list))
        }
        ("vcube_figures_of_two_lists", [Results(first), Results(second), Members(place)]) => {
            put_figures(place, figures_of_two(first, second))
        }
        ("vcube_totals_of_list", [Results(list), Members(place)]) => {
            put_totals(place, Totals::of(list))
        }
        ("vcube_join_totals", [Members(first), Members(second), Members(place)]) => {
            put_totals(place, totals(first).join(totals(second)))
        }
        ("vcube_figures_of_totals", [Members(handed_in), Members(place)]) => {
            put_figures(place, totals(handed_in).figures())
        }
        ("vcube_refusal_words", [Size(refusal), Bytes(words)]) => {
            if words.len() != WORDS_LENGTH {
                by_numbers!(vcube_refusal_words(*refusal, [words]));
            }
            put_words(words, refusal_words(*refusal).as_str())
        }
        ("vcube_status_words", [Size(status), Bytes(words)]) => {
            if words.len() != WORDS_LENGTH {
                by_numbers!(vcube_status_words(*status, [words]));
            }
            put_words(words, status_words(*status).as_str())
        }
        ("vcube_outcome_words", [Size(outcome), Bytes(words)]) => {
            if words.len() != WORDS_LENGTH {
                by_numbers!(vcube_outcome_words(*outcome, [words]));
            }
            put_words(words, outcome_words(*outcome).as_str())
        }
        (
            "vcube_read_input",
            [Bytes(input), Bytes(schedule), Bytes(words), Figure(n), Figure(entries), Figure(line)],
        ) => {
            let (Ok(typed), WORDS_LENGTH) = (schedule.as_mut_slice().try_into(), words.len())
            else {
                by_numbers!(vcube_read_input([input], [schedule], [words], n, entries, line));
            };
            let given = read_input(input, typed);
            let (read, unread, said) = match &given {
                Ok(read) => (*read, 0, ""),
                Err(unread) => (unread.before, unread.line, unread.words.as_str()),
            };
            (*n, *entries, *line) = (read.n, read.entries, unread);
            put_words(words, said)
        }
        ("vcube_board_fresh", [Size(wired), Size(n), Size(own), Bytes(line)]) => {
            let (Some(wiring), true) = (wiring(*wired), line.len() == line_length(*n)) else {
                by_numbers!(vcube_board_fresh(*wired, *n, *own, [line]));
            };
            let given = Board::new(wiring, *n, Station(*own));
            if let Ok(board) = &given {
                line.copy_from_slice(board.line());
            }
            number(given)
        }
        ("vcube_board_next", [Size(wired), Size(n), Size(own), Bytes(line), Figure(tested)]) => {
            let Some(given) = on_line(*wired, *n, *own, line, |board| board.next()) else {
                by_numbers!(vcube_board_next(*wired, *n, *own, [line], tested));
            };
            *tested = given.map_or(0, station_number);
            number(given)
        }
        ("vcube_board_row", [Size(wired), Size(n), Size(own), Bytes(line), Bytes(packed)]) => {
            let given = on_line(*wired, *n, *own, line, |board| board.row());
            let (Some(given), true) = (given, packed.len() == packed_length(*n)) else {
                by_numbers!(vcube_board_row(*wired, *n, *own, [line], [packed]));
            };
            if let Ok(row) = given {
                packed.copy_from_slice(&row);
            }
            number(given)
        }
        (
            "vcube_board_replied",
            [Size(wired), Size(n), Size(own), Bytes(line), Bytes(packed), Figure(outcome)],
        ) => {
            let given = on_line(*wired, *n, *own, line, |board| board.replied(packed));
            let Some(given) = given else {
                by_numbers!(vcube_board_replied(*wired, *n, *own, [line], [packed], outcome));
            };
            put_outcome(outcome, given)
        }
        (
            "vcube_board_not_replied",
            [Size(wired), Size(n), Size(own), Bytes(line), Figure(outcome)],
        ) => {
            let given = on_line(*wired, *n, *own, line, |board| board.not_replied());
            let Some(given) = given else {
                by_numbers!(vcube_board_not_replied(*wired, *n, *own, [line], outcome));
            };
            put_outcome(outcome, given)
        }
        ("vcube_board_told", [Size(wired), Size(n), Size(own), Bytes(line), Size(by)]) => {
            let told = |board: &mut Board| board.told(Station(*by));
            let Some(given) = on_line(*wired, *n, *own, line, told) else {
                by_numbers!(vcube_board_told(*wired, *n, *own, [line], *by));
            };
            number(given)
        }
        (
            "vcube_board_exchanged",
            [Size(wired), Size(n), Size(own), Bytes(line), Size(from), Bytes(packed)],
        ) => {
            let exchanged = |board: &mut Board| board.exchanged(Station(*from), packed);
            let Some(given) = on_line(*wired, *n, *own, line, exchanged) else {
                by_numbers!(vcube_board_exchanged(*wired, *n, *own, [line], *from, [packed]));
            };
            number(given)
        }
        ("vcube_board_round_closed", [Size(wired), Size(n), Size(own), Bytes(line)]) => {
            let close = |board: &mut Board| {
                board.round_closed();
                Ok(())
            };
            let Some(given) = on_line(*wired, *n, *own, line, close) else {
                by_numbers!(vcube_board_round_closed(*wired, *n, *own, [line]));
            };
            number(given)
        }
        _ => return None,
    };
    Some(ByTypes(number))
}

/// The number of the call that is made, from 1.
static CALL: AtomicU64 = AtomicU64::new(0);

/// Why a replay ends.
#[derive(Debug, PartialEq)]
enum Fault {
    Unreadable(String),
    Differs(String),
}

use Fault::{Differs, Unreadable};

/// Makes all calls of a record; says how many.
fn replay(record: impl Read) -> Result<String, Fault> {
    let mut record = Reader(record);
    let (mut calls, mut by_numbers, mut functions) = (0, 0, BTreeSet::new());
    let unreadable = |error: io::Error| Unreadable(error.to_string());
    while let Some((call, recorded)) = record.next_call().map_err(unreadable)? {
        calls += 1;
        let function = call.function.name;
        let mut lent = arguments(call.function, &call.arguments);
        CALL.store(calls, Ordering::Relaxed);
        let made = make(function, &mut lent);
        let differs = |what| Err(Differs(format!("call {calls}, {function}: {what}")));
        let number = match made {
            Some(ByTypes(number)) => number,
            Some(ByNumbers(number)) => {
                by_numbers += 1;
                number
            }
            None => return Err(Unreadable(format!("{function} is a call that is not made here"))),
        };
        if number != recorded.number {
            return differs(format!("number {number}, and not {}", recorded.number));
        }
        let after = arguments(call.function, &recorded.arguments);
        if let Some(place) = (0..lent.len()).find(|place| lent[*place] != after[*place]) {
            return differs(format!("argument {} is otherwise than recorded", place + 1));
        }
        functions.insert(function);
    }
    if calls == 0 {
        return Err(Unreadable("it has no call".into()));
    }
    let functions = functions.len();
    Ok(format!("{calls} calls of {functions} functions agree, {by_numbers} of them not by types"))
}

fn main() -> ExitCode {
    panic::set_hook(Box::new(|panicked| {
        eprintln!("replay-typed: call {}: {panicked}", CALL.load(Ordering::Relaxed));
    }));
    let said = match env::args().nth(1).as_deref() {
        None => Err(Unreadable("none is named (usage: replay-typed FILE)".into())),
        Some("-") => replay(io::stdin().lock()),
        Some(path) => match File::open(path) {
            Ok(file) => replay(BufReader::new(file)),
            Err(error) => Err(Unreadable(format!("{path}: {error}"))),
        },
    };
    match said {
        Ok(said) => {
            println!("replay-typed: {said}");
            ExitCode::SUCCESS
        }
        Err(Differs(what)) => {
            eprintln!("replay-typed: {what}");
            ExitCode::FAILURE
        }
        Err(Unreadable(why)) => {
            eprintln!("replay-typed: the record cannot be read: {why}");
            ExitCode::from(2)
        }
    }
}
