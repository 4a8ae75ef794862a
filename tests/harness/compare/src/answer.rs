//! What the simulator gives for a call.
//!
//! include/vcube.h adds what the simulator does not know: numbers of any width, and where figures go. A row is its start in the table and its
//! length. A doubt lamp that has no pair gives 255 for both stations.

use simulator::{Figures, Fraction, Given, Totals};

use shared::call::{members, number, Answer, Call};

pub fn answer(call: &Call) -> Answer {
    let mut arguments = call.arguments.clone();
    let number = make(call.function.name, &mut arguments);
    Answer { number, arguments }
}

/// Makes a call on these arguments. Gives its number.
fn make(name: &str, arguments: &mut [Vec<u8>]) -> u8 {
    match (name, arguments) {
        ("vcube_fresh_table", [wiring, n, table]) => {
            simulator::fresh_table(wide(wiring), wide(n), table)
        }
        ("vcube_group_list", [n, station, level, list]) => {
            simulator::group_list(wide(n), narrow(station), narrow(level), list)
        }
        ("vcube_assignment", [n, table, station, list, count]) => {
            let (number, due) = simulator::assignment(wide(n), table, narrow(station), list);
            put(count, due);
            number
        }
        ("vcube_slot", [n, table, station, tests, most]) => {
            let given = simulator::slot(wide(n), table, narrow(station));
            put(tests, given.tests);
            put(most, given.most);
            given.number
        }
        ("vcube_row", [wiring, n, table, station, start, length]) => {
            let (wiring, n, station) = (wide(wiring), wide(n), narrow(station));
            let row = simulator::row(wiring, n, table, station);
            let from = (row.as_ptr() as usize).wrapping_sub(table.as_ptr() as usize);
            put(start, if row.is_empty() { 0 } else { from });
            put(length, row.len());
            simulator::row_refusal(wiring, n, table, station)
        }
        ("vcube_run", [wiring, n, table, rounds, tests, schedule, sheet, taken]) => {
            let (wiring, n, before) = (wide(wiring), wide(n), tally(rounds, tests));
            let given = simulator::run(wiring, n, table, before, schedule, sheet);
            put_tally(rounds, tests, (given.rounds, given.tests));
            put(taken, given.taken);
            given.number
        }
        ("vcube_grant", [wiring, n, table, last, place]) => {
            let (number, station) = simulator::grant(wide(wiring), wide(n), table, wide(last));
            put(place, station.into());
            number
        }
        ("vcube_drive", [wiring, n, table, rounds, tests, last, grants]) => {
            let (wiring, n, before) = (wide(wiring), wide(n), tally(rounds, tests));
            let given = simulator::drive(wiring, n, table, before, wide(last));
            put_tally(rounds, tests, (given.rounds, given.tests));
            put(last, given.last);
            put(grants, given.grants);
            given.number
        }
        ("vcube_doubt_lamp", [wiring, n, table, by, of]) => {
            let (number, pair) = simulator::doubt_lamp(wide(wiring), wide(n), table);
            let none = if number == 0 { 255 } else { 0 };
            let (one, other) = pair.unwrap_or((none, none));
            put(by, one.into());
            put(of, other.into());
            number
        }
        ("vcube_wait", [wiring, n, table, rounds, turns, known, crash]) => {
            let given = simulator::wait(wide(wiring), wide(n), table);
            put(rounds, given.rounds);
            put(turns, given.turns_per_round);
            put(known, given.turns_until_known);
            put(crash, given.turns_from_crash);
            given.number
        }
        ("vcube_one_dead", [wiring, n, rounds, grants]) => {
            let given = simulator::one_dead(wide(wiring), wide(n));
            put(rounds, given.rounds);
            put(grants, given.grants);
            given.number
        }
        ("vcube_mend", [wiring, n, table, report, changes]) => {
            let (number, count) = simulator::mend(wide(wiring), wide(n), table, report);
            put(changes, count);
            number
        }
        ("vcube_save", [n, table, rounds, tests, saved]) => {
            simulator::save(wide(n), table, tally(rounds, tests), saved)
        }
        ("vcube_load", [saved, table, n, rounds, tests]) => {
            let given = simulator::load(saved, table);
            put(n, given.size);
            put_tally(rounds, tests, (given.rounds, given.tests));
            given.number
        }
        ("vcube_saved_size", [saved, n]) => put_second(n, simulator::saved_size(saved)),
        ("vcube_convert", [old, saved]) => simulator::convert(old, saved),
        ("vcube_converted_length", [old, length]) => {
            put_second(length, simulator::converted_length(old))
        }
        ("vcube_figures_of_list", [list, figures]) => {
            put_figures(figures, &simulator::figures(&results(list)))
        }
        ("vcube_figures_of_two_lists", [first, second, figures]) => {
            let given = simulator::figures_of_two(&results(first), &results(second));
            put_figures(figures, &given)
        }
        ("vcube_totals_of_list", [list, totals]) => {
            put_totals(totals, &simulator::totals(&results(list)))
        }
        ("vcube_join_totals", [first, second, joined]) => {
            let given = simulator::join_totals(&totals(first), &totals(second));
            put_totals(joined, &given)
        }
        ("vcube_figures_of_totals", [given, figures]) => {
            put_figures(figures, &simulator::figures_of_totals(&totals(given)))
        }
        ("vcube_refusal_words", [refusal, words]) => simulator::refusal_words(wide(refusal), words),
        ("vcube_status_words", [status, words]) => simulator::status_words(wide(status), words),
        ("vcube_outcome_words", [outcome, words]) => simulator::outcome_words(wide(outcome), words),
        ("vcube_read_input", [input, schedule, words, n, entries, line]) => {
            let given = simulator::read_input(input, schedule, words);
            put(n, given.n);
            put(entries, given.entries);
            put(line, given.line);
            given.number
        }
        ("vcube_board_fresh", [wiring, n, own, line]) => {
            simulator::board_fresh(given(wiring, n, own), line)
        }
        ("vcube_board_next", [wiring, n, own, line, tested]) => {
            put_byte(tested, simulator::board_next(given(wiring, n, own), line))
        }
        ("vcube_board_row", [wiring, n, own, line, packed]) => {
            simulator::board_row(given(wiring, n, own), line, packed)
        }
        ("vcube_board_replied", [wiring, n, own, line, packed, outcome]) => {
            let given = simulator::board_replied(given(wiring, n, own), line, packed);
            put_byte(outcome, given)
        }
        ("vcube_board_not_replied", [wiring, n, own, line, outcome]) => {
            let given = simulator::board_not_replied(given(wiring, n, own), line);
            put_byte(outcome, given)
        }
        ("vcube_board_told", [wiring, n, own, line, by]) => {
            simulator::board_told(given(wiring, n, own), line, narrow(by))
        }
        ("vcube_board_exchanged", [wiring, n, own, line, from, packed]) => {
            simulator::board_exchanged(given(wiring, n, own), line, narrow(from), packed)
        }
        ("vcube_board_round_closed", [wiring, n, own, line]) => {
            simulator::board_round_closed(given(wiring, n, own), line)
        }
        (name, arguments) => {
            panic!("{name} with {} arguments: the simulator has no such call", arguments.len())
        }
    }
}

fn wide(bytes: &[u8]) -> usize {
    number(bytes) as usize
}

/// A station or level as the simulator takes it. All numbers from 255 on are out of range for every size, so they are refused alike.
fn narrow(bytes: &[u8]) -> u8 {
    number(bytes).min(255) as u8
}

fn given(wiring: &[u8], n: &[u8], own: &[u8]) -> Given {
    Given { wiring: wide(wiring), n: wide(n), own: narrow(own) }
}

/// Rounds and tests.
fn tally(rounds: &[u8], tests: &[u8]) -> (u32, u32) {
    (number(rounds) as u32, number(tests) as u32)
}

fn put_tally(rounds: &mut [u8], tests: &mut [u8], tally: (u32, u32)) {
    rounds.copy_from_slice(&tally.0.to_le_bytes());
    tests.copy_from_slice(&tally.1.to_le_bytes());
}

fn put(place: &mut [u8], figure: usize) {
    place.copy_from_slice(&(figure as u64).to_le_bytes());
}

/// Puts a figure, the second, there. Gives the first, the number.
fn put_second(place: &mut [u8], (number, figure): (u8, usize)) -> u8 {
    put(place, figure);
    number
}

/// The same with a figure of one byte.
fn put_byte(place: &mut [u8], (number, figure): (u8, u8)) -> u8 {
    put_second(place, (number, figure.into()))
}

fn results(bytes: &[u8]) -> Vec<u16> {
    bytes.chunks_exact(2).map(|pair| u16::from_le_bytes([pair[0], pair[1]])).collect()
}

fn totals(bytes: &[u8]) -> Totals {
    let members: Vec<u64> = bytes.chunks_exact(8).map(number).collect();
    let [count, sum, squares, least, greatest] = members[..] else {
        panic!("not the bytes of totals");
    };
    Totals { number: 0, count, sum, squares, least, greatest }
}

/// Count, sum, squares, least, greatest.
pub fn members_of(totals: &Totals) -> [u64; 5] {
    let Totals { least, greatest, .. } = *totals;
    [totals.count, totals.sum, totals.squares, least, greatest]
}

fn put_totals(place: &mut Vec<u8>, totals: &Totals) -> u8 {
    *place = members(&members_of(totals));
    totals.number
}

fn put_figures(place: &mut Vec<u8>, figures: &Figures) -> u8 {
    let fraction = |one: &Fraction| [one.upper, one.lower];
    let [mean, variance] = [&figures.mean, &figures.variance].map(fraction);
    let integers = [figures.count, figures.least, figures.greatest];
    *place = members(&[&integers[..], &mean, &variance].concat());
    figures.number
}
