//! The run program: from the bytes of standard input to the printed text.

use crate::input;
use crate::input::SCHEDULE_LENGTH;
use crate::numbers::Size;
use crate::saved::saved_plant;
use crate::sheet::Response;
use crate::wiring::Wiring;
use crate::words::of_refusal;
use crate::{fresh_table, run, Answer};

const HEADER: &str = "station tested outcome status\n";

/// So much of a line is shown on standard error.
const SHOWN: usize = 40;

/// The run of an input: the size, its answer, and what it left in table and sheet.
struct Ran {
    n: usize,
    answer: Answer,
    table: Vec<u8>,
    sheet: Vec<u8>,
}

/// What the program prints for this input on a wiring: on standard error the words of
/// what was refused or cannot be read, and the line of the input.
pub fn respond(wiring: Wiring, input: &[u8]) -> Response {
    match run_from_fresh(wiring, input) {
        Ok(ran) => Response {
            out: print(&ran),
            err: say_refusal(&ran.answer, input),
        },
        Err((line, words)) => Response {
            out: print_unread(line),
            err: format!("unread {line}: {words}{}\n", show_line(input, line)),
        },
    }
}

fn say_refusal(answer: &Answer, input: &[u8]) -> String {
    let Answer { number, taken, .. } = *answer;
    let line = match number {
        0 => return String::new(),
        1 => 1,
        _ => taken + 2,
    };
    let (words, shown) = (of_refusal(usize::from(number)), show_line(input, line));
    format!("refused {number} at {taken}: {words}{shown}\n")
}

/// The line with this number, from 1, if it is not empty. What a terminal must not get is
/// shown as an escape.
fn show_line(input: &[u8], line: usize) -> String {
    let text = input.split(|byte| *byte == b'\n').nth(line - 1);
    match text.unwrap_or_default() {
        [] => String::new(),
        text if text.len() > SHOWN => format!("; line {line}: {}..", text[..SHOWN].escape_ascii()),
        text => format!("; line {line}: {}", text.escape_ascii()),
    }
}

/// The saved plant after the run of this input on the cube, if each line can be read and the
/// run is not refused.
pub fn saved_after_run(input: &[u8]) -> Option<Vec<u8>> {
    let ran = run_from_fresh(Wiring::Cube, input).ok()?;
    let tally = (ran.answer.rounds, ran.answer.tests);
    let file = saved_plant(ran.n, &ran.table, tally).ok()?;
    (ran.answer.number == 0).then_some(file)
}

/// Runs an input on a fresh table with zero tallies. Where a line cannot be read: its
/// number, and what is wrong in it.
fn run_from_fresh(wiring: Wiring, input: &[u8]) -> Result<Ran, (usize, String)> {
    let mut schedule = [0; SCHEDULE_LENGTH];
    let (read, words) = input::read(input, &mut schedule);
    if read.line != 0 {
        return Err((read.line, words));
    }
    let (wiring, n) = (wiring.number(), read.n);
    let mut table = vec![0; Size::new(n).map_or(0, Size::table_length)];
    let mut sheet = vec![0; 4 * read.entries];
    fresh_table(wiring, n, &mut table);
    let schedule = &schedule[..2 * read.entries];
    let answer = run(wiring, n, &mut table, (0, 0), schedule, &mut sheet);
    Ok(Ran {
        n,
        answer,
        table,
        sheet,
    })
}

fn print_unread(line: usize) -> String {
    format!("unread {line}\n")
}

/// The header, a line for each entry taken, and the last line.
fn print(ran: &Ran) -> String {
    let lines = ran.sheet.chunks_exact(4).take(ran.answer.taken);
    let lines: String = lines.map(print_sheet_line).collect();
    HEADER.to_owned() + &lines + &print_last_line(&ran.answer)
}

/// The four bytes, with - for 255.
fn print_sheet_line(line: &[u8]) -> String {
    let columns: Vec<String> = line.iter().map(print_byte).collect();
    columns.join(" ") + "\n"
}

fn print_byte(byte: &u8) -> String {
    match byte {
        255 => String::from("-"),
        _ => byte.to_string(),
    }
}

fn print_last_line(answer: &Answer) -> String {
    let Answer {
        number,
        taken,
        rounds,
        tests,
    } = answer;
    format!("rounds {rounds} tests {tests} refused {number} at {taken}\n")
}
