//! The check of a table and the run in plain Rust over the lent bytes, as the rules
//! read: nothing is decoded, the group order is computed with exclusive or, all lines
//! are looked through for the round's end after each entry, and both rows are always
//! exchanged. (The library looks at the entry's own station first and leaves equal
//! rows alone.)

use shared::schedule::{CRASH, TURN};
use shared::table::{CLOSED_SINCE, CRASHED, FINISHED, HEAD, LEFT_ALONE, LEFT_TOLD, LIVE};
use shared::table::{NEXT_DISTANCE, NOT_RECORDED, STATUS, TESTS, TOLD_BY, TOLD_BY_NONE};
use vcube::{Answer, Outcome, Refusal, Tally, Wiring};

/// Byte 1 of a line of the sheet when no station was tested.
const NO_STATION: u8 = 255;

/// Run: refusals 1 to 6, then 7 to 11 at each entry.
pub fn run(
    wiring: Wiring,
    n: usize,
    table: &mut [u8],
    tally: &mut Tally,
    schedule: &[u8],
    sheet: &mut [u8],
) -> Answer {
    let mut answer =
        Answer { refusal: check_run(wiring, n, table, schedule, sheet).err(), taken: 0 };
    if answer.refusal.is_some() {
        return answer;
    }
    for (entry, place) in schedule.chunks_exact(2).zip(sheet.chunks_exact_mut(4)) {
        answer.refusal = check_entry(n, table, *tally, entry).err();
        if answer.refusal.is_some() {
            return answer;
        }
        take_entry(wiring, n, table, tally, entry, place);
        answer.taken += 1;
    }
    answer
}

/// Refusals 1 to 6.
fn check_run(
    wiring: Wiring,
    n: usize,
    table: &[u8],
    schedule: &[u8],
    sheet: &[u8],
) -> Result<(), Refusal> {
    check_table(wiring, n, table)?;
    if !schedule.len().is_multiple_of(2) {
        return Err(Refusal::ScheduleLength);
    }
    if sheet.len() != 2 * schedule.len() {
        return Err(Refusal::SheetLength);
    }
    Ok(())
}

/// Refusals 1 to 4. It stands by itself, with the loop over a row in it: where that
/// was not so the loop was not aligned, and the check took twice the time.
#[inline(never)]
pub fn check_table(wiring: Wiring, n: usize, table: &[u8]) -> Result<(), Refusal> {
    check_shape(n, table)?;
    let end = end(wiring, n);
    let mut lines = table.chunks_exact(n + HEAD).enumerate();
    if !lines.all(|(i, line)| keeps_line_rules(end, i, line)) {
        return Err(Refusal::LineRule);
    }
    if is_round_over(n, table) {
        return Err(Refusal::RoundNotClosed);
    }
    Ok(())
}

/// Refusals 1 and 2.
pub fn check_shape(n: usize, table: &[u8]) -> Result<(), Refusal> {
    if !(2..=64).contains(&n) {
        return Err(Refusal::SizeOutOfRange);
    }
    if table.len() != n * (n + HEAD) {
        return Err(Refusal::TableLength);
    }
    Ok(())
}

/// The next distance of a finished line.
pub fn end(wiring: Wiring, n: usize) -> usize {
    match wiring {
        Wiring::Cube => n.next_power_of_two(),
        Wiring::Ring => n,
    }
}

#[inline(always)]
pub fn keeps_line_rules(end: usize, i: usize, line: &[u8]) -> bool {
    let (head, row) = line.split_at(HEAD);
    keeps_status_rules(row.len(), i, head)
        && keeps_pass_rules(end, head)
        && row[i] == 0
        && row.iter().all(|byte| *byte <= 1)
}

/// The rules of bytes 1 to 3.
pub fn keeps_pass_rules(end: usize, head: &[u8]) -> bool {
    let next = usize::from(head[NEXT_DISTANCE]);
    (1..=end).contains(&next)
        && head[FINISHED] <= 1
        && head[TESTS] < head[NEXT_DISTANCE]
        && (head[FINISHED] == 0 || next == end)
}

/// The status, and bytes 4 and 5 by it.
fn keeps_status_rules(n: usize, i: usize, head: &[u8]) -> bool {
    let told_by = head[TOLD_BY];
    match head[STATUS] {
        LIVE => told_by == TOLD_BY_NONE && head[CLOSED_SINCE] == 0,
        LEFT_TOLD => told_by == NOT_RECORDED || is_another(n, i, told_by),
        CRASHED | LEFT_ALONE => told_by == TOLD_BY_NONE,
        _ => false,
    }
}

/// Whether the number is that of another station than i.
pub fn is_another(n: usize, i: usize, number: u8) -> bool {
    let number = usize::from(number);
    number < n && number != i
}

/// Whether a station is live and all live ones are finished.
fn is_round_over(n: usize, table: &[u8]) -> bool {
    let mut some_live = false;
    for line in table.chunks_exact(n + HEAD) {
        if line[STATUS] == LIVE {
            if line[FINISHED] == 0 {
                return false;
            }
            some_live = true;
        }
    }
    some_live
}

/// Refusals 7 to 11.
fn check_entry(n: usize, table: &[u8], tally: Tally, entry: &[u8]) -> Result<(), Refusal> {
    let (kind, i) = (entry[0], usize::from(entry[1]));
    if is_full(tally) {
        return Err(Refusal::TallyFull);
    }
    if !(TURN..=CRASH).contains(&kind) {
        return Err(Refusal::UnknownKind);
    }
    if i >= n {
        return Err(Refusal::NoSuchStation);
    }
    let line = &table[i * (n + HEAD)..];
    if line[STATUS] != LIVE {
        return Err(Refusal::NotLive);
    }
    if kind != CRASH && line[FINISHED] == 1 {
        return Err(Refusal::PassFinished);
    }
    Ok(())
}

/// Whether either tally stands at its end.
pub fn is_full(tally: Tally) -> bool {
    tally.rounds == u32::MAX || tally.tests == u32::MAX
}

/// What an entry does, its line of the sheet and the tally. The run and the
/// drive share it: not inlined, it made the run slower by 5 to 10 %.
#[inline(always)]
pub fn take_entry(
    wiring: Wiring,
    n: usize,
    table: &mut [u8],
    tally: &mut Tally,
    entry: &[u8],
    place: &mut [u8],
) {
    let (kind, i) = (entry[0], usize::from(entry[1]));
    let at = i * (n + HEAD);
    let (tested, outcome) = if kind == CRASH {
        table[at + STATUS] = CRASHED;
        (NO_STATION, Outcome::Crash)
    } else {
        take_turn(wiring, n, table, kind, i)
    };
    if tested != NO_STATION {
        tally.tests += 1;
    }
    if is_round_over(n, table) {
        begin_round(n, table);
        tally.rounds += 1;
    }
    place.copy_from_slice(&[i as u8, tested, outcome as u8, table[at + STATUS]]);
}

/// A turn: gives the tested station and the outcome.
fn take_turn(wiring: Wiring, n: usize, table: &mut [u8], kind: u8, i: usize) -> (u8, Outcome) {
    let line = line_of(n, table, i);
    match next_test(wiring, i, line) {
        None => {
            line[NEXT_DISTANCE] = end(wiring, n) as u8;
            line[FINISHED] = 1;
            (NO_STATION, Outcome::PassFinished)
        }
        Some((m, j)) => {
            let outcome = test(n, table, kind, i, j);
            let line = line_of(n, table, i);
            line[NEXT_DISTANCE] = match (wiring, outcome) {
                (Wiring::Ring, Outcome::Exchanged) => n as u8,
                _ => m as u8 + 1,
            };
            line[TESTS] += 1;
            leave_if_alone(line, i);
            (j as u8, outcome)
        }
    }
}

/// The distance of the next test of station i with this line, and the station
/// that stands there.
fn next_test(wiring: Wiring, i: usize, line: &[u8]) -> Option<(usize, usize)> {
    let next = usize::from(line[NEXT_DISTANCE]);
    let row = &line[HEAD..];
    let n = row.len();
    match wiring {
        Wiring::Cube => {
            let m = (next..end(wiring, n)).find(|m| is_due(row, i, *m))?;
            Some((m, i ^ m))
        }
        Wiring::Ring if next == n => None,
        Wiring::Ring => {
            let j = i + next;
            Some((next, if j < n { j } else { j - n }))
        }
    }
}

/// The line of station i.
fn line_of(n: usize, table: &mut [u8], i: usize) -> &mut [u8] {
    &mut table[i * (n + HEAD)..][..n + HEAD]
}

/// Whether i is the first station that its row does not suspect in the group of
/// the station at distance m, at the level of m, and a station stands there. The
/// row has a byte for each station.
pub fn is_due(row: &[u8], i: usize, m: usize) -> bool {
    let j = i ^ m;
    let width = 1 << m.ilog2();
    let mut group = (width..2 * width).map(|distance| j ^ distance);
    group.find(|x| row.get(*x) == Some(&0)) == Some(i) && j < row.len()
}

/// What comes of a test: gives the outcome.
fn test(n: usize, table: &mut [u8], kind: u8, i: usize, j: usize) -> Outcome {
    let (mine, theirs) = two_lines(n, table, i, j);
    if theirs[STATUS] != LIVE || kind != TURN {
        mine[HEAD + j] = 1;
        Outcome::NoReply
    } else if theirs[HEAD + i] == 1 {
        mine[STATUS] = LEFT_TOLD;
        mine[TOLD_BY] = j as u8;
        Outcome::Told
    } else if mine[HEAD + j] == 1 {
        theirs[STATUS] = LEFT_TOLD;
        theirs[TOLD_BY] = i as u8;
        Outcome::TestedTold
    } else {
        exchange(&mut mine[HEAD..], &mut theirs[HEAD..], i, j);
        Outcome::Exchanged
    }
}

/// The lines of two different stations.
fn two_lines(n: usize, table: &mut [u8], i: usize, j: usize) -> (&mut [u8], &mut [u8]) {
    let length = n + HEAD;
    let (low, high) = table.split_at_mut(i.max(j) * length);
    let low = &mut low[i.min(j) * length..][..length];
    let high = &mut high[..length];
    if i < j {
        (low, high)
    } else {
        (high, low)
    }
}

/// Both rows become the union. A station's byte about itself stays 0.
fn exchange(mine: &mut [u8], theirs: &mut [u8], i: usize, j: usize) {
    for (a, b) in mine.iter_mut().zip(theirs.iter_mut()) {
        let union = *a | *b;
        *a = union;
        *b = union;
    }
    mine[i] = 0;
    theirs[j] = 0;
}

/// Leaves if the station is live and suspects all others.
fn leave_if_alone(line: &mut [u8], i: usize) {
    let mut others = line[HEAD..].iter().enumerate();
    if line[STATUS] == LIVE && others.all(|(k, byte)| k == i || *byte == 1) {
        line[STATUS] = LEFT_ALONE;
    }
}

/// Every line, live or not, begins a round. Those that are not live count the
/// closed one.
fn begin_round(n: usize, table: &mut [u8]) {
    for line in table.chunks_exact_mut(n + HEAD) {
        line[NEXT_DISTANCE] = 1;
        line[FINISHED] = 0;
        line[TESTS] = 0;
        if line[STATUS] != LIVE {
            line[CLOSED_SINCE] = line[CLOSED_SINCE].saturating_add(1);
        }
    }
}
