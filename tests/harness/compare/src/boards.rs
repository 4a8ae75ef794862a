//! Schedules on the table and on boards: n boards, each with its own line, that hear from each other over the cable alone. After every entry
//! their lines are those of the table, and what they did is what the run sheet says. Here the simulator does both; the programs (as
//! tests/replay/boards.c) do both by the library, from a record. A schedule stands there as
//!
//!     wiring and size, in a byte each; the number of entries, in two bytes, the low one first; the table at the start;
//!     and for each entry kind and station, the number that a run of it alone gives, and its four bytes of the run sheet

use std::collections::BTreeMap;
use std::panic;
use std::path::PathBuf;

use simulator::Cable;

use crate::generate::Schedule;
use crate::options::Options;
use crate::replayer::Replayer;

/// Among so many schedules each outcome comes on each wiring, ..
const ENOUGH: usize = 200;

/// .. which are so many.
const OUTCOMES: usize = 2 * 6;

/// A schedule that was run: its record, and the outcomes of the entries that were taken.
struct Done {
    record: Vec<u8>,
    outcomes: Vec<u8>,
}

pub fn check(options: &Options, programs: &[PathBuf]) -> Result<String, String> {
    let mut record = Vec::new();
    let mut came = BTreeMap::new();
    for number in options.numbers.clone() {
        let schedule = options.source.schedule(number);
        let done = panic::catch_unwind(|| run(&schedule));
        let done = done
            .unwrap_or_else(|_| Err("the simulator panics".into()))
            .map_err(|what| format!("compare: schedule {number} of {}: {what}", options.source))?;
        record.extend(done.record);
        for outcome in done.outcomes {
            *came.entry((schedule.wiring, outcome)).or_insert(0) += 1;
        }
    }
    let schedules = options.numbers.clone().count();
    if schedules >= ENOUGH && came.len() < OUTCOMES {
        return Err(format!("compare: an outcome is missing in {came:?}"));
    }
    let taken: usize = came.values().sum();
    let mut said = format!(
        "compare: {schedules} schedules, {taken} entries taken: table and boards are the same"
    );
    for program in programs {
        let mut replayer = Replayer::start(program)?;
        replayer.feed(&record);
        said = said + "\n" + &replayer.finish()?.1;
    }
    Ok(said)
}

/// Where table and boards differ, that is said.
fn run(schedule: &Schedule) -> Result<Done, String> {
    let (wiring, n) = (schedule.wiring, schedule.n);
    let mut table = schedule.table.clone();
    let mut lines = vec![0; table.len()];
    let mut cable = Cable::new(wiring, n, &table);
    let (mut record, mut outcomes) = (vec![wiring as u8, n as u8], Vec::new());
    record.extend((schedule.entries.len() as u16).to_le_bytes());
    record.extend(&table);
    for (k, entry) in (1..).zip(&schedule.entries) {
        let mut sheet = [0; 4];
        let given = simulator::run(wiring, n, &mut table, (0, 0), entry, &mut sheet);
        let differ = |what: String| Err(format!("entry {k}, {entry:?}: {what}"));
        if given.number == 0 {
            let of_boards = cable.take(*entry);
            if of_boards != sheet {
                return differ(format!("the sheet has {sheet:?}, the boards {of_boards:?}"));
            }
            outcomes.push(sheet[2]);
        }
        cable.encode(&mut lines);
        if let Some(at) = (0..lines.len()).find(|at| lines[*at] != table[*at]) {
            let [line, table] = [lines[at], table[at]];
            return differ(format!("byte {at} of the table is {table}, of the lines {line}"));
        }
        record.extend([&entry[..], &[given.number], &sheet].concat());
    }
    Ok(Done { record, outcomes })
}
