//! Entries per second of the run, drives per second, and calls per second of the
//! figures, of the doubt lamp, of mendings, of saves, loads and slots, and of the reading
//! of inputs: the library, and plain Rust over the same bytes; runs beside an expert's form too.
//!
//! `bench` prints the tables; `--quick` repeats less. Before anything is timed both must
//! give the same answers and bytes; else it says where not, and the status is 1.

use bench::measure::Batch;
use bench::work::{self, damaged, DAMAGES};
use bench::{expert, plain, plain_drive, plain_figures, plain_input, plain_lamp};
use bench::{plain_mend, plain_saved, plain_slot};
use shared::random::Random;
use shared::table::live_stations;
use std::hint::black_box;
use std::process::ExitCode;
use vcube::{report_length, saved_length, table_length};
use vcube::{Answer, Plant, Station, Tally, Wiring, SCHEDULE_LENGTH};

const SEED: u64 = 1;
const ENTRIES: usize = 4000;
/// The sizes of runs and drives.
const SIZES: [usize; 8] = [8, 11, 16, 19, 32, 48, 63, 64];
/// The sizes of all other calls.
const FEW_SIZES: [usize; 3] = [8, 19, 64];
const RING_SIZES: [usize; 4] = [4, 8, 19, 64];
const REPETITIONS: usize = 301;
const QUICK_REPETITIONS: usize = 31;

/// How many short runs and lamps are timed together, and how many other calls.
const RUNS: usize = 200;
const CALLS: usize = 50;

/// The lengths of the lists that figures are taken of, and the entries of inputs.
const LENGTHS: [usize; 3] = [16, 256, 4096];

/// By this the repetitions are divided where calls are timed together.
const FEWER: usize = 3;

type Times = Result<[f64; 2], String>;
type Done = Result<(), String>;

/// A run: wiring, n, table, tally, schedule and sheet.
type Run = fn(Wiring, usize, &mut [u8], &mut Tally, &[u8], &mut [u8]) -> Answer;

fn main() -> ExitCode {
    bench::run("bench", |quick| print_tables(if quick { QUICK_REPETITIONS } else { REPETITIONS }))
}

fn print_tables(repetitions: usize) -> Done {
    let fewer = repetitions / FEWER;
    println!(
        "The best of {repetitions} repetitions, {fewer} where calls are timed together; each times library and plain
Rust one after the other. Tables are copied and sheets are cleared before, untimed. The dead are crashed from the
start; all entries are turns, and all are taken. Thousands per second, but for drives."
    );
    print_wired(Wiring::Cube, repetitions, fewer)?;
    print_figures(fewer)?;
    print_saves(fewer)?;
    print_loads(fewer)?;
    print_slots(fewer)?;
    print_inputs(fewer)?;
    print_wired(Wiring::Ring, repetitions, fewer)
}

/// The calls that take a wiring.
fn print_wired(wiring: Wiring, repetitions: usize, fewer: usize) -> Done {
    let (sizes, few_sizes) = match wiring {
        Wiring::Cube => (&SIZES[..], &FEW_SIZES[..]),
        Wiring::Ring => (&RING_SIZES[..], &RING_SIZES[..]),
    };
    compare_exits(wiring, sizes)?;
    print_long_runs("Many rounds", wiring, sizes, repetitions, ("plain Rust", plain::run))?;
    let expert = ("an expert's form", expert::run as Run);
    print_long_runs("Many rounds beside an expert's form", wiring, sizes, repetitions, expert)?;
    print_empty_runs(wiring, sizes, fewer)?;
    print_drives(wiring, sizes, fewer)?;
    print_lamps(wiring, few_sizes, fewer)?;
    print_mendings(wiring, few_sizes, fewer)
}

/// The head of a table: what is timed, what is to be known of it, and the columns before
/// those of the speeds.
fn print_head(title: &str, wiring: Wiring, text: &str, columns: &str) {
    print_head_beside("plain Rust", title, wiring, text, columns);
}

/// The same beside something else than plain Rust.
fn print_head_beside(other: &str, title: &str, wiring: Wiring, text: &str, columns: &str) {
    let on = match wiring {
        Wiring::Cube => "",
        Wiring::Ring => ", on the ring",
    };
    println!("\n{title}{on}\n\n{text}\n");
    println!("| {columns} | library | {other} | library / {other} |");
    println!("|--:{}|", "|--:".repeat(columns.matches('|').count() + 3));
}

/// A row: the cells before the speeds, and how many are made in the times.
fn print_row(cells: &str, many: f64, times: [f64; 2]) {
    let [library, plain] = times.map(|seconds| many / seconds);
    println!("| {cells} | {library:.0} | {plain:.0} | {:.2} |", library / plain);
}

fn thousands(many: usize) -> f64 {
    many as f64 / 1e3
}

/// For each size the dead that its rows have: none, a quarter, a half.
fn with_dead(sizes: &[usize]) -> impl Iterator<Item = (usize, usize)> + '_ {
    sizes.iter().flat_map(|n| [(*n, 0), (*n, n / 4), (*n, n / 2)])
}

fn print_long_runs(
    title: &str,
    wiring: Wiring,
    sizes: &[usize],
    repetitions: usize,
    (name, other): (&str, Run),
) -> Done {
    let text = format!("Entries of a run of {ENTRIES} over many rounds. Once the dead are known, all rows are the same.");
    print_head_beside(name, title, wiring, &text, "n | dead");
    for (n, dead) in with_dead(sizes) {
        let mut random = Random::new(SEED);
        let plant = work::with_dead(wiring, n, dead, &mut random);
        let schedule = work::turns(&plant, ENTRIES, &mut random);
        let times = time_runs(&[(plant, schedule)], repetitions, other)?;
        print_row(&format!("{n} | {dead}"), thousands(ENTRIES), times);
    }
    Ok(())
}

fn print_empty_runs(wiring: Wiring, sizes: &[usize], repetitions: usize) -> Done {
    let text = format!("Runs of no entry on a fresh table: the check of the table by itself; {RUNS} are timed together.");
    print_head("An empty schedule", wiring, &text, "n | dead");
    for n in sizes {
        let works = vec![(work::without(wiring, *n, &[]), Vec::new()); RUNS];
        let times = time_runs(&works, repetitions, plain::run)?;
        print_row(&format!("{n} | 0"), thousands(RUNS), times);
    }
    Ok(())
}

/// Runs with late turns and crashes, which are compared and not timed.
fn compare_exits(wiring: Wiring, sizes: &[usize]) -> Done {
    let mut random = Random::new(SEED);
    let mut run = |n| {
        let plant = work::without(wiring, n, &[]);
        let schedule = work::exits(&plant, &mut random);
        (plant, schedule)
    };
    let sizes = sizes.iter().flat_map(|n| [*n; RUNS]);
    let works: Vec<_> = sizes.map(&mut run).collect();
    time_runs(&works, 0, plain::run)?;
    time_runs(&works, 0, expert::run).map(|_| ())
}

/// Of plants and schedules, of which all entries must be taken.
fn time_runs(works: &[(Plant, Vec<u8>)], repetitions: usize, other: Run) -> Times {
    let longest = works.iter().map(|(_, schedule)| 2 * schedule.len()).max();
    let batch = Batch::new(works, |(plant, _)| plant.table().to_vec(), longest.unwrap_or(0));
    let taken = "all entries are taken";
    batch.best_times(
        repetitions,
        |(plant, schedule), table, sheet| {
            let (mut tally, sheet) = (Tally::default(), &mut sheet[..2 * schedule.len()]);
            let (wiring, n) = (plant.wiring(), plant.size());
            let answer = vcube::run(wiring, n, table, &mut tally, schedule, sheet);
            (answer.result().expect(taken), tally)
        },
        |(plant, schedule), table, sheet| {
            let (mut tally, sheet) = (Tally::default(), &mut sheet[..2 * schedule.len()]);
            let (wiring, n) = (plant.wiring(), plant.size());
            let answer = other(wiring, n, table, &mut tally, schedule, sheet);
            (answer.result().expect(taken), tally)
        },
    )
}

fn print_drives(wiring: Wiring, sizes: &[usize], repetitions: usize) -> Done {
    let text = format!(
        "Drives per second from a start table on which no station was granted yet: one round of so many grants.\n\
         {CALLS} are timed together, each on its own copy of the table."
    );
    print_head("Drives", wiring, &text, "n | dead | grants");
    for (n, dead) in with_dead(sizes) {
        let mut plant = work::with_dead(wiring, n, dead, &mut Random::new(SEED));
        let works = vec![(); CALLS];
        let batch = Batch::new(&works, |()| plant.table().to_vec(), 0);
        let times = batch.best_times(
            repetitions,
            |(), table, _| {
                let (mut tally, mut last) = (Tally::default(), None);
                let driven = vcube::drive(wiring, n, table, &mut tally, &mut last);
                (driven, tally, last)
            },
            |(), table, _| {
                let (mut tally, mut last) = (Tally::default(), None);
                let driven = plain_drive::drive(wiring, n, table, &mut tally, &mut last);
                (driven, tally, last)
            },
        )?;
        let grants = plant.drive().result().expect("a round");
        print_row(&format!("{n} | {dead} | {grants}"), CALLS as f64, times);
    }
    Ok(())
}

fn print_lamps(wiring: Wiring, sizes: &[usize], repetitions: usize) -> Done {
    let text = format!(
        "Each live board suspects just the dead ones, so that there is no pair. {RUNS} are timed together, each on\n\
         its own copy of the table."
    );
    print_head("Doubt lamps", wiring, &text, "n | dead");
    for n in sizes.iter().copied() {
        for dead in [0, n / 4].into_iter().filter(|dead| dead + 4 <= n) {
            let plant = work::with_known_dead(wiring, n, dead);
            let works = vec![(); RUNS];
            let times = Batch::new(&works, |()| plant.table().to_vec(), 0).best_times(
                repetitions,
                |(), table, _| vcube::doubt_lamp(wiring, n, table).expect("a good table"),
                |(), table, _| plain_lamp::doubt_lamp(wiring, n, table).expect("a good table"),
            )?;
            print_row(&format!("{n} | {dead}"), thousands(RUNS), times);
        }
    }
    Ok(())
}

fn print_mendings(wiring: Wiring, sizes: &[usize], repetitions: usize) -> Done {
    let text = format!(
        "A good table with a quarter of the stations dead, one with one byte damaged, and random bytes, each other ones.\n\
         {CALLS} are timed together, each on its own copy of its table, into one report."
    );
    print_head("Mendings", wiring, &text, "n | table");
    for n in sizes.iter().copied() {
        for damage in DAMAGES {
            let mut random = Random::new(SEED);
            let table = |_| damaged(damage, wiring, n, &mut random);
            let tables: Vec<Vec<u8>> = (0..CALLS).map(table).collect();
            let times = Batch::new(&tables, Vec::clone, report_length(n)).best_times(
                repetitions,
                |_, table, report| vcube::mend(wiring, n, table, report).expect("mended"),
                |_, table, report| plain_mend::mend(wiring, n, table, report).expect("mended"),
            )?;
            print_row(&format!("{n} | {damage}"), thousands(CALLS), times);
        }
    }
    Ok(())
}

fn print_figures(repetitions: usize) -> Done {
    let text = format!(
        "Of random results from 0 to 65535; {CALLS} are timed together, each of a list of its own."
    );
    print_head("Figures of a list", Wiring::Cube, &text, "results");
    for length in LENGTHS {
        let mut random = Random::new(SEED);
        let mut list = || (0..length).map(|_| random.below(1 << 16) as u16).collect();
        let lists: Vec<Vec<u16>> = (0..CALLS).map(|_| list()).collect();
        let times = Batch::new(&lists, |_| Vec::new(), 0).best_times(
            repetitions,
            |list, _, _| vcube::figures(list).expect("some results"),
            |list, _, _| plain_figures::figures(list).expect("some results"),
        )?;
        print_row(&length.to_string(), thousands(CALLS), times);
    }
    Ok(())
}

/// Plants with other dead stations and other turns each, and what is saved of them.
fn plants(n: usize) -> Vec<(Plant, Vec<u8>)> {
    let mut random = Random::new(SEED);
    let mut plant = |_| {
        let (plant, mut file) =
            (work::later(Wiring::Cube, n, &mut random), vec![0; saved_length(n)]);
        plant.save(&mut file).expect("a good table");
        (plant, file)
    };
    (0..CALLS).map(&mut plant).collect()
}

fn print_saves(repetitions: usize) -> Done {
    let text = format!("Of plants with a quarter of the stations dead; {CALLS} are timed together, each of a plant of its own.");
    print_head("Saves", Wiring::Cube, &text, "n");
    for n in FEW_SIZES {
        let times = Batch::new(&plants(n), |(_, file)| vec![0; file.len()], 0).best_times(
            repetitions,
            |(plant, _), saved, _| {
                vcube::save(n, plant.table(), plant.tally, saved).expect("saved")
            },
            |(plant, _), saved, _| {
                plain_saved::save(n, plant.table(), plant.tally, saved).expect("saved")
            },
        )?;
        print_row(&n.to_string(), thousands(CALLS), times);
    }
    Ok(())
}

fn print_loads(repetitions: usize) -> Done {
    let text = format!(
        "Of what these saves write; {CALLS} are timed together, each into a table of its own."
    );
    print_head("Loads", Wiring::Cube, &text, "n");
    for n in FEW_SIZES {
        let times = Batch::new(&plants(n), |_| vec![0; table_length(n)], 0).best_times(
            repetitions,
            |(_, file), table, _| vcube::load(file, table).expect("a saved plant"),
            |(_, file), table, _| plain_saved::load(file, table).expect("a saved plant"),
        )?;
        print_row(&n.to_string(), thousands(CALLS), times);
    }
    Ok(())
}

fn print_slots(repetitions: usize) -> Done {
    let text = format!(
        "Of the live boards, one after the other, of a table in which each of them suspects just the dead ones;\n\
         {RUNS} are timed together."
    );
    print_head("Slots", Wiring::Cube, &text, "n | dead");
    for n in FEW_SIZES {
        for dead in [0, n / 4] {
            let plant = black_box(work::with_known_dead(Wiring::Cube, n, dead));
            let live = live_stations(n, plant.table());
            let stations: Vec<Station> = live.into_iter().cycle().take(RUNS).map(Station).collect();
            let times = Batch::new(&stations, |_| Vec::new(), 0).best_times(
                repetitions,
                |station, _, _| vcube::slot(n, plant.table(), *station).expect("a live one"),
                |station, _, _| plain_slot::slot(n, plant.table(), *station).expect("a live one"),
            )?;
            print_row(&format!("{n} | {dead}"), thousands(RUNS), times);
        }
    }
    Ok(())
}

fn print_inputs(repetitions: usize) -> Done {
    let text = format!("With so many random entries, of which all can be read; {CALLS} are timed together, each of its own.");
    print_head("Readings of an input", Wiring::Cube, &text, "entries");
    for entries in LENGTHS {
        let mut random = Random::new(SEED);
        let input = |_| work::input(entries, &mut random);
        let inputs: Vec<Vec<u8>> = (0..CALLS).map(input).collect();
        let times = Batch::new(&inputs, |_| Vec::new(), SCHEDULE_LENGTH).best_times(
            repetitions,
            |input, _, schedule| {
                let schedule = schedule.try_into().expect("its length");
                vcube::read_input(input, schedule).expect("it can be read")
            },
            |input, _, schedule| {
                let schedule = schedule.try_into().expect("its length");
                plain_input::read_input(input, schedule).expect("it can be read")
            },
        )?;
        print_row(&entries.to_string(), thousands(CALLS), times);
    }
    Ok(())
}
