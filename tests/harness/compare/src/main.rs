//! Random calls of the library, and what the simulator gives for each: written as a record, or made by programs that read one.

#![forbid(unsafe_code)]

mod altered;
mod answer;
mod blocks;
mod boards;
mod generate;
mod options;
mod printed;
mod replayer;
mod smallest;
mod turned;

use std::collections::BTreeMap;
use std::fs::File;
use std::io::{self, BufReader, Read, Write};
use std::panic;
use std::path::{Path, PathBuf};
use std::process::ExitCode;

use shared::header::{self, Function};
use shared::record::Reader;

use generate::Source;
use options::{Options, Task};
use replayer::{Difference, Replayer, COPIES};

fn main() -> ExitCode {
    match Options::read().and_then(|options| work(&options)) {
        // The record stands there.
        Ok(text) if text.is_empty() => {}
        Ok(text) => println!("{text}"),
        Err(text) => {
            eprintln!("{text}");
            return ExitCode::FAILURE;
        }
    }
    ExitCode::SUCCESS
}

fn work(options: &Options) -> Result<String, String> {
    match &options.task {
        Task::Print => {
            Ok(options.numbers.clone().map(|number| described(options.source, number)).collect())
        }
        Task::Record(path) => write(options, path)
            .map_err(|error| format!("compare: cannot write {}: {error}", path.display())),
        Task::Altered(programs) => alter(options.source, programs),
        Task::With(programs) => compare(options, programs),
        Task::Answer(path) => answer_again(path),
        Task::Boards(programs) => boards::check(options, programs),
        Task::Turned(program, inputs) => turned::check(inputs, program),
    }
}

fn described(source: Source, number: u64) -> String {
    let call = source.call(number);
    let answer = answer::answer(&call);
    format!("call {number}: {}", printed::call(&call, &answer))
}

fn write(options: &Options, path: &Path) -> io::Result<String> {
    let is_piped = path.as_os_str() == "-";
    let mut to: Box<dyn Write> = match is_piped {
        true => Box::new(io::stdout().lock()),
        false => Box::new(File::create(path)?),
    };
    let mut failed = Ok(());
    blocks::record(options.source, options.numbers.clone(), |block| {
        failed = to.write_all(block);
        failed.is_ok()
    });
    failed.and_then(|()| to.flush())?;
    match is_piped {
        true => Ok(String::new()),
        false => Ok(format!("compare: the calls are in {}", path.display())),
    }
}

/// Lets the programs make calls whose answers are altered, each of which they must notice.
fn alter(source: Source, programs: &[PathBuf]) -> Result<String, String> {
    let mut noticed = 0;
    for program in programs {
        noticed += altered::check(source, program)?;
    }
    Ok(format!("compare: all {noticed} altered answers are noticed"))
}

/// Lets the programs make the calls. Where one gives something else, it and a small one are printed.
fn compare(options: &Options, programs: &[PathBuf]) -> Result<String, String> {
    let started = programs.iter().map(|program| Replayer::start(program));
    let mut replayers = started.collect::<Result<Vec<_>, _>>()?;
    let numbers = &options.numbers;
    let copies = if numbers.start() == numbers.end() { COPIES } else { 1 };
    blocks::record(options.source, numbers.clone(), |block| {
        let block = block.repeat(copies);
        replayers.iter_mut().all(|replayer| replayer.feed(&block))
    });
    let mut said = format!("compare: {}", options.source);
    for (replayer, program) in replayers.into_iter().zip(programs) {
        let (found, text) = replayer.finish()?;
        if let Some(found) = found {
            return Err(explained(options, program, &found)?);
        }
        said = said + "\n" + &text;
    }
    Ok(said + "\nof these: " + &counted(numbers.clone().count())?)
}

/// How many calls of each function of the header there were. Where there are many, there must be some of each.
fn counted(calls: usize) -> Result<String, String> {
    let counts = blocks::COUNTS.lock().expect("no thread panics");
    let of_one = |function: &Function| match (counts.get(function.name), function.name) {
        (None, name) if calls >= 100_000 => Err(format!("compare: there was no call of {name}")),
        (count, name) => Ok(format!("{} {name}", count.unwrap_or(&0))),
    };
    let counted: Result<Vec<_>, _> = header::functions().iter().map(of_one).collect();
    Ok(counted?.join(", "))
}

/// What was found, and a small call of that function that gives something else, if there is one.
fn explained(options: &Options, program: &Path, found: &Difference) -> Result<String, String> {
    let (source, (first, last)) = (options.source, options.numbers.clone().into_inner());
    let number = last.min(first + found.number - 1);
    let function = source.call(number).function.name;
    let (number, said) =
        smallest::smallest(program, source, function)?.unwrap_or((number, found.text.clone()));
    let call = described(source, number);
    Ok(format!(
        "{}\nA small one: {call}but\n{said}\nit alone: tests/compare {source} --only {number}",
        found.text
    ))
}

/// Lets the simulator make each call of a record again. Prints for each function how many calls give something else, and the first of them. A
/// call that panics does.
fn answer_again(path: &Path) -> Result<String, String> {
    let failed = |error: io::Error| format!("compare: cannot read {}: {error}", path.display());
    let from: Box<dyn Read> = match path.to_str() {
        Some("-") => Box::new(io::stdin().lock()),
        _ => Box::new(File::open(path).map_err(failed)?),
    };
    let mut calls = Reader(BufReader::with_capacity(1 << 20, from));
    panic::set_hook(Box::new(|_| {}));
    let mut different = BTreeMap::new();
    let mut made = 0;
    while let Some((call, recorded)) = calls.next_call().map_err(failed)? {
        made += 1;
        let given = panic::catch_unwind(|| answer::answer(&call)).ok();
        if given.as_ref() != Some(&recorded) {
            let given = given.map_or("nothing".into(), |given| given.number.to_string());
            let first =
                format!("the first is call {made}: number {given}, recorded {}", recorded.number);
            different.entry(call.function.name).or_insert((0, first)).0 += 1;
        }
    }
    for (function, (count, first)) in &different {
        println!("{function}: {count} differ, {first}");
    }
    match (made, different.is_empty()) {
        (0, _) => Err(String::from("compare: the record has no call")),
        (_, true) => {
            Ok(format!("compare: the simulator gives what is recorded for all {made} calls"))
        }
        _ => Err(format!(
            "compare: the simulator gives something else than is recorded for some of {made} calls"
        )),
    }
}
