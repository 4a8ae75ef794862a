//! The options of the command.

use std::env;
use std::ffi::OsString;
use std::ops::RangeInclusive;
use std::path::PathBuf;

use crate::generate::Source;

const USAGE: &str =
    "usage: compare [--seed S] [--long] [--calls N | --only K] --record FILE | --with PROGRAM ..
       compare [--seed S] [--long] --only K
       compare [--seed S] --altered PROGRAM ..
       compare --answer FILE
       compare [--seed S] [--calls N | --only K] --boards [PROGRAM ..]
       compare --turned PROGRAM INPUT ..";

const DEFAULT_SEED: u64 = 1;
const DEFAULT_CALLS: u64 = 900_000;

pub enum Task {
    /// Prints a call and what it gives.
    Print,
    /// Writes the calls, and what they give, to a file, or to standard output where it is `-`.
    Record(PathBuf),
    /// Lets these programs make the calls.
    With(Vec<PathBuf>),
    /// Lets them make calls whose answers are altered.
    Altered(Vec<PathBuf>),
    /// Lets the simulator make the calls of a record again.
    Answer(PathBuf),
    /// Lets simulator and programs run schedules, by the numbers of calls, on the table and on boards.
    Boards(Vec<PathBuf>),
    /// Lets simulator and program load the saved plants of these inputs with each bit turned.
    Turned(PathBuf, Vec<PathBuf>),
}

pub struct Options {
    pub source: Source,
    /// The numbers of the calls.
    pub numbers: RangeInclusive<u64>,
    pub task: Task,
}

impl Options {
    pub fn read() -> Result<Options, String> {
        Options::of(env::args_os().skip(1)).ok_or_else(|| USAGE.into())
    }

    /// None if the words are wrong.
    fn of(mut words: impl Iterator<Item = OsString>) -> Option<Options> {
        let number = |word: Option<OsString>| word?.to_str()?.parse().ok();
        let mut source = Source { seed: DEFAULT_SEED, is_long: false };
        let (mut numbers, mut task) = (1..=DEFAULT_CALLS, Task::Print);
        while let Some(word) = words.next() {
            match word.to_str()? {
                "--seed" => source.seed = number(words.next())?,
                "--long" => source.is_long = true,
                "--calls" => numbers = 1..=number(words.next())?,
                "--only" => {
                    let only = number(words.next())?;
                    numbers = only..=only;
                }
                "--record" => task = Task::Record(words.next()?.into()),
                "--answer" => task = Task::Answer(words.next()?.into()),
                "--with" => task = Task::With(words.by_ref().map(PathBuf::from).collect()),
                "--altered" => task = Task::Altered(words.by_ref().map(PathBuf::from).collect()),
                "--boards" => task = Task::Boards(words.by_ref().map(PathBuf::from).collect()),
                "--turned" => {
                    let program = words.next()?.into();
                    task = Task::Turned(program, words.by_ref().map(PathBuf::from).collect());
                }
                _ => return None,
            }
        }
        let is_complete = match &task {
            Task::Print => numbers.start() == numbers.end(),
            Task::With(paths) | Task::Altered(paths) | Task::Turned(_, paths) => !paths.is_empty(),
            _ => true,
        };
        is_complete.then_some(Options { source, numbers, task })
    }
}
