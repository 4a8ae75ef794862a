//! A program that makes the calls of a record, as tests/replay/replay.c does: it reads the record from standard input where its argument is
//! `-`. Where a call gives something else than recorded it says so in a line with `call K`, K counted from 1, and its status is neither 0 nor 2.

use std::io::Write;
use std::path::Path;
use std::process::{Child, Command, Stdio};

/// The status where the record cannot be read.
const UNREADABLE: i32 = 2;

/// A call that is made by itself is made so often: a program may lend buffers to odd calls otherwise than to even ones.
pub const COPIES: usize = 2;

/// The first call that gives something else, and what the program said of it.
pub struct Difference {
    pub number: u64,
    pub text: String,
}

pub struct Replayer<'a> {
    path: &'a Path,
    child: Child,
    takes_more: bool,
}

impl Replayer<'_> {
    pub fn start(path: &Path) -> Result<Replayer<'_>, String> {
        let mut command = Command::new(path);
        command.arg("-").stdin(Stdio::piped()).stdout(Stdio::piped()).stderr(Stdio::piped());
        let child = command
            .spawn()
            .map_err(|error| format!("compare: cannot start {}: {error}", path.display()))?;
        Ok(Replayer { path, child, takes_more: true })
    }

    /// Hands over more of the record. Whether the program takes more.
    pub fn feed(&mut self, record: &[u8]) -> bool {
        let pipe = self.child.stdin.as_mut().expect("a pipe");
        self.takes_more &= pipe.write_all(record).is_ok();
        self.takes_more
    }

    /// What it found, and what it said.
    pub fn finish(mut self) -> Result<(Option<Difference>, String), String> {
        drop(self.child.stdin.take());
        let failed = |what: &str| format!("compare: {}: {what}", self.path.display());
        let output = self.child.wait_with_output().map_err(|error| failed(&error.to_string()))?;
        let text = [output.stderr, output.stdout].concat();
        let text = String::from_utf8_lossy(&text).trim_end().to_owned();
        match (output.status.code(), first_difference(&text)) {
            (Some(0), _) if self.takes_more => Ok((None, text)),
            (Some(code), Some(found)) if code != UNREADABLE => Ok((Some(found), text)),
            _ => Err(failed(&format!("{}: {text}", output.status))),
        }
    }
}

/// Makes the calls of a short record.
pub fn replay(path: &Path, record: &[u8]) -> Result<Option<Difference>, String> {
    let mut replayer = Replayer::start(path)?;
    replayer.feed(record);
    Ok(replayer.finish()?.0)
}

/// The lines of the first call that is named.
fn first_difference(text: &str) -> Option<Difference> {
    let mut named = text.lines().filter_map(|line| Some((number_in(line)?, line))).peekable();
    let number = named.peek()?.0;
    let lines: Vec<&str> =
        named.filter(|(other, _)| *other == number).map(|(_, line)| line).collect();
    let text = lines.join("\n");
    Some(Difference { number, text })
}

/// The number behind `call `.
fn number_in(line: &str) -> Option<u64> {
    let (_, behind) = line.split_once("call ")?;
    let digits = behind.split(|letter: char| !letter.is_ascii_digit()).next()?;
    digits.parse().ok()
}
