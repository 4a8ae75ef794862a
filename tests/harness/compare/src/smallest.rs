//! A small call that shows what is wrong: of many calls of a function the smallest that gives something else than the simulator says.

use std::path::Path;

use shared::call::Call;
use shared::record;

use crate::answer::answer;
use crate::generate::Source;
use crate::replayer::{self, COPIES};

/// So many calls are looked through.
const CALLS: u64 = 60_000;

/// Its number, and what the program says of it, if there is one.
pub fn smallest(
    program: &Path,
    source: Source,
    function: &str,
) -> Result<Option<(u64, String)>, String> {
    let all = (1..=CALLS).map(|number| (number, source.call(number)));
    let of_function = all.filter(|(_, call)| call.function.name == function);
    let mut calls: Vec<(u64, Call)> = of_function.collect();
    calls.sort_by_key(|(_, call)| call.arguments.iter().map(Vec::len).sum::<usize>());
    let mut text = Vec::new();
    for (_, call) in &calls {
        for _ in 0..COPIES {
            record::write(call, &answer(call), &mut text);
        }
    }
    let found = replayer::replay(program, &text)?;
    let place = |number: u64| (number as usize - 1) / COPIES;
    Ok(found.map(|found| (calls[place(found.number)].0, found.text)))
}
