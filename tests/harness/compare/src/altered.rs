//! A comparison that cannot fail shows nothing: each number and each buffer that a function gives is altered in one call, and whoever makes that
//! call again must say so.

use std::path::Path;

use shared::call::{Answer, Call};
use shared::header::{self, Function};
use shared::record;

use crate::answer::answer;
use crate::generate::Source;
use crate::replayer;

/// Among so many calls each function has one that is accepted.
const ENOUGH: u64 = 6_000;

/// Gives how many alterations were noticed, which is all.
pub fn check(source: Source, program: &Path) -> Result<usize, String> {
    let mut noticed = 0;
    for function in header::functions() {
        let (call, right) = accepted(source, function)?;
        for altered in alterations(&call, &right) {
            let mut text = Vec::new();
            record::write(&call, &altered, &mut text);
            if replayer::replay(program, &text)?.is_none() {
                return Err(format!(
                    "compare: {} does not notice an altered answer of {}",
                    program.display(),
                    function.name
                ));
            }
            noticed += 1;
        }
    }
    Ok(noticed)
}

/// The first accepted call of a function on which each of its buffers has bytes.
fn accepted(source: Source, function: &Function) -> Result<(Call, Answer), String> {
    let calls = (1..=ENOUGH).map(|number| source.call(number));
    let mut fitting = calls.filter(|call| {
        call.function.name == function.name && !call.arguments.contains(&Vec::new())
    });
    let found = fitting.find_map(|call| {
        let answer = answer(&call);
        (answer.number == 0).then_some((call, answer))
    });
    found.ok_or_else(|| format!("compare: no call of {} is made", function.name))
}

fn alterations(call: &Call, right: &Answer) -> Vec<Answer> {
    let mut altered = vec![Answer { number: right.number + 1, ..right.clone() }];
    for (k, argument) in call.function.arguments.iter().enumerate() {
        if argument.form.is_number() || argument.form.is_read_only() {
            continue;
        }
        let mut answer = right.clone();
        if let Some(byte) = answer.arguments[k].last_mut() {
            *byte ^= 1;
        }
        altered.push(answer);
    }
    altered
}
