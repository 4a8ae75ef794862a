//! A call and its answer, for people.

use shared::call::{number, Answer, Call};
use shared::header::Argument;

/// The arguments, and those that are others afterwards.
pub fn call(call: &Call, answer: &Answer) -> String {
    let mut text = format!("{} gives {}\n", call.function.name, answer.number);
    let values = call.arguments.iter().zip(&answer.arguments);
    for (argument, (before, after)) in call.function.arguments.iter().zip(values) {
        text += &format!("  {}: {}\n", argument.name, shown(argument, before));
        if after != before {
            text += &format!("    afterwards: {}\n", shown(argument, after));
        }
    }
    text
}

/// Bytes in hexadecimal, other items as numbers; sixteen in a row.
fn shown(argument: &Argument, bytes: &[u8]) -> String {
    let items = bytes.chunks(argument.form.width).map(|item| match item {
        [byte] => format!("{byte:02x}"),
        _ => number(item).to_string(),
    });
    let items: Vec<String> = items.collect();
    let rows: Vec<String> = items.chunks(16).map(|row| row.join(" ")).collect();
    rows.join("\n        ")
}
