//! The record of many calls, made by several threads in blocks.

use std::collections::BTreeMap;
use std::num::NonZero;
use std::ops::RangeInclusive;
use std::sync::mpsc::sync_channel;
use std::sync::Mutex;
use std::thread;

use shared::record;

use crate::answer;
use crate::generate::Source;

/// The calls of a block.
const CALLS: usize = 256;

/// Blocks that wait to be taken, of each thread.
const WAITING: usize = 4;

/// How many calls of each function were made for records.
pub static COUNTS: Mutex<BTreeMap<&str, u64>> = Mutex::new(BTreeMap::new());

/// Hands over the calls with these numbers, and what they give, block by block, until one is not taken.
pub fn record(source: Source, numbers: RangeInclusive<u64>, mut takes: impl FnMut(&[u8]) -> bool) {
    let threads = thread::available_parallelism().map_or(1, NonZero::get);
    let starts = numbers.clone().step_by(CALLS);
    thread::scope(|scope| {
        let made_by = |thread: usize| {
            let (sender, receiver) = sync_channel(WAITING);
            let (starts, last) = (starts.clone().skip(thread).step_by(threads), *numbers.end());
            scope.spawn(move || {
                for start in starts {
                    let numbers = start..=last.min(start + CALLS as u64 - 1);
                    if sender.send(block(source, numbers)).is_err() {
                        break;
                    }
                }
            });
            receiver
        };
        let receivers: Vec<_> = (0..threads).map(made_by).collect();
        for receiver in receivers.iter().cycle() {
            match receiver.recv() {
                Ok(block) if takes(&block) => {}
                _ => break,
            }
        }
    });
}

fn block(source: Source, numbers: RangeInclusive<u64>) -> Vec<u8> {
    let mut text = Vec::new();
    for number in numbers {
        let call = source.call(number);
        *COUNTS.lock().expect("no thread panics").entry(call.function.name).or_insert(0) += 1;
        record::write(&call, &answer::answer(&call), &mut text);
    }
    text
}
