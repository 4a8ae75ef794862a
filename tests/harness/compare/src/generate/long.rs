//! Long schedules, files and inputs, of which the portable C brings in one part after the other.

use shared::call::{size, word, Call};
use shared::random::Random;
use shared::schedule::Style;
use shared::table::{fresh, table_length};
use shared::wiring::Wiring;
use simulator::{SCHEDULE_LENGTH, WORDS_LENGTH};

use super::files::{self, saved_length};
use super::{schedules, texts};

pub fn call(random: &mut Random) -> Call {
    match random.below(8) {
        0 => run(random),
        1..=4 => of_file(random),
        _ => read_input(random),
    }
}

/// Thousands of entries of few boards, mostly turns.
fn run(random: &mut Random) -> Call {
    let (n, wiring) = (random.between(2, 10), random.pick(&Wiring::ALL));
    let (table, entries) = (fresh(n), random.between(3_000, 9_000));
    let style = Style::new(true, random);
    let taken = style.taken(wiring, n, &mut table.clone(), entries, random);
    let mut schedule = taken.into_flattened();
    if random.once_in(3) {
        schedules::insert_nonsense(&mut schedule, n, random);
    }
    let sheet = vec![0xEE; 2 * schedule.len() + usize::from(random.once_in(10))];
    if random.once_in(10) {
        schedule.pop();
    }
    let rounds = match random.once_in(5) {
        true => u32::MAX - random.below(20) as u32,
        false => random.below(9) as u32,
    };
    let (wiring, tests) = (size(wiring.number()), word(random.below(9) as u32));
    let given = [wiring, size(n), table, word(rounds), tests, schedule, sheet];
    Call::new("run", given, random)
}

/// A file of up to 70,000 bytes.
fn of_file(random: &mut Random) -> Call {
    let n = match random.once_in(8) {
        true => random.below(80),
        false => random.between(2, 64),
    };
    let file = files::many_fields(n, random);
    let n = n.min(64);
    match random.below(4) {
        0 => Call::new("load", [file, vec![0xEE; table_length(n)]], random),
        1 => Call::new("saved_size", [file], random),
        2 => Call::new("convert", [file, vec![0xEE; saved_length(n)]], random),
        _ => Call::new("converted_length", [file], random),
    }
}

/// Up to 4,200 entries, mostly with an odd line or none; now and then it ends anywhere.
fn read_input(random: &mut Random) -> Call {
    let entries = match random.once_in(3) {
        true => random.between(4_090, 4_101),
        false => random.below(4_200),
    };
    let odd = random.below(2 * entries + 1);
    let mut input = Vec::new();
    for line in 0..=entries {
        match line {
            _ if line == odd => input.extend(odd_line(random)),
            0 => input.extend(texts::number(1, 3, random)),
            _ => input.extend(texts::entry(random)),
        }
        input.push(b'\n');
    }
    if random.once_in(3) {
        input.pop();
    }
    if random.once_in(10) {
        input.truncate(random.below(input.len() + 1));
    }
    let schedule = SCHEDULE_LENGTH - usize::from(random.once_in(20));
    let words = WORDS_LENGTH - usize::from(random.once_in(20));
    texts::reading(input, schedule, words, random)
}

/// Mostly a line that cannot be read; now and then its last byte comes thousands of times more.
fn odd_line(random: &mut Random) -> Vec<u8> {
    let lines: [&[u8]; 20] = [
        b" ",
        b"T",
        b"L ",
        b"T 1 ",
        b"C 123",
        b"X 1",
        b"t 1",
        b"\t",
        b"T\t1",
        b"T 1\r",
        b"T1",
        b"1234",
        b"12a",
        b"T 1x",
        b"T 12\x80",
        b"\xEF\xBB\xBFT 1",
        b"1\xFF\xFE",
        b"T\xFE\xFF",
        b"C 7",
        b"99",
    ];
    let mut line = random.pick(&lines).to_vec();
    if random.once_in(3) {
        let most = random.pick(&[100, 20_000]);
        let length = line.len() + random.below(most);
        line.resize(length, line[line.len() - 1]);
    }
    line
}
