//! Calls on files: saves, loads and conversions, and the questions before these.

use shared::call::{size, word, Call};
use shared::groups::{distances, SIZES};
use shared::random::Random;
use shared::table::table_length;

use super::files::{former_saved_length, former_table_length, saved_length, FIELD_HEAD};
use super::{files, mostly_cube, numbers, tables, Size};

pub fn save(n: Size, random: &mut Random) -> Call {
    let (given, table) = tables::given(mostly_cube(random), n, random);
    let asked = if SIZES.contains(&given) { given } else { n };
    let length = buffer_length(asked, random);
    let (rounds, tests) = files::tally(random);
    let saved = random.bytes(length);
    let given = [size(given), table, word(rounds), word(tests), saved];
    Call::new("save", given, random)
}

/// The length of the buffer for a saved plant: mostly the right one.
fn buffer_length(n: Size, random: &mut Random) -> usize {
    let right = saved_length(n);
    let other_forms = [table_length(n), former_saved_length(n), saved_length(n + 1)];
    // Without the heads of the lines, with the absent numbers, without the opening.
    let other_fields = [right - FIELD_HEAD * n, saved_length(distances(n)), right - FIELD_HEAD - 1];
    let wrong = [&[right - 1, right + 1, 0][..], &other_forms, &other_fields];
    numbers::length_or(right, &wrong.concat(), random)
}

pub fn load(n: Size, random: &mut Random) -> Call {
    let (n, file) = files::saved(n, random);
    let length = table_buffer(n, random);
    Call::new("load", [file, random.bytes(length)], random)
}

/// The length of the table buffer: mostly the right one.
fn table_buffer(n: Size, random: &mut Random) -> usize {
    let right = table_length(n);
    let other = table_length(random.between(*SIZES.start(), *SIZES.end()));
    let longest = table_length(*SIZES.end());
    let other_forms = [saved_length(n), former_table_length(n)];
    let wrong = [&[right - 1, right + 1, 0, other, longest][..], &other_forms];
    numbers::length_or(right, &wrong.concat(), random)
}

pub fn saved_size(n: Size, random: &mut Random) -> Call {
    let (_, file) = files::saved(n, random);
    Call::new("saved_size", [file], random)
}

pub fn convert(n: Size, random: &mut Random) -> Call {
    let (n, old) = files::stored(n, random);
    let length = buffer_length(n, random);
    Call::new("convert", [old, random.bytes(length)], random)
}

pub fn converted_length(n: Size, random: &mut Random) -> Call {
    let (_, old) = files::stored(n, random);
    Call::new("converted_length", [old], random)
}
