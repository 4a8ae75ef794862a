//! Files of both editions. A file is made of the fields of a plant; then, now and
//! then, the opening, the order, the tags, some fields or some bytes are made
//! wrong.

use shared::groups::distances;
use shared::random::Random;
use shared::table::{line_length, HEAD};
use shared::wiring::Wiring;

use super::{lines, mostly_cube, tables, Size};

/// The bytes of a field before its contents: the tag and the length.
pub const FIELD_HEAD: usize = 3;

/// The greatest length of a field's contents.
const LONGEST: usize = u16::MAX as usize;

// Tags.
const SIZE: u8 = 1;
const TALLY: u8 = 2;
const LINE: u8 = 3;
const OPENING: u8 = 4;

/// What the opening holds.
const EDITION: u8 = 2;

/// The bytes of a line before its row in edition 1.
const FORMER_HEAD: usize = 4;

/// A field of a file.
#[derive(Clone, Debug, PartialEq, Eq, PartialOrd, Ord)]
struct Field {
    tag: u8,
    contents: Vec<u8>,
}

impl Field {
    /// As a file has it.
    fn bytes(&self) -> Vec<u8> {
        let [high, low] = (self.contents.len() as u16).to_be_bytes();
        [&[self.tag, high, low], &self.contents[..]].concat()
    }

    /// The station of a line field, if it is not empty.
    fn station(&self) -> Option<usize> {
        self.contents.first().copied().map(usize::from)
    }
}

/// The length of a saved plant.
pub fn saved_length(n: usize) -> usize {
    19 + n * (n + 10)
}

/// The length of a file of edition 1.
pub fn former_saved_length(n: usize) -> usize {
    15 + n * (n + 8)
}

/// The length of a table of that time.
pub fn former_table_length(n: usize) -> usize {
    n * (n + FORMER_HEAD)
}

/// Tags that are not known, and tag 4.
const OTHER_TAGS: [u8; 9] = [0, 0, 4, 4, 5, 5, 128, 255, 255];

/// How an edition is written.
struct Edition {
    /// The bytes of a line before its row.
    head: usize,
    /// Whether there is an opening, and a second field mostly stands beside the first, so that the order is kept.
    is_second: bool,
}

const SECOND: Edition = Edition { head: HEAD, is_second: true };

const FIRST: Edition = Edition { head: FORMER_HEAD, is_second: false };

/// A file for a load, and the size of the plant that it was made of.
pub fn saved(size: Size, random: &mut Random) -> (Size, Vec<u8>) {
    match random.below(40) {
        0 => (size, few_bytes(random)),
        1 => (size, few_fields(true, random)),
        2..=7 => (2, cut_anywhere(&SECOND, random)),
        8 => (size, SECOND.bytes(size, give_former_head, random)),
        9 => (size, FIRST.bytes(size, |_| {}, random)),
        10..=13 => (size, SECOND.bytes(size, |_| {}, random)),
        _ => (size, saved_plant(size, random)),
    }
}

/// A file for the converter, and the size of the plant that it was made of.
pub fn stored(size: Size, random: &mut Random) -> (Size, Vec<u8>) {
    match random.below(40) {
        0 => (size, few_bytes(random)),
        1 => (size, few_fields(false, random)),
        2..=6 => (2, cut_anywhere(&FIRST, random)),
        7 => (size, SECOND.bytes(size, |_| {}, random)),
        8 => (size, without_opening(size, random)),
        _ => (size, stored_plant(size, random)),
    }
}

/// A tally that is often full, in one part or in both.
pub fn tally(random: &mut Random) -> (u32, u32) {
    let [rounds, tests] = [random.any() as u32, random.any() as u32];
    match random.below(8) {
        0 => (0, 0),
        1 => (u32::MAX, tests),
        2 => (rounds, u32::MAX),
        3 => (u32::MAX, u32::MAX),
        _ => (rounds, tests),
    }
}

/// Random bytes, or none.
fn few_bytes(random: &mut Random) -> Vec<u8> {
    let length = random.below(60);
    match random.once_in(6) {
        true => Vec::new(),
        false => random.bytes(length),
    }
}

/// Fields that make no plant, short ones with small tags, mostly behind the
/// opening where there has to be one.
fn few_fields(is_opened: bool, random: &mut Random) -> Vec<u8> {
    let fields = (0..random.below(6)).map(|_| Field {
        tag: random.below(5) as u8,
        contents: {
            let length = random.pick(&[0, 1, 1, 2, 7, 8, 8, 9]);
            random.bytes(length)
        },
    });
    let mut fields: Vec<Field> = fields.collect();
    if is_opened && !random.once_in(4) {
        fields.sort_unstable();
        fields.insert(0, opening());
    }
    bytes(&fields)
}

/// The fields of a plant, and many more lines than it has, mostly in order and mostly of the right lengths. The end may be cut off.
pub fn many_fields(n: usize, random: &mut Random) -> Vec<u8> {
    let mut fields = Vec::new();
    if !random.once_in(4) {
        fields.push(opening());
    }
    for (tag, length) in [(SIZE, 1), (TALLY, 8)] {
        for _ in 0..random.pick(&[1, 1, 1, 1, 1, 1, 1, 1, 0, 2]) {
            let mut contents = vec![0; length + usize::from(random.once_in(20))];
            contents[0] = if tag == SIZE { n as u8 } else { 0 };
            fields.push(Field { tag, contents });
        }
    }
    let line = 1 + random.pick(&[FORMER_HEAD, HEAD]) + n;
    let (mut station, mut made) = (0, 0);
    let most = random.between(4_756, 70_000);
    while made < most {
        let (tag, length) = match random.below(4_000) {
            0 => (random.below(6) as u8, line),
            1..130 => (LINE, random.below(20_000)),
            _ => (LINE, line),
        };
        let mut contents = vec![0; length];
        if let Some(first) = contents.first_mut() {
            *first = station;
        }
        made += FIELD_HEAD + contents.len();
        fields.push(Field { tag, contents });
        station = match random.below(2_000) {
            0 => random.byte(),
            1..1_000 => station.saturating_add(1),
            _ => station,
        };
    }
    let mut file = bytes(&fields);
    if random.once_in(4) {
        file.truncate(file.len() - random.between(1, 60));
    }
    file
}

fn opening() -> Field {
    Field { tag: OPENING, contents: vec![EDITION] }
}

/// What the writer writes for two boards, cut to any length.
fn cut_anywhere(edition: &Edition, random: &mut Random) -> Vec<u8> {
    let table = tables::any(Wiring::Cube, 2, random);
    let mut file = bytes(&edition.fields(2, &table, random));
    file.truncate(random.below(file.len()));
    file
}

impl Edition {
    /// The fields of a plant with any tally, in the writer's order.
    fn fields(&self, n: Size, table: &[u8], random: &mut Random) -> Vec<Field> {
        let field = |tag, contents| Field { tag, contents };
        let (rounds, tests) = tally(random);
        let figures = [rounds.to_be_bytes(), tests.to_be_bytes()].concat();
        let mut fields = vec![opening(), field(SIZE, vec![n as u8]), field(TALLY, figures)];
        for (own, line) in table.chunks_exact(line_length(n)).enumerate() {
            fields.push(field(LINE, [&[own as u8], &line[..self.head], &line[HEAD..]].concat()));
        }
        if !self.is_second {
            fields.remove(0);
        }
        fields
    }

    /// What the writer writes, with each field changed so.
    fn bytes(&self, size: Size, change: fn(&mut Field), random: &mut Random) -> Vec<u8> {
        let table = tables::any(mostly_cube(random), size, random);
        let mut fields = self.fields(size, &table, random);
        fields.iter_mut().for_each(change);
        bytes(&fields)
    }
}

/// A file as it was written before there was an opening, with heads of six bytes.
fn without_opening(size: Size, random: &mut Random) -> Vec<u8> {
    let table = tables::any(mostly_cube(random), size, random);
    let fields = SECOND.fields(size, &table, random);
    bytes(&fields[1..])
}

/// The fields of a plant in edition 2, with changes.
fn saved_plant(size: Size, random: &mut Random) -> Vec<u8> {
    let mut table = plant(size, random);
    if random.once_in(20) {
        lines::break_one(&mut table, size, random);
    }
    let mut fields = SECOND.fields(size, &table, random);
    spoil_some(&mut fields, size, &SECOND, random);
    if random.once_in(7) {
        reorder(&mut fields, 1, random);
    }
    spoiled_bytes(fields, random)
}

/// The fields of a plant in edition 1, with changes. Now and then a status is none.
fn stored_plant(size: Size, random: &mut Random) -> Vec<u8> {
    let mut table = plant(size, random);
    if random.once_in(24) {
        table[random.below(size) * line_length(size)] = random.pick(&[4, 4, 5, 255]);
    }
    let mut fields = FIRST.fields(size, &table, random);
    if !random.once_in(3) {
        reorder(&mut fields, 0, random);
    }
    spoil_some(&mut fields, size, &FIRST, random);
    if random.once_in(30) {
        fields.insert(0, opening());
    }
    spoiled_bytes(fields, random)
}

/// A table. Now and then the first or the last station suspects itself.
fn plant(size: Size, random: &mut Random) -> Vec<u8> {
    let mut table = tables::any(mostly_cube(random), size, random);
    if random.once_in(24) {
        let own = random.pick(&[0, size - 1]);
        table[own * line_length(size) + HEAD + own] = 1;
    }
    table
}

/// Often makes one field wrong, sometimes one more.
fn spoil_some(fields: &mut Vec<Field>, size: Size, edition: &Edition, random: &mut Random) {
    for times in [2, 6] {
        if random.once_in(times) {
            spoil(fields, size, edition, random);
        }
    }
}

/// The bytes of these fields, now and then with others between, and now and then some of them wrong.
fn spoiled_bytes(mut fields: Vec<Field>, random: &mut Random) -> Vec<u8> {
    if random.once_in(8) {
        put_between(&mut fields, random);
    }
    let mut file = bytes(&fields);
    if random.once_in(8) {
        spoil_bytes(&mut file, &fields, random);
    }
    file
}

/// A line without bytes 4 and 5.
fn give_former_head(field: &mut Field) {
    if field.tag == LINE {
        field.contents.drain(1 + FORMER_HEAD..1 + HEAD);
    }
}

fn bytes(fields: &[Field]) -> Vec<u8> {
    fields.iter().flat_map(Field::bytes).collect()
}

/// Another order of the fields behind so many: of all, or of the lines.
fn reorder(fields: &mut [Field], front: usize, random: &mut Random) {
    let places = [front, front, front + 2].map(|place| place.min(fields.len()));
    let part = &mut fields[random.pick(&places)..];
    let end = part.len();
    match random.below(8) {
        0 => part.reverse(),
        1 | 2 => random.shuffle(part),
        3 => part.rotate_left(random.pick(&[1, 2]).min(end)),
        4 => part.rotate_right(1.min(end)),
        5 if end > 0 => part.swap(random.below(end), random.below(end)),
        _ if end > 2 => {
            // Two neighbours.
            let any = random.between(2, end - 1);
            let place = random.pick(&[1, 2, any, any]);
            part.swap(place - 1, place);
        }
        _ => {}
    }
}

/// One to three fields of other tags, at any places.
fn put_between(fields: &mut Vec<Field>, random: &mut Random) {
    let pair = [random.pick(&OTHER_TAGS), random.pick(&OTHER_TAGS)];
    for _ in 0..random.pick(&[1, 1, 2, 3]) {
        let end = fields.len();
        let contents = match random.below(16) {
            0..=2 => Vec::new(),
            3 => vec![EDITION],
            // Such as are a field themselves.
            4..=6 if end > 0 => fields[random.below(end)].bytes(),
            7 => vec![random.byte(); 256 * random.between(1, 3) + random.below(12)],
            8 if random.once_in(2) => vec![random.byte(); LONGEST],
            _ => {
                let length = random.between(1, 12);
                random.bytes(length)
            }
        };
        let any = random.below(end + 1);
        let place = random.pick(&[0, 1, 2, 3, end, end, any, any, any, any]);
        let tag = random.pick(&pair);
        fields.insert(place.min(end), Field { tag, contents });
    }
}

/// Makes a field wrong: the opening, the size, the tally, or a line, often that of the first or of the last station.
fn spoil(fields: &mut Vec<Field>, size: Size, edition: &Edition, random: &mut Random) {
    let tag = random.pick(&[OPENING, OPENING, SIZE, SIZE, TALLY, TALLY, LINE, LINE, LINE, LINE]);
    let any = random.below(size);
    let station = random.pick(&[0, size - 1, any]);
    let of_tag =
        |field: &Field| field.tag == tag && (tag != LINE || field.station() == Some(station));
    let Some(place) = fields.iter().position(of_tag) else {
        return;
    };
    let contents = &mut fields[place].contents;
    match random.below(if tag == SIZE { 34 } else { 17 }) {
        0..=2 => drop(fields.remove(place)),
        3..=6 => double(fields, place, size, edition, random),
        7 => contents.clear(),
        8 => contents.push(random.pick(&[0, 2, 255])),
        9 => drop(contents.pop()),
        10 => drop(contents.drain(..contents.len().min(1))),
        11 => fields[place].tag = random.pick(&[0, 1, 3, 5, 255]),
        12 => {
            let field = fields.remove(place);
            fields.insert(random.below(fields.len() + 1), field);
        }
        // With the absent numbers.
        13 if tag == LINE => contents.resize(1 + edition.head + distances(size), 0),
        13 => fields.retain(|field| field.tag != LINE),
        // Of the size.
        17.. => *contents = vec![random.pick(&[0, 1, 65, 255])],
        _ => set_first(contents, size, random),
    }
}

/// Adds the field a second time, mostly changed: beside the first, at the end, or, more often where the order is free, anywhere.
fn double(
    fields: &mut Vec<Field>,
    place: usize,
    size: Size,
    edition: &Edition,
    random: &mut Random,
) {
    let mut second = fields[place].clone();
    match random.below(6) {
        0 => {}
        1 => {
            if let Some(last) = second.contents.last_mut() {
                *last ^= 1;
            }
        }
        2 => drop(second.contents.pop()),
        3 => second.contents.clear(),
        _ => set_first(&mut second.contents, size, random),
    }
    let (beside, end) = (place + random.below(2), fields.len());
    let place = match random.below(5) {
        0 => random.below(end + 1),
        1 => end,
        _ if edition.is_second => beside,
        _ => random.below(end + 1),
    };
    fields.insert(place, second);
}

/// Another first byte: that of an opening, a size or a station, mostly a wrong one.
fn set_first(contents: &mut [u8], size: Size, random: &mut Random) {
    if let Some(first) = contents.first_mut() {
        let near = [size as u8, size as u8 + 1, first.saturating_add(1), first.saturating_sub(1)];
        let others = [0, 1, 3, 64, 65, 128, 255, random.byte(), random.below(size) as u8];
        *first = match random.once_in(2) {
            true => random.pick(&near),
            false => random.pick(&others),
        };
    }
}

/// Cuts the file, adds bytes at its end, or changes one; often the length in
/// the head of a field.
fn spoil_bytes(file: &mut Vec<u8>, fields: &[Field], random: &mut Random) {
    match random.below(12) {
        0 => file.truncate(random.below(file.len() + 1)),
        1 => file.truncate(file.len().saturating_sub(random.between(1, 3))),
        2 => file.push(random.pick(&[0, SIZE, LINE, 4, 255])),
        3 => file.extend([random.pick(&[0, SIZE, LINE, 4, 255]), 0]),
        // A field of which nothing but the head is there, and one byte too few.
        4 => file.extend([random.pick(&[0, SIZE, LINE, 4, 255]), 0, 1]),
        5 => file.extend([random.pick(&[0, LINE, 4]), 0, 2, 0]),
        6..=10 => change_head(file, fields, random),
        _ if file.is_empty() => {}
        _ => {
            let place = random.below(file.len());
            file[place] = random.byte();
        }
    }
}

/// The head of a field, often the last one, says one byte more or less, or 256
/// more.
fn change_head(file: &mut [u8], fields: &[Field], random: &mut Random) {
    if fields.is_empty() {
        return;
    }
    let place = match random.once_in(2) {
        true => fields.len() - 1,
        false => random.below(fields.len()),
    };
    let lengths = fields[..place].iter();
    let before: usize = lengths.map(|field| FIELD_HEAD + field.contents.len()).sum();
    let head = &mut file[before + 1..][..2];
    let length = u16::from_be_bytes([head[0], head[1]]);
    let changed = length.wrapping_add(random.pick(&[1, 1, u16::MAX, u16::MAX, 256]));
    head.copy_from_slice(&changed.to_be_bytes());
}
