//! What the types add to the calls. The calls themselves, by functions and by plants, are
//! compared by tests/harness/typed.

use std::error::Error;
use std::prelude::v1::*;
use std::{format, vec};

use crate::*;

const HEADER: &str = include_str!("../../../include/vcube.h");

/// The numbers that a type has, each with its name.
fn cases<T: std::fmt::Debug>(from_number: fn(u8) -> Option<T>, number: fn(T) -> u8) -> Vec<String> {
    let known = (0..=255).filter_map(|k| from_number(k).map(|case| (k, format!("{case:?}"))));
    let cases: Vec<(u8, String)> = known.collect();
    for (k, _) in &cases {
        assert_eq!(from_number(*k).map(number), Some(*k));
    }
    cases.into_iter().map(|(k, name)| format!("{name} {k}")).collect()
}

/// The same by the header: `VCUBE_KIND_LATE_TURN = 2` is `LateTurn 2`.
fn cases_of_header(prefix: &str) -> Vec<String> {
    let lines = HEADER.lines().filter_map(|line| line.trim().strip_prefix(prefix));
    let cases = lines.filter_map(|line| line.split_once(" = "));
    let capital = |word: &str| word[..1].to_string() + &word[1..].to_lowercase();
    let name = |name: &str| name.split('_').map(capital).collect::<String>();
    let digits = |rest: &str| rest.chars().take_while(char::is_ascii_digit).collect::<String>();
    cases.map(|(words, rest)| name(words) + " " + &digits(rest)).collect()
}

#[test]
fn numbers_and_names_are_those_of_the_header() {
    let refusals = cases(Refusal::from_number, Refusal::number);
    assert_eq!((refusals.len(), refusals[24].as_str()), (25, "LineLength 25"));
    assert_eq!(refusals, cases_of_header("VCUBE_REFUSED_"));
    assert_eq!(cases(Kind::from_number, Kind::number), cases_of_header("VCUBE_KIND_"));
    assert_eq!(cases(Status::from_number, Status::number), cases_of_header("VCUBE_STATUS_"));
    assert_eq!(cases(Outcome::from_number, Outcome::number), cases_of_header("VCUBE_OUTCOME_"));
    let wirings = [Wiring::Cube, Wiring::Ring].map(|wiring| usize::from(wiring.number()));
    assert_eq!(wirings, [vcube_sys::VCUBE_WIRING_CUBE, vcube_sys::VCUBE_WIRING_RING]);
    assert_eq!(cases(Wiring::from_number, Wiring::number).len(), 2);
}

const FUNCTIONS: &str = concat!(
    include_str!("lib.rs"),
    include_str!("assignment.rs"),
    include_str!("slot.rs"),
    include_str!("lines.rs"),
    include_str!("granter.rs"),
    include_str!("lamp.rs"),
    include_str!("wait.rs"),
    include_str!("mender.rs"),
    include_str!("saved.rs"),
    include_str!("figures.rs"),
);

/// Functions, and the names that RULES has for their calls.
const CALLS: [(&str, &str); 24] = [
    ("fresh_table", "Fresh table"),
    ("group_list", "Group list"),
    ("group_stations", "Group list"),
    ("assignment", "Assignment"),
    ("assignment_entries", "Assignment"),
    ("due_distances", "Assignment"),
    ("slot", "Slot call"),
    ("row", "Row part"),
    ("line", "Row part"),
    ("run", "Run call"),
    ("grant", "Grant call"),
    ("drive", "Drive call"),
    ("doubt_lamp", "Lamp call"),
    ("wait", "Wait call"),
    ("one_dead", "One dead call"),
    ("mend", "Mend"),
    ("save", "Save"),
    ("load", "Load"),
    ("saved_size", "Saved size"),
    ("convert", "Convert"),
    ("converted_length", "Converted length"),
    ("figures", "List figures"),
    ("of", "List totals"),
    ("join", "Join"),
];

/// The numbers of the refusals that the comment on a public function names, in its order.
fn named_by(code: &str, function: &str) -> Option<Vec<u8>> {
    let begin = |open| code.split_once(&format!("pub fn {function}{open}"));
    let (before, _) = begin('(').or_else(|| begin('<'))?;
    let lines = before.lines().rev().skip(1).map(str::trim_start);
    let comment: Vec<&str> = lines.take_while(|line| line.starts_with("///")).collect();
    let errors = comment.iter().rev().skip_while(|line| **line != "/// # Errors");
    let errors = errors.take_while(|line| **line != "/// # Example");
    let names = errors.flat_map(|line| line.split("[`Refusal::").skip(1));
    let names = names.map(|text| text.split_once('`').expect("a name ends").0);
    let refusals: Vec<Refusal> = (1..=25).filter_map(Refusal::from_number).collect();
    let of = |name: &str| refusals.iter().find(|refusal| format!("{refusal:?}") == name);
    Some(names.map(|name| of(name).expect("a refusal").number()).collect())
}

/// The numbers of the errors that RULES has of a call, in its order: those behind `Errors`,
/// where `1–4` is 1 to 4.
fn of_the_rules(call: &str) -> Vec<u8> {
    let rules = include_str!("../../../docs/RULES.md");
    let (_, behind) = rules.split_once(&format!("\n- **{call}**")).expect("the call");
    let (_, errors) = behind.split_once("Error").expect("its errors");
    let (errors, _) = errors.split_once('.').expect("a sentence");
    let words =
        errors.split(|c: char| !c.is_ascii_digit() && c != '–').filter(|word| !word.is_empty());
    let number = |word: &str| word.parse::<u8>().expect("a number");
    words
        .flat_map(|word| {
            let (first, last) = word.split_once('–').unwrap_or((word, word));
            number(first)..=number(last)
        })
        .collect()
}

#[test]
fn errors_are_named_as_the_rules_have_them() {
    let mut of_plants = 0;
    for (function, call) in CALLS {
        let without = |never: &[u8]| {
            let errors = of_the_rules(call).into_iter();
            Some(errors.filter(|number| !never.contains(number)).collect())
        };
        assert_eq!(named_by(FUNCTIONS, function), without(&[24]), "{function}");
        let of_plant = named_by(include_str!("plant.rs"), function);
        if of_plant.is_some() {
            of_plants += 1;
            // A plant has a size, a table of its length, and a list of its own.
            let never: &[u8] = match function {
                "load" => &[2],
                "assignment" | "due_distances" => &[1, 2, 13],
                _ => &[24, 1, 2],
            };
            assert_eq!(of_plant, without(never), "{function} of a plant");
        }
    }
    assert_eq!(of_plants, 14);
    assert_eq!(named_by(include_str!("plant.rs"), "next"), Some(vec![9, 3, 10, 11]));
    // A board has a size, a number and a valid line: 24, 1, 9, 25 and 3 do not occur.
    for (function, call) in [
        ("next", "Board, next"),
        ("replied", "Board, replied"),
        ("not_replied", "Board, not replied"),
        ("told", "Board, told"),
        ("exchanged", "Board, exchanged"),
    ] {
        let named = named_by(include_str!("board.rs"), function).expect("a method");
        assert_eq!(named, of_the_rules(call)[5..], "{function} of a board");
    }
}

#[test]
fn codes_are_displayed_in_the_words_of_the_library() {
    fn displayed<T: ToString>(case: Option<T>) -> String {
        case.map_or(String::new(), |case| case.to_string())
    }
    for k in 0..=255 {
        let number = usize::from(k);
        assert_eq!(displayed(Refusal::from_number(k)), refusal_words(number).as_str());
        assert_eq!(displayed(Status::from_number(k)), status_words(number).as_str());
        assert_eq!(displayed(Outcome::from_number(k)), outcome_words(number).as_str());
    }
    assert_eq!(Kind::LateTurn.to_string(), "turn whose reply comes late");
    assert_eq!(Wiring::Ring.to_string(), "ring");
    assert_eq!(format!("{:?}", status_words(0)), "\"live\"");
    let error: Box<dyn Error> = Refusal::NotLive.into();
    assert_eq!(error.to_string(), refusal_words(10).as_str());
}

#[test]
fn header_crate_and_library_are_of_one_version() {
    let version = env!("CARGO_PKG_VERSION");
    assert!(HEADER.contains(&format!("#define VCUBE_VERSION \"{version}\"\n")));
    assert_eq!(version, format!("{}.{}.{}", VERSION / 10_000, VERSION / 100 % 100, VERSION % 100));
    assert_eq!(super::version(), VERSION);
}

#[test]
fn lengths_take_any_numbers() {
    let numbers = [0, 1, 2, 6, 7, 63, 64, 65, usize::MAX - 1, usize::MAX];
    for n in numbers {
        let lengths = [table_length(n), assignment_length(n), saved_length(n), report_length(n)];
        if (2..=64).contains(&n) {
            assert_eq!(lengths, [n * (n + 6), 2 * (n - 1), 19 + n * (n + 10), 4 * n * (n + 6)]);
        }
        for station in numbers.map(Station) {
            for level in numbers.map(Level) {
                assert!(group_length(n, station, level) <= LONGEST_GROUP);
            }
        }
    }
}

#[test]
fn an_entry_for_a_station_above_255_is_of_no_station() {
    for station in [255, 256, 261, usize::MAX] {
        let (kind, station) = (Kind::Crash, Station(station));
        assert_eq!(Entry { kind, station }.bytes(), [3, 255]);
    }
}

#[test]
fn lines_of_a_sheet_end_at_what_is_no_line() {
    let sheet = [0, 1, 1, 0, 1, 255, 4, 1, 0, 255, 6, 0, 0, 255, 0, 0];
    assert_eq!(sheet_lines(&sheet, 1).count(), 1);
    assert_eq!(sheet_lines(&sheet, 4).count(), 2);
    assert_eq!(sheet_lines(&sheet[..7], 2).count(), 1);
    let known = (0..=255).filter(|outcome| SheetLine::from_bytes([0, 1, *outcome, 0]).is_some());
    assert!(known.eq(0..6));
    let known = (0..=255).filter(|status| SheetLine::from_bytes([0, 1, 1, *status]).is_some());
    assert!(known.eq(0..4));
}

#[test]
fn changes_end_with_the_report() {
    assert_eq!(changes(4, &[0; 7], 2).count(), 1);
}

#[test]
fn station_255_is_the_last_number_of_none() {
    let mut table = [0; table_length(2)];
    assert_eq!(fresh_table(Wiring::Cube, 2, &mut table), Ok(()));
    for last in [None, Some(Station(255))] {
        assert_eq!(grant(Wiring::Cube, 2, &table, last), Ok(Station(0)));
        // Refused before the first grant, a drive leaves it as it was.
        let (mut full, mut given) = (Tally { rounds: u32::MAX, tests: 0 }, last);
        let driven = drive(Wiring::Cube, 2, &mut table, &mut full, &mut given);
        assert_eq!((driven.refusal, driven.grants, given), (Some(Refusal::TallyFull), 0, last));
    }
}

#[test]
fn a_plant_is_of_two_to_64_stations() {
    for wiring in [Wiring::Cube, Wiring::Ring] {
        for size in [0, 1, 65, usize::MAX / 64, usize::MAX] {
            assert_eq!(Plant::new(wiring, size), Err(Refusal::SizeOutOfRange));
            assert_eq!(Plant::from_table(wiring, size, &[]), Err(Refusal::SizeOutOfRange));
        }
        for size in 2..=MOST_STATIONS {
            let plant = Plant::new(wiring, size).expect("a size");
            assert_eq!((plant.size(), plant.wiring()), (size, wiring));
            assert_eq!(plant.statuses().map(|all| all.len()), Ok(size));
            let refused = Plant::from_table(wiring, size, &plant.table()[1..]);
            assert_eq!(refused, Err(Refusal::TableLength));
        }
    }
}

#[test]
fn a_fraction_is_printed_and_has_a_value() {
    let fraction = |upper, lower| Fraction { upper, lower };
    assert_eq!((fraction(0, 1).to_string(), fraction(3, 2).value()), ("0/1".into(), 1.5));
    assert_eq!(fraction(1269, 1024).value(), 1.239_257_812_5);
}
