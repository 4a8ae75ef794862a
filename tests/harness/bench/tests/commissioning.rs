//! The tables under "Cube or ring" and "Under a bus master, one board at a time" of
//! docs/COMMISSIONING.md, and what the page says of the first. What was tried is in
//! docs/latency.md.

use bench::detection::worst_case;
use bench::grants::bound_of_first_crash;
use shared::groups::SIZES;
use std::cmp::Ordering;
use vcube::{Plant, Tally, Wiring};

const PAGE: &str = include_str!("../../../../docs/COMMISSIONING.md");
const LATENCY: &str = include_str!("../../../../docs/latency.md");
const WIRINGS: [(Wiring, &str); 2] = [(Wiring::Cube, "cube"), (Wiring::Ring, "ring")];

/// The rows of the first table behind a heading, each as its cells.
fn rows<'a>(page: &'a str, heading: &'a str) -> impl Iterator<Item = Vec<&'a str>> {
    let is_heading = move |line: &&str| line.trim_start_matches('#').trim() == heading;
    let behind = page.lines().skip_while(move |line| !is_heading(line));
    let lines = behind.skip_while(|line| !line.starts_with('|'));
    let rows = lines.take_while(|line| line.starts_with('|'));
    rows.map(|line| line.trim_matches('|').split('|').map(str::trim).collect())
}

/// The cells of a row of a table of this page, by the words at its front.
fn cells(heading: &'static str, words: &str) -> Vec<&'static str> {
    let row = rows(PAGE, heading).find(|row| row[0] == words);
    row.expect("the row").split_off(1)
}

fn number(cell: &str) -> u32 {
    cell.replace(',', "").parse().expect("a number")
}

/// The numbers of a row under "Cube or ring".
fn row(words: &str) -> Vec<u32> {
    let cells = cells("Cube or ring", words);
    cells.into_iter().map(number).collect()
}

/// The most grants that were tried of one dead board on the cube.
fn tried(n: usize) -> u32 {
    let mut rows = rows(LATENCY, "One board under the bus master");
    let of_size = |row: Vec<&'static str>| {
        let mut sizes = row.chunks_exact(3);
        let size = sizes.find(|size| size[0] == n.to_string());
        size.map(|size| number(size[1]))
    };
    rows.find_map(of_size).expect("the size")
}

/// The tests of a round in which nobody is dead, by a drive.
fn tests(wiring: Wiring, n: usize) -> u32 {
    let mut plant = Plant::new(wiring, n).expect("a size");
    plant.drive().result().expect("a round");
    let Tally { rounds, tests } = plant.tally;
    assert_eq!(rounds, 1);
    tests
}

/// The worst case, and the tests of one round more.
fn wait(wiring: Wiring, n: usize) -> (u32, u32) {
    let rounds = worst_case(wiring, n);
    (rounds, (rounds + 1) * tests(wiring, n))
}

#[test]
fn tests_and_waits_of_both_wirings() {
    let sizes: Vec<usize> = row("boards").into_iter().map(|n| n as usize).collect();
    assert_eq!(sizes.len(), 12);
    for (wiring, name) in WIRINGS {
        let numbers = |of: fn(Wiring, usize) -> u32| -> Vec<u32> {
            sizes.iter().map(|n| of(wiring, *n)).collect()
        };
        // On the ring as many as there are boards.
        let shown = match wiring {
            Wiring::Cube => row("tests a round, cube"),
            Wiring::Ring => row("boards"),
        };
        assert_eq!(numbers(tests), shown);
        assert_eq!(numbers(worst_case), row(&format!("wait, {name}")));
    }
}

/// From 3 boards on the ring has fewer tests a round, and in L + 1 rounds. Its wait is
/// shorter at 3 and 5 boards, and the same at 2, 4, 6, 7 and 9.
#[test]
fn where_cube_and_ring_cross() {
    let compared = |order| {
        let waits = move |n: &usize| wait(Wiring::Ring, *n).0.cmp(&wait(Wiring::Cube, *n).0);
        let sizes = SIZES.filter(move |n| waits(n) == order);
        sizes.collect::<Vec<usize>>()
    };
    assert_eq!(compared(Ordering::Less), [3, 5]);
    assert_eq!(compared(Ordering::Equal), [2, 4, 6, 7, 9]);
    for n in SIZES.skip(1) {
        assert!(tests(Wiring::Ring, n) < tests(Wiring::Cube, n));
        assert!(wait(Wiring::Ring, n).1 < wait(Wiring::Cube, n).1);
    }
}

/// Grants that are proved stand as they are, those that were tried in italics.
#[test]
fn one_dead_board_under_the_bus_master() {
    let row = |words: &str| cells("Under a bus master, one board at a time", words);
    let sizes: Vec<usize> = row("boards").into_iter().map(|n| number(n) as usize).collect();
    assert_eq!(sizes.len(), 6);
    for (wiring, name) in WIRINGS {
        let of = |kind: &str| row(&format!("{name}, {kind}"));
        let grants = sizes.iter().map(|n| match vcube::one_dead(wiring, *n).expect("a size") {
            Some(most) => most.grants.to_string(),
            None => format!("*{}*", tried(*n)),
        });
        assert_eq!(of("bus master"), grants.collect::<Vec<String>>());
        let any_order = sizes.iter().map(|n| bound_of_first_crash(wiring, *n) as u32);
        let shown: Vec<u32> = of("any order").into_iter().map(number).collect();
        assert_eq!(shown, any_order.collect::<Vec<u32>>());
    }
}

/// With nobody dead before the ring has fewer grants at every size but 4; with 3 boards 6,
/// which were tried.
#[test]
fn the_quicker_wiring_under_the_bus_master() {
    for n in SIZES.skip(1) {
        let proved = vcube::one_dead(Wiring::Ring, n).expect("a size");
        let of_ring = proved.map_or(6, |most| most.grants as u32);
        assert_eq!(of_ring < tried(n), n != 4, "{n} boards");
    }
}
