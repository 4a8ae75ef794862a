//! One board dies under the bus master, nobody dead before: how many grants later all
//! others know it, and in which round. Everything is done by the library's drives.

use shared::table::{HEAD, LIVE, STATUS};
use vcube::{line_length, Driven, Entry, Kind, OneDead, Plant, Refusal, Station, Wiring};

use crate::detection::{grant_turn, worst_case};
use crate::work::without;

/// The most grants and rounds that any case takes: each board crashes at each moment of
/// the first round of a fresh plant, with each last granted number. An error if it is more than is proved, and also if it is less, but
/// on the cube of 4 boards, since elsewhere no fewer are enough.
///
/// A crash behind a turn that is neither of that board nor a test of it is not tried: it
/// leaves the same plant as a crash before that turn, from which one grant more is counted.
pub fn search(wiring: Wiring, n: usize) -> Result<OneDead, String> {
    let (mut grants, mut rounds) = (0, 0);
    for last in 0..n {
        let mut plant = without(wiring, n, &[]);
        plant.last = Some(Station(last));
        let mut boards = Vec::from_iter(0..n);
        while plant.tally.rounds == 0 {
            for board in boards {
                let taken = crash(plant.clone(), board)?;
                grants = taken.grants.max(grants);
                rounds = taken.rounds.max(rounds);
            }
            let turn = grant_turn(&mut plant);
            boards = vec![turn.station.0];
            boards.extend(turn.tested.map(|tested| tested.0));
        }
    }
    let most = OneDead { rounds, grants };
    let Some(proved) = vcube::one_dead(wiring, n).expect("a size") else {
        return Ok(most);
    };
    let is_within = most.grants <= proved.grants && most.rounds <= proved.rounds;
    match most == proved || is_within && (wiring, n) == (Wiring::Cube, 4) {
        true => Ok(most),
        false => Err(format!("one dead of {n} boards, {wiring}: {most:?}; proved is {proved:?}")),
    }
}

/// Lets a board crash, and drives until all others know it, or says that they do not
/// within the worst case.
fn crash(mut plant: Plant, board: usize) -> Result<OneDead, String> {
    let (n, wiring) = (plant.size(), plant.wiring());
    let longest = worst_case(wiring, n) + 1;
    let (kind, station) = (Kind::Crash, Station(board));
    plant.enter(Entry { kind, station }).expect("a live board");
    let mut grants = 0;
    while plant.tally.rounds < longest {
        let rounds = plant.tally.rounds as usize + 1;
        grants += drive_to_test(&mut plant);
        if is_known(&plant, board) {
            return Ok(OneDead { rounds, grants });
        }
    }
    Err(format!("one dead of {n} boards, {wiring}: {board} is not known after {longest} rounds"))
}

/// Drives until a test is made or the round closes: the count of tests is full then.
/// Returns the grants made.
fn drive_to_test(plant: &mut Plant) -> usize {
    plant.tally.tests = u32::MAX - 1;
    let Driven { refusal, grants } = plant.drive();
    assert!(matches!(refusal, None | Some(Refusal::TallyFull)));
    grants
}

/// Whether all boards but this one are live, and suspect exactly it.
fn is_known(plant: &Plant, board: usize) -> bool {
    let n = plant.size();
    let mut row = [0; 64];
    row[board] = 1;
    let mut lines = plant.table().chunks_exact(line_length(n)).enumerate();
    lines.all(|(i, line)| i == board || line[STATUS] == LIVE && line[HEAD..] == row[..n])
}
