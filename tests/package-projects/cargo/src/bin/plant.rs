//! The same with a plant that owns its table.

use vcube::{Entry, Kind, Plant, Refusal, Station, Wiring};

fn main() -> Result<(), Refusal> {
    assert_eq!(vcube::version(), vcube::VERSION);
    let mut plant = Plant::new(Wiring::Cube, 8)?;
    plant.enter(Entry {
        kind: Kind::Crash,
        station: Station(5),
    })?;
    plant.drive().result()?;
    assert!(plant.line(Station(0))?.suspects(Station(5)));
    println!(
        "after {} tests station 0 suspects station 5",
        plant.tally.tests
    );
    Ok(())
}
