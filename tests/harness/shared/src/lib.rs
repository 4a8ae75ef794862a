//! What the programs of the harness share: random numbers, sizes and groups, wirings, a view of a table's lines, schedules,
//! the slowest plants; and calls and their record.

#![forbid(unsafe_code)]

pub mod call;
pub mod groups;
pub mod header;
pub mod random;
pub mod record;
pub mod schedule;
pub mod slowest;
pub mod table;
pub mod wiring;
