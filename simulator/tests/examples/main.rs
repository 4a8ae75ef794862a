//! The simulator's own tests. tests/compare compares every call with the proved library, tests/programs the texts of its
//! programs with those of the proved ones; and crates/examples proves and computes examples of the definitions. What is
//! tested here is what none of these sees:
//!
//! - `documents`, `requests`, `rules`: examples of the owner's documents and of docs/RULES.md, where both implementations
//!   may have misread a rule, and the worked runs and files as the page prints them.
//! - in `documents` also what `simulate_saved` makes of a sample.
//! - `law`: what follows from the rules but is proved nowhere.

mod documents;
mod law;
mod plant;
mod requests;
mod rules;
