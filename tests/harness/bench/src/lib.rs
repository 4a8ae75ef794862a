//! A benchmark of the library's calls beside plain Rust, and an
//! experiment on how many rounds and grants pass until the dead boards are known.

#![forbid(unsafe_code)]

use std::env;
use std::process::ExitCode;

pub mod detection;
pub mod expert;
pub mod grants;
pub mod measure;
pub mod one_dead;
pub mod plain;
pub mod plain_drive;
pub mod plain_figures;
pub mod plain_input;
pub mod plain_lamp;
pub mod plain_mend;
pub mod plain_saved;
pub mod plain_slot;
pub mod work;

/// Does the work of a program whose only option is `--quick`, or says what is wrong.
pub fn run(name: &str, work: impl FnOnce(bool) -> Result<(), String>) -> ExitCode {
    let words: Vec<String> = env::args().skip(1).collect();
    if !words.is_empty() && words != ["--quick"] {
        eprintln!("usage: {name} [--quick]");
        return ExitCode::from(2);
    }
    match work(!words.is_empty()) {
        Ok(()) => ExitCode::SUCCESS,
        Err(error) => {
            eprintln!("{name}: {error}");
            ExitCode::FAILURE
        }
    }
}
