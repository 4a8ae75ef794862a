//! Reads standard input and writes what the run program writes: on the ring
//! with the argument `--ring`, else on the cube.

use std::env;
use std::io::{self, Read, Write};

use simulator::Wiring;

fn main() -> io::Result<()> {
    let mut input = Vec::new();
    io::stdin().lock().read_to_end(&mut input)?;
    let wiring = match env::args_os().skip(1).any(|word| word == "--ring") {
        true => Wiring::Ring,
        false => Wiring::Cube,
    };
    let response = simulator::program::respond(wiring, &input);
    io::stdout().lock().write_all(response.out.as_bytes())?;
    io::stderr().lock().write_all(response.err.as_bytes())
}
