//! Reads standard input as the run program does and writes the saved plant that the run
//! leaves; nothing where a line cannot be read or the run is refused.

use std::io::{self, Read, Write};

fn main() -> io::Result<()> {
    let mut input = Vec::new();
    io::stdin().lock().read_to_end(&mut input)?;
    let file = simulator::program::saved_after_run(&input);
    let mut out = io::stdout().lock();
    out.write_all(&file.unwrap_or_default())?;
    out.flush()
}
