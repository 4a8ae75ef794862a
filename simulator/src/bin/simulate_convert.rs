//! Reads a stored file of edition 1 from standard input and writes it converted. Where it
//! is refused it says so on standard error, writes nothing and ends with 1.

use std::io::{self, Read, Write};
use std::process::ExitCode;

use simulator::{convert, converted_length, of_refusal};

fn main() -> io::Result<ExitCode> {
    let mut old = Vec::new();
    io::stdin().lock().read_to_end(&mut old)?;
    let (mut number, length) = converted_length(&old);
    let mut new = vec![0; length];
    if number == 0 {
        number = convert(&old, &mut new);
    }
    if number == 0 {
        let mut out = io::stdout().lock();
        out.write_all(&new)?;
        out.flush()?;
        return Ok(ExitCode::SUCCESS);
    }
    let words = of_refusal(usize::from(number));
    writeln!(io::stderr().lock(), "refused {number}: {words}")?;
    Ok(ExitCode::FAILURE)
}
