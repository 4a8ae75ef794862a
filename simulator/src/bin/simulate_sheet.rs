//! Takes arguments and prints what the sheet program prints for them.

use std::env;
use std::ffi::OsString;
use std::io::{self, Write};

fn main() -> io::Result<()> {
    let arguments = env::args_os().skip(1).map(OsString::into_encoded_bytes);
    let arguments: Vec<Vec<u8>> = arguments.collect();
    let parts: Vec<&[u8]> = arguments.iter().map(Vec::as_slice).collect();
    let response = simulator::sheet::respond(&parts);
    io::stdout().lock().write_all(response.out.as_bytes())?;
    io::stderr().lock().write_all(response.err.as_bytes())
}
