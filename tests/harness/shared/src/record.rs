//! Calls and what they give, one behind the other in a file or a pipe, for whatever makes the same calls elsewhere.
//!
//! A call is the name of its function in include/vcube.h with a zero byte behind it; then its arguments in the header's order, each behind a
//! letter that says what it is; then a full stop and the number that it gives, in one byte. The letters are
//!
//! ```text
//! n  a size_t, eight bytes             w  a uint32_t, four bytes
//! b  pointer to bytes and their number r  pointer to results (uint16_t) and their number
//! s  pointer to a size_t               i  pointer to a uint32_t
//! t  pointer to a struct of uint64_t
//! ```
//!
//! and in capitals (B, R, T) where the pointer is to const. What stands at a pointer is the number of its bytes, in four bytes, the bytes, and
//! then `=`, where the call leaves them as they were, or `~` and the bytes after the call. All numbers have their low byte first.

use std::io::{self, Read};

use crate::call::{number, Answer, Call};
use crate::header;

/// Adds a call and its answer.
pub fn write(call: &Call, answer: &Answer, record: &mut Vec<u8>) {
    record.extend(call.function.name.as_bytes());
    record.push(0);
    let values = call.arguments.iter().zip(&answer.arguments);
    for (argument, (before, after)) in call.function.arguments.iter().zip(values) {
        record.push(argument.form.letter);
        if argument.form.is_number() {
            record.extend(before);
            continue;
        }
        record.extend((before.len() as u32).to_le_bytes());
        record.extend(before);
        if before == after {
            record.push(b'=');
        } else {
            record.push(b'~');
            record.extend(after);
        }
    }
    record.extend([b'.', answer.number]);
}

/// Reads calls from a record.
pub struct Reader<R>(pub R);

impl<R: Read> Reader<R> {
    /// The next call, if there is one, and its answer.
    pub fn next_call(&mut self) -> io::Result<Option<(Call, Answer)>> {
        let mut name = Vec::new();
        match self.byte() {
            Err(error) if error.kind() == io::ErrorKind::UnexpectedEof => return Ok(None),
            first => name.push(first?),
        }
        while !name.ends_with(&[0]) {
            name.push(self.byte()?);
        }
        name.pop();
        let known = std::str::from_utf8(&name).ok().and_then(header::function_named);
        let function = known.ok_or_else(|| wrong("an unknown function"))?;
        let (mut before, mut after) = (Vec::new(), Vec::new());
        for argument in &function.arguments {
            if self.byte()? != argument.form.letter {
                return Err(wrong("an argument of another form"));
            }
            let length = match argument.form.is_number() {
                true => argument.form.width,
                false => number(&self.bytes(4)?) as usize,
            };
            let bytes = self.bytes(length)?;
            after.push(match argument.form.is_number() || self.byte()? == b'=' {
                true => bytes.clone(),
                false => self.bytes(length)?,
            });
            before.push(bytes);
        }
        if self.byte()? != b'.' {
            return Err(wrong("more arguments than the function has"));
        }
        let number = self.byte()?;
        let call = Call { function, arguments: before };
        let arguments = after;
        Ok(Some((call, Answer { number, arguments })))
    }

    fn byte(&mut self) -> io::Result<u8> {
        Ok(self.bytes(1)?[0])
    }

    fn bytes(&mut self, length: usize) -> io::Result<Vec<u8>> {
        let mut bytes = vec![0; length];
        self.0.read_exact(&mut bytes)?;
        Ok(bytes)
    }
}

fn wrong(what: &str) -> io::Error {
    io::Error::new(io::ErrorKind::InvalidData, what)
}
