//! A call is data: its function, and for each argument bytes. Those of a number are the number, those of a pointer what stands there, items
//! one behind the other. Numbers have their low byte first; those of `size_t` have eight bytes, the others as many as in C.

use crate::random::Random;

use crate::header::{self, Function};

#[derive(Clone, Debug)]
pub struct Call {
    pub function: &'static Function,
    pub arguments: Vec<Vec<u8>>,
}

/// What a call gives: its number, and the arguments as they are after it.
#[derive(Clone, Debug, PartialEq, Eq)]
pub struct Answer {
    pub number: u8,
    pub arguments: Vec<Vec<u8>>,
}

impl Call {
    /// A call of the function with this name, vcube_ left out. The places that it only writes, behind the other arguments, hold anything.
    pub fn new<const N: usize>(name: &str, given: [Vec<u8>; N], random: &mut Random) -> Call {
        let function = header::function_named(&format!("vcube_{name}"));
        let function = function.expect("a function of the header");
        let mut arguments = Vec::from(given);
        for place in &function.arguments[N..] {
            assert!(place.form.is_place(), "arguments of {name}");
            arguments.push(random.bytes(place.items * place.form.width));
        }
        Call { function, arguments }
    }
}

/// The bytes of a `size_t`.
pub fn size(number: usize) -> Vec<u8> {
    (number as u64).to_le_bytes().into()
}

/// The bytes of a `uint32_t`.
pub fn word(number: u32) -> Vec<u8> {
    number.to_le_bytes().into()
}

/// The number of at most eight bytes.
pub fn number(bytes: &[u8]) -> u64 {
    let digits = bytes.iter().rev();
    digits.fold(0, |number, byte| number << 8 | u64::from(*byte))
}

/// The bytes of results.
pub fn results(results: &[u16]) -> Vec<u8> {
    results.iter().flat_map(|result| result.to_le_bytes()).collect()
}

/// The bytes of a struct of `uint64_t`.
pub fn members(members: &[u64]) -> Vec<u8> {
    members.iter().flat_map(|member| member.to_le_bytes()).collect()
}
