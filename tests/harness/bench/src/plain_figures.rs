//! The figures in plain Rust: totals in one loop, and lowest terms by Euclid's
//! divisor.

use vcube::{Figures, Fraction, Refusal, MOST_RESULTS};

/// Figures of a list: refusals 14, 15.
pub fn figures(results: &[u16]) -> Result<Figures, Refusal> {
    if results.is_empty() {
        return Err(Refusal::NoResult);
    }
    if results.len() > MOST_RESULTS {
        return Err(Refusal::TooManyResults);
    }
    let (mut sum, mut squares) = (0, 0);
    let (mut least, mut greatest) = (u64::MAX, 0);
    for result in results.iter().map(|result| u64::from(*result)) {
        sum += result;
        squares += result * result;
        least = least.min(result);
        greatest = greatest.max(result);
    }
    let count = results.len() as u64;
    Ok(Figures {
        count,
        least,
        greatest,
        mean: lowest_terms(sum, count),
        variance: lowest_terms(count * squares - sum * sum, count * count),
    })
}

/// The lower part is not 0.
fn lowest_terms(upper: u64, lower: u64) -> Fraction {
    let divisor = common_divisor(upper, lower);
    Fraction { upper: upper / divisor, lower: lower / divisor }
}

/// The greatest common divisor.
fn common_divisor(mut a: u64, mut b: u64) -> u64 {
    while b != 0 {
        (a, b) = (b, a % b);
    }
    a
}
