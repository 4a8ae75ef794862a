//! Figures over a season's trials, from the results themselves.

use crate::fraction::Fraction;
use crate::refusal::Refusal;

/// The figures over a list of results.
#[derive(Clone, Copy, Debug, Default, PartialEq, Eq)]
pub struct Figures {
    /// 0 or the refusal, with which all figures are 0.
    pub number: u8,
    pub count: u64,
    pub least: u64,
    pub greatest: u64,
    pub mean: Fraction,
    /// Over the whole batch: the mean of the squared deviations from the mean.
    pub variance: Fraction,
}

/// How many results are taken in all.
pub const MOST_RESULTS: u128 = 4_096;

impl Figures {
    pub fn refused(refusal: Refusal) -> Figures {
        Figures {
            number: refusal.number(),
            ..Figures::default()
        }
    }
}

/// Figures of a list: refusals 14, 15.
pub fn figures(results: &[u16]) -> Figures {
    admit_lists(&[results]).map_or_else(Figures::refused, of_results)
}

/// Figures of two lists: refusals 14, 15.
pub fn figures_of_two(first: &[u16], second: &[u16]) -> Figures {
    admit_lists(&[first, second]).map_or_else(Figures::refused, of_results)
}

/// The one list that holds all results of the lists.
fn admit_lists(lists: &[&[u16]]) -> Result<Vec<u16>, Refusal> {
    let count: u128 = lists.iter().map(|list| list.len() as u128).sum();
    Refusal::NoResult.when(count == 0)?;
    Refusal::TooManyResults.when(count > MOST_RESULTS)?;
    Ok(lists.concat())
}

/// The figures of a list that is neither empty nor too long.
fn of_results(mut results: Vec<u16>) -> Figures {
    results.sort_unstable();
    let count = results.len() as u128;
    let sum = results.iter().map(|x| u128::from(*x)).sum();
    // The deviation of a result from the mean is this, divided by the count.
    let deviation = |x: u16| (count * u128::from(x)).abs_diff(sum);
    let squares: u128 = results.iter().map(|x| deviation(*x).pow(2)).sum();
    Figures {
        number: 0,
        count: results.len() as u64,
        least: u64::from(results[0]),
        greatest: u64::from(results[results.len() - 1]),
        mean: Fraction::lowest(sum, count),
        variance: Fraction::lowest(squares, count.pow(3)),
    }
}
