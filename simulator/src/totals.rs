//! Totals of a list of results, their join, and figures from them.

use crate::figures::{Figures, MOST_RESULTS};
use crate::fraction::Fraction;
use crate::refusal::Refusal;

/// The totals of a list of results. As a caller hands them in, they can be
/// anything, and their number is not looked at.
#[derive(Clone, Copy, Debug, Default, PartialEq, Eq)]
pub struct Totals {
    /// 0 or the refusal, with which all else is 0.
    pub number: u8,
    pub count: u64,
    pub sum: u64,
    /// The sum of the squares.
    pub squares: u64,
    /// 0 for no result, as the greatest.
    pub least: u64,
    pub greatest: u64,
}

/// The greatest result.
const GREATEST: u128 = 65_535;

/// Count, sum and sum of squares as whole numbers.
struct Sums([u128; 3]);

/// What the most results can have.
const MOST: Sums = Sums([
    MOST_RESULTS,
    MOST_RESULTS * GREATEST,
    MOST_RESULTS * GREATEST * GREATEST,
]);

impl Sums {
    fn of(totals: &Totals) -> Sums {
        Sums([totals.count, totals.sum, totals.squares].map(u128::from))
    }

    fn and(&self, other: &Sums) -> Sums {
        Sums([0, 1, 2].map(|k| self.0[k] + other.0[k]))
    }

    /// Refusal 15.
    fn check(&self) -> Result<(), Refusal> {
        let mut pairs = self.0.iter().zip(MOST.0);
        Refusal::TooManyResults.when(pairs.any(|(sum, most)| *sum > most))
    }
}

impl Totals {
    /// Sums that were checked, with the least and the greatest result.
    fn given(sums: &Sums, least: u64, greatest: u64) -> Totals {
        let [count, sum, squares] = sums.0.map(|sum| sum as u64);
        Totals {
            number: 0,
            count,
            sum,
            squares,
            least,
            greatest,
        }
    }

    fn refused(refusal: Refusal) -> Totals {
        Totals {
            number: refusal.number(),
            ..Totals::default()
        }
    }
}

/// Totals of a list: refusal 15.
pub fn totals(results: &[u16]) -> Totals {
    let count = results.len() as u128;
    match Refusal::TooManyResults.when(count > MOST_RESULTS) {
        Ok(()) => of_results(results.to_vec()),
        Err(refusal) => Totals::refused(refusal),
    }
}

/// The totals of a list that is not too long.
fn of_results(mut results: Vec<u16>) -> Totals {
    results.sort_unstable();
    let count = results.len() as u128;
    let sum = results.iter().map(|x| u128::from(*x)).sum();
    let squares = results.iter().map(|x| u128::from(*x).pow(2)).sum();
    let [least, greatest] =
        [results.first(), results.last()].map(|result| result.map_or(0, |x| u64::from(*x)));
    Totals::given(&Sums([count, sum, squares]), least, greatest)
}

/// The join of two totals: refusal 15.
pub fn join_totals(first: &Totals, second: &Totals) -> Totals {
    let sums = Sums::of(first).and(&Sums::of(second));
    let (least, greatest) = match (first.count, second.count) {
        (0, _) => (second.least, second.greatest),
        (_, 0) => (first.least, first.greatest),
        _ => (
            first.least.min(second.least),
            first.greatest.max(second.greatest),
        ),
    };
    match sums.check() {
        Ok(()) => Totals::given(&sums, least, greatest),
        Err(refusal) => Totals::refused(refusal),
    }
}

/// Figures of totals: refusals 14, 15.
pub fn figures_of_totals(totals: &Totals) -> Figures {
    match admit_totals(totals) {
        Ok(sums) => of_sums(&sums, totals),
        Err(refusal) => Figures::refused(refusal),
    }
}

fn admit_totals(totals: &Totals) -> Result<Sums, Refusal> {
    Refusal::NoResult.when(totals.count == 0)?;
    let sums = Sums::of(totals);
    sums.check()?;
    Ok(sums)
}

/// The variance is the mean of the squares less the square of the mean. No
/// list has totals for which it is negative; it is 0 then.
fn of_sums(sums: &Sums, totals: &Totals) -> Figures {
    let [count, sum, squares] = sums.0;
    let variance = (count * squares).saturating_sub(sum * sum);
    Figures {
        number: 0,
        count: totals.count,
        least: totals.least,
        greatest: totals.greatest,
        mean: Fraction::lowest(sum, count),
        variance: Fraction::lowest(variance, count * count),
    }
}
