//! The figures over a season's trials.

use crate::{Refusal, accepted, raw};
use core::fmt;
use vcube_sys::{vcube_figures, vcube_fraction, vcube_totals};

/// The most results that figures are taken over.
pub const MOST_RESULTS: usize = vcube_sys::VCUBE_MOST_RESULTS;

/// A fraction in lowest terms: no number above 1 divides both parts, and the
/// lower part is positive. Zero is 0/1.
#[derive(Clone, Copy, Debug, PartialEq, Eq, Hash)]
pub struct Fraction {
    /// The upper part.
    pub upper: u64,
    /// The lower part, which is positive.
    pub lower: u64,
}

impl Fraction {
    /// Its value, rounded to what an `f64` holds.
    ///
    /// ```
    /// let half = vcube::Fraction { upper: 1, lower: 2 };
    /// assert_eq!((half.value(), half.to_string()), (0.5, "1/2".to_string()));
    /// ```
    #[must_use]
    pub fn value(self) -> f64 {
        self.upper as f64 / self.lower as f64
    }
}

impl fmt::Display for Fraction {
    fn fmt(&self, f: &mut fmt::Formatter<'_>) -> fmt::Result {
        write!(f, "{}/{}", self.upper, self.lower)
    }
}

/// Figures over results.
#[derive(Clone, Copy, Debug, PartialEq, Eq, Hash)]
pub struct Figures {
    /// How many results there are.
    pub count: u64,
    /// The least result.
    pub least: u64,
    /// The greatest result.
    pub greatest: u64,
    /// The mean.
    pub mean: Fraction,
    /// Over the whole batch: the mean of the squared deviations from the mean,
    /// which divides by the count and not by one less.
    pub variance: Fraction,
}

/// Figures by a call that fills them.
fn filled(call: impl FnOnce(&mut vcube_figures) -> u8) -> Result<Figures, Refusal> {
    let mut figures = vcube_figures::default();
    accepted(call(&mut figures))?;
    let vcube_figures { count, least, greatest, mean, variance } = figures;
    let fraction = |vcube_fraction { upper, lower }| Fraction { upper, lower };
    Ok(Figures { count, least, greatest, mean: fraction(mean), variance: fraction(variance) })
}

/// Totals by a call that fills them.
fn filled_totals(call: impl FnOnce(&mut vcube_totals) -> u8) -> Result<Totals, Refusal> {
    let mut totals = vcube_totals::default();
    accepted(call(&mut totals))?;
    let vcube_totals { count, sum, squares, least, greatest } = totals;
    Ok(Totals { count, sum, squares, least, greatest })
}

/// Figures of a list.
///
/// # Errors
///
/// [`Refusal::NoResult`] for an empty list; [`Refusal::TooManyResults`] for more than [`MOST_RESULTS`].
///
/// # Example
///
/// ```
/// use vcube::Fraction;
///
/// let figures = vcube::figures(&[2, 4, 4, 4, 5, 5, 7, 9])?;
/// assert_eq!((figures.count, figures.least, figures.greatest), (8, 2, 9));
/// assert_eq!(figures.mean, Fraction { upper: 5, lower: 1 });
/// assert_eq!(figures.variance, Fraction { upper: 4, lower: 1 });
/// # Ok::<(), vcube::Refusal>(())
/// ```
pub fn figures(results: &[u16]) -> Result<Figures, Refusal> {
    filled(|figures| raw::figures_of_list(results, figures))
}

/// Figures of two lists: those of the one list that holds both. Either may be
/// empty.
///
/// # Errors
///
/// [`Refusal::NoResult`] where both are empty; [`Refusal::TooManyResults`] for more than [`MOST_RESULTS`] in all.
///
/// # Example
///
/// ```
/// assert_eq!(vcube::figures_of_two(&[1], &[2])?, vcube::figures(&[1, 2])?);
/// # Ok::<(), vcube::Refusal>(())
/// ```
pub fn figures_of_two(first: &[u16], second: &[u16]) -> Result<Figures, Refusal> {
    filled(|figures| raw::figures_of_two_lists(first, second, figures))
}

/// Totals of results, kept in place of the results. The default is that of no
/// result. Any numbers can stand here, also such as no results have.
#[derive(Clone, Copy, Debug, Default, PartialEq, Eq, Hash)]
pub struct Totals {
    /// How many results there are.
    pub count: u64,
    /// The sum of the results.
    pub sum: u64,
    /// The sum of the squares.
    pub squares: u64,
    /// The least result, 0 where there is none.
    pub least: u64,
    /// The greatest result, 0 where there is none.
    pub greatest: u64,
}

impl Totals {
    /// Totals of a list, which may be empty.
    ///
    /// # Errors
    ///
    /// [`Refusal::TooManyResults`] for more than [`MOST_RESULTS`].
    ///
    /// # Example
    ///
    /// ```
    /// use vcube::Totals;
    ///
    /// let totals = Totals { count: 3, sum: 10, squares: 36, least: 2, greatest: 4 };
    /// assert_eq!(Totals::of(&[2, 4, 4])?, totals);
    /// # Ok::<(), vcube::Refusal>(())
    /// ```
    pub fn of(results: &[u16]) -> Result<Totals, Refusal> {
        filled_totals(|totals| raw::totals_of_list(results, totals))
    }

    /// Join: the totals of the results of both. Least and greatest are those of
    /// `other` where `self` has count 0, and those of `self` where only `other`
    /// has.
    ///
    /// # Errors
    ///
    /// [`Refusal::TooManyResults`] for joined totals that [`MOST_RESULTS`] results cannot have (count, sum or squares
    /// are greater).
    ///
    /// # Example
    ///
    /// ```
    /// use vcube::Totals;
    ///
    /// let mut season = Totals::default();
    /// for day in [&[2, 4, 4][..], &[], &[4, 5, 5, 7, 9]] {
    ///     season = season.join(Totals::of(day)?)?;
    /// }
    /// assert_eq!(season, Totals::of(&[2, 4, 4, 4, 5, 5, 7, 9])?);
    /// # Ok::<(), vcube::Refusal>(())
    /// ```
    pub fn join(self, other: Totals) -> Result<Totals, Refusal> {
        filled_totals(|joined| raw::join_totals(&self.handed_in(), &other.handed_in(), joined))
    }

    /// Figures of totals: those of the results that the totals were taken of.
    /// What is given of totals that no results have is said in include/vcube.h.
    ///
    /// # Errors
    ///
    /// [`Refusal::NoResult`] for a count of 0; [`Refusal::TooManyResults`] for totals that [`MOST_RESULTS`] results
    /// cannot have.
    ///
    /// # Example
    ///
    /// ```
    /// let results = [2, 4, 4, 4, 5, 5, 7, 9];
    /// assert_eq!(vcube::Totals::of(&results)?.figures()?, vcube::figures(&results)?);
    /// # Ok::<(), vcube::Refusal>(())
    /// ```
    pub fn figures(self) -> Result<Figures, Refusal> {
        filled(|figures| raw::figures_of_totals(&self.handed_in(), figures))
    }

    fn handed_in(self) -> vcube_totals {
        let Totals { count, sum, squares, least, greatest } = self;
        vcube_totals { count, sum, squares, least, greatest }
    }
}
