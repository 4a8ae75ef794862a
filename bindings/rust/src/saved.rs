//! Saving a plant to the panel, and converting files of edition 1.

use crate::{Refusal, Tally, accepted, raw};

/// What a load answers beside the table.
#[derive(Clone, Copy, Debug, PartialEq, Eq, Hash)]
pub struct Loaded {
    /// The size of the plant.
    pub n: usize,
    /// Its tally.
    pub tally: Tally,
}

/// The length of a saved plant of n stations: the opening of 4 bytes, a size field
/// of 4, a tally field of 11, and n line fields of n + 10.
/// It has no meaning for a size that the library refuses.
///
/// ```
/// assert_eq!(vcube::saved_length(8), 163);
/// ```
#[must_use]
pub const fn saved_length(n: usize) -> usize {
    n.wrapping_mul(n.wrapping_add(10)).wrapping_add(19)
}

/// Save: writes the opening, the size, the tally and then the lines, ascending, as
/// fields into a buffer of the length [`saved_length`]. The last granted number of
/// a bus master is not saved.
///
/// # Errors
///
/// [`Refusal::SizeOutOfRange`], [`Refusal::TableLength`], [`Refusal::LineRule`], [`Refusal::RoundNotClosed`]
/// or [`Refusal::ListLength`].
///
/// # Example
///
/// ```
/// use vcube::{Tally, Wiring};
///
/// let mut table = [0; vcube::table_length(2)];
/// vcube::fresh_table(Wiring::Cube, 2, &mut table)?;
/// let mut saved = [0; vcube::saved_length(2)];
/// vcube::save(2, &table, Tally { rounds: 128, tests: 256 }, &mut saved)?;
/// assert_eq!(saved[..8], [4, 0, 1, 2, 1, 0, 1, 2]);
/// assert_eq!(saved[8..19], [2, 0, 8, 0, 0, 0, 128, 0, 0, 1, 0]);
/// assert_eq!(saved[19..31], [3, 0, 9, 0, 0, 1, 0, 0, 255, 0, 0, 0]);
/// assert_eq!(saved[31..], [3, 0, 9, 1, 0, 1, 0, 0, 255, 0, 0, 0]);
/// # Ok::<(), vcube::Refusal>(())
/// ```
pub fn save(n: usize, table: &[u8], tally: Tally, saved: &mut [u8]) -> Result<(), Refusal> {
    let Tally { rounds, tests } = tally;
    accepted(raw::save(n, table, rounds, tests, saved))
}

/// Load: restores the table and gives size and tally. A plant has one file: what
/// is taken is just what [`save`] writes of it. The table has the length
/// [`table_length`](crate::table_length) of the saved plant's size, which
/// [`saved_size`] gives beforehand. A file without the opening, as they were saved
/// before version 0.11, has none: [`convert`] takes those of edition 1.
///
/// # Errors
///
/// [`Refusal::FieldPastEnd`], [`Refusal::NoOpening`], [`Refusal::FieldOrder`], [`Refusal::SizeOrTallyField`],
/// [`Refusal::SizeOutOfRange`], [`Refusal::LineField`], [`Refusal::TableLength`], [`Refusal::LineRule`] or
/// [`Refusal::RoundNotClosed`].
///
/// # Example
///
/// ```
/// use vcube::{Loaded, Tally, Wiring};
///
/// let mut table = [0; vcube::table_length(8)];
/// vcube::fresh_table(Wiring::Cube, 8, &mut table)?;
/// let tally = Tally { rounds: 128, tests: 256 };
/// let mut saved = [0; vcube::saved_length(8)];
/// vcube::save(8, &table, tally, &mut saved)?;
///
/// let mut restored = vec![0; vcube::table_length(vcube::saved_size(&saved)?)];
/// assert_eq!(vcube::load(&saved, &mut restored)?, Loaded { n: 8, tally });
/// assert_eq!(restored, table);
/// # Ok::<(), vcube::Refusal>(())
/// ```
pub fn load(saved: &[u8], table: &mut [u8]) -> Result<Loaded, Refusal> {
    let (mut n, mut tally) = (0, Tally::default());
    let Tally { rounds, tests } = &mut tally;
    accepted(raw::load(saved, table, &mut n, rounds, tests)).map(|()| Loaded { n, tally })
}

/// The size of a saved plant, which says how long a table has to be lent for
/// [`load`]. What the line fields hold is not looked at, but for the order of their
/// stations.
///
/// # Errors
///
/// [`Refusal::FieldPastEnd`], [`Refusal::NoOpening`], [`Refusal::FieldOrder`], [`Refusal::SizeOrTallyField`]
/// or [`Refusal::SizeOutOfRange`].
///
/// # Example
///
/// ```
/// use vcube::Refusal;
///
/// assert_eq!(vcube::saved_size(&[4, 0, 1, 2]), Err(Refusal::SizeOrTallyField));
/// let saved = [4, 0, 1, 2, 1, 0, 1, 8, 2, 0, 8, 0, 0, 0, 0, 0, 0, 0, 0];
/// assert_eq!(vcube::saved_size(&saved), Ok(8));
/// ```
pub fn saved_size(saved: &[u8]) -> Result<usize, Refusal> {
    let mut n = 0;
    accepted(raw::saved_size(saved, &mut n)).map(|()| n)
}

/// Convert: writes a file of edition 1 anew as a saved plant, into a buffer of the
/// length [`converted_length`]. Edition 1 is what version 0.8 saved: heads of four
/// bytes, no opening, fields in any order. Where a station was told to leave it is
/// not recorded by whom, and rounds ago begin at 0.
///
/// # Errors
///
/// [`Refusal::FieldPastEnd`], [`Refusal::FieldOrder`], [`Refusal::SizeOrTallyField`],
/// [`Refusal::SizeOutOfRange`], [`Refusal::LineField`], [`Refusal::LineRule`], [`Refusal::RoundNotClosed`] or
/// [`Refusal::ListLength`].
///
/// # Example
///
/// ```
/// // Two stations, of which the second was told to leave.
/// let mut old = vec![1, 0, 1, 2, 2, 0, 8, 0, 0, 0, 0, 0, 0, 0, 1];
/// old.extend([3, 0, 7, 0, 0, 2, 0, 1, 0, 0, 3, 0, 7, 1, 2, 1, 0, 0, 1, 0]);
/// let mut saved = vec![0; vcube::converted_length(&old)?];
/// vcube::convert(&old, &mut saved)?;
/// assert_eq!(saved[19..31], [3, 0, 9, 0, 0, 2, 0, 1, 255, 0, 0, 0]);
/// assert_eq!(saved[31..], [3, 0, 9, 1, 2, 1, 0, 0, 254, 0, 1, 0]);
/// # Ok::<(), vcube::Refusal>(())
/// ```
pub fn convert(old: &[u8], saved: &mut [u8]) -> Result<(), Refusal> {
    accepted(raw::convert(old, saved))
}

/// The length of the saved plant that [`convert`] makes of a file of edition 1.
/// What the line fields hold is not looked at.
///
/// # Errors
///
/// [`Refusal::FieldPastEnd`], [`Refusal::FieldOrder`], [`Refusal::SizeOrTallyField`] or
/// [`Refusal::SizeOutOfRange`].
///
/// # Example
///
/// ```
/// let old = [1, 0, 1, 8, 2, 0, 8, 0, 0, 0, 0, 0, 0, 0, 0];
/// assert_eq!(vcube::converted_length(&old)?, vcube::saved_length(8));
/// # Ok::<(), vcube::Refusal>(())
/// ```
pub fn converted_length(old: &[u8]) -> Result<usize, Refusal> {
    let mut length = 0;
    accepted(raw::converted_length(old, &mut length)).map(|()| length)
}
