//! Fractions in lowest terms.

/// In lowest terms with a positive lower part: zero is 0/1. It is 0/0 where a
/// call was refused.
#[derive(Clone, Copy, Debug, Default, PartialEq, Eq)]
pub struct Fraction {
    pub upper: u64,
    pub lower: u64,
}

impl Fraction {
    /// The fraction of this value. The lower part is not 0, and the value's
    /// lowest terms have 64 bits.
    pub(crate) fn lowest(upper: u128, lower: u128) -> Fraction {
        let divisor = common_divisor(upper, lower);
        let part = |whole: u128| u64::try_from(whole / divisor).expect("a part of 64 bits");
        Fraction {
            upper: part(upper),
            lower: part(lower),
        }
    }
}

/// The greatest common divisor, by halving and taking off. The lower part is
/// not 0.
fn common_divisor(upper: u128, lower: u128) -> u128 {
    if upper == 0 {
        return lower;
    }
    let twos = (upper | lower).trailing_zeros();
    let (mut a, mut b) = (odd_part(upper), odd_part(lower));
    while a != b {
        (a, b) = (odd_part(a.abs_diff(b)), a.min(b));
    }
    a << twos
}

/// Halves the number, which is not 0, as often as it is even.
fn odd_part(number: u128) -> u128 {
    number >> number.trailing_zeros()
}
