//! What is proved of one dead board under a bus master: where nobody is dead or
//! suspected and one station dies, when every live one suspects it and nobody else.

use crate::numbers::Size;
use crate::refusal::Refusal;
use crate::wiring::Wiring;

/// What the question for one dead board answers: zeros where nothing is proved.
#[derive(Clone, Copy, Debug, Default, PartialEq, Eq)]
pub struct OneDead {
    /// 0 or the refusal, with which all else is 0.
    pub number: u8,
    /// The closed rounds at the latest, that of the crash among them.
    pub rounds: usize,
    /// The grants at the latest, behind the crash.
    pub grants: usize,
}

/// One dead: refusals 24 and 1.
pub fn one_dead(wiring: usize, n: usize) -> OneDead {
    match admit(wiring, n) {
        Err(refusal) => OneDead {
            number: refusal.number(),
            ..OneDead::default()
        },
        Ok((wiring, size)) => proved(wiring, size).unwrap_or_default(),
    }
}

fn admit(wiring: usize, n: usize) -> Result<(Wiring, Size), Refusal> {
    Ok((Wiring::new(wiring)?, Size::new(n)?))
}

/// What is proved of this wiring and size, if anything is.
pub(crate) fn proved(wiring: Wiring, size: Size) -> Option<OneDead> {
    let n = size.count();
    let d = size.levels().count();
    let (rounds, grants) = match wiring {
        Wiring::Ring => (3, (5 * n).checked_sub(8)?),
        Wiring::Cube if n.is_power_of_two() => (2, (n - 1) * (d + 2) - 1),
        Wiring::Cube => return None,
    };
    (n >= 4).then_some(OneDead {
        number: 0,
        rounds,
        grants,
    })
}
