//! An outer trellis over an inner one: the labels of the outer are the letters of the inner.

use crate::trellis::{Branch, Trellis};

/// The most states that a trellis has.
const MOST_STATES: usize = 64;

pub fn check(outer: &Trellis, inner: &Trellis) -> Result<(), u8> {
    if outer.states() * inner.states() > MOST_STATES {
        Err(10)
    } else {
        Ok(())
    }
}

pub fn over(outer: &Trellis, inner: &Trellis) -> Trellis {
    let width = inner.states();
    Trellis::from_rule(outer.states() * width, outer.letters(), |state, letter| {
        let above = outer.branch(state / width, letter)?;
        let below = inner.branch(state % width, usize::try_from(above.label).ok()?)?;
        Some(Branch {
            next: above.next * width + below.next,
            label: below.label,
        })
    })
}

#[cfg(test)]
mod tests {
    use super::*;
    use crate::{code::Code, taps::Taps};

    fn code_over(letters: i32, taps: &[i32]) -> Trellis {
        let code = Code {
            constraint: 3,
            inversion: 0,
            generators: vec![7, 5],
        };
        let taps = Taps {
            letters,
            taps: taps.to_vec(),
        };
        over(&code.trellis(), &taps.trellis())
    }

    #[test]
    fn four_letters_have_all_branches() {
        let trellis = code_over(4, &[1]);
        assert_eq!(trellis.branch(0, 1), Some(Branch { next: 2, label: 3 }));
        assert_eq!(trellis.branch(3, 0), Some(Branch { next: 1, label: -1 }));
    }

    #[test]
    fn two_letters_lack_some() {
        let trellis = code_over(2, &[1, 1]);
        assert_eq!(trellis.states(), 8);
        assert_eq!(trellis.branch(0, 1), None);
        assert_eq!(trellis.branch(5, 1), Some(Branch { next: 7, label: 2 }));
    }
}
