//! Taps: the label is a weighted sum of the levels of the last letters.

use crate::trellis::{Branch, Trellis};

#[derive(Clone, Debug, PartialEq, Eq)]
pub struct Taps {
    pub letters: i32,
    pub taps: Vec<i32>,
}

impl Taps {
    pub fn check(&self) -> Result<(), u8> {
        let most = match self.letters {
            2 => 7,
            4 => 4,
            _ => return Err(1),
        };
        if !(1..=most).contains(&self.taps.len()) {
            return Err(2);
        }
        if self.taps.iter().any(|tap| !(-127..=127).contains(tap)) {
            return Err(3);
        }
        Ok(())
    }

    /// The trellis of taps that the check accepts.
    pub fn trellis(&self) -> Trellis {
        let letters = self.letters as usize;
        let memory = self.taps.len() - 1;
        let states = letters.pow(memory as u32);
        Trellis::from_rule(states, letters, |state, letter| {
            let digits = newest_first(letter, state, letters, memory);
            let label = self
                .taps
                .iter()
                .zip(&digits)
                .map(|(tap, &digit)| tap * self.level(digit))
                .sum();
            let next = digits[..memory]
                .iter()
                .fold(0, |value, digit| value * letters + digit);
            Some(Branch { next, label })
        })
    }

    fn level(&self, letter: usize) -> i32 {
        2 * letter as i32 - (self.letters - 1)
    }
}

/// The new letter and then the letters of the state, from the newest to the oldest.
fn newest_first(letter: usize, state: usize, letters: usize, memory: usize) -> Vec<usize> {
    let mut digits = vec![letter];
    digits.extend(
        (0..memory)
            .rev()
            .map(|power| state / letters.pow(power as u32) % letters),
    );
    digits
}

#[cfg(test)]
mod tests {
    use super::*;

    #[test]
    fn three_taps() {
        let trellis = Taps {
            letters: 2,
            taps: vec![4, 2, 1],
        }
        .trellis();
        assert_eq!(trellis.states(), 4);
        assert_eq!(trellis.branch(1, 0), Some(Branch { next: 0, label: -5 }));
        assert_eq!(trellis.branch(2, 1), Some(Branch { next: 3, label: 5 }));
        assert_eq!(trellis.branch(3, 0), Some(Branch { next: 1, label: -1 }));
        assert_eq!(trellis.branch(4, 0), None);
    }

    #[test]
    fn four_letters() {
        let trellis = Taps {
            letters: 4,
            taps: vec![3, -1],
        }
        .trellis();
        assert_eq!(trellis.branch(1, 3), Some(Branch { next: 3, label: 10 }));
        assert_eq!(
            trellis.branch(3, 0),
            Some(Branch {
                next: 0,
                label: -12
            })
        );
    }
}
