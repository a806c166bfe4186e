//! A convolutional code of rate 1/n.

use crate::trellis::{Branch, Trellis};

#[derive(Clone, Debug, PartialEq, Eq)]
pub struct Code {
    pub constraint: i32,
    pub inversion: i32,
    pub generators: Vec<i32>,
}

impl Code {
    pub fn check(&self) -> Result<(), u8> {
        if !(1..=7).contains(&self.constraint) {
            return Err(4);
        }
        if !(1..=4).contains(&self.generators.len()) {
            return Err(5);
        }
        let generators = 1..1 << self.constraint;
        if self.generators.iter().any(|g| !generators.contains(g)) {
            return Err(6);
        }
        if !(0..1 << self.generators.len()).contains(&self.inversion) {
            return Err(7);
        }
        Ok(())
    }

    /// The trellis of a code that the check accepts.
    pub fn trellis(&self) -> Trellis {
        let states = 1 << (self.constraint - 1);
        Trellis::from_rule(states, 2, |state, letter| {
            let register = letter * states + state;
            let bits = self.generators.iter().fold(0, |bits, &generator| {
                let parity = (register as i32 & generator).count_ones() % 2;
                2 * bits + parity as i32
            });
            Some(Branch {
                next: register / 2,
                label: bits ^ self.inversion,
            })
        })
    }
}

#[cfg(test)]
mod tests {
    use super::*;

    #[test]
    fn inverted() {
        let labels = |inversion| -> Vec<i32> {
            let trellis = Code {
                constraint: 3,
                inversion,
                generators: vec![7, 5],
            }
            .trellis();
            (0..8)
                .filter_map(|n| Some(trellis.branch(n / 2, n % 2)?.label))
                .collect()
        };
        assert_eq!(labels(0), [0, 3, 3, 0, 2, 1, 1, 2]);
        assert_eq!(labels(2), [2, 1, 1, 2, 0, 3, 3, 0]);
        assert_eq!(labels(1), [1, 2, 2, 1, 3, 0, 0, 3]);
    }

    #[test]
    fn sixty_four_states() {
        let trellis = Code {
            constraint: 7,
            inversion: 1,
            generators: vec![0o171, 0o133],
        }
        .trellis();
        assert_eq!(trellis.branch(0, 1), Some(Branch { next: 32, label: 2 }));
        assert_eq!(trellis.branch(63, 0), Some(Branch { next: 31, label: 1 }));
    }
}
