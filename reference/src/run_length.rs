//! A run-length limit: at least d and at most k zeros between two ones.

use crate::trellis::{Branch, Trellis};

#[derive(Clone, Debug, PartialEq, Eq)]
pub struct RunLength {
    pub least: i32,
    pub most: i32,
}

impl RunLength {
    pub fn check(&self) -> Result<(), u8> {
        if 0 <= self.least && self.least <= self.most && self.most <= 63 {
            Ok(())
        } else {
            Err(8)
        }
    }

    /// The trellis of a limit that the check accepts.
    pub fn trellis(&self) -> Trellis {
        let (least, most) = (self.least as usize, self.most as usize);
        Trellis::from_rule(most + 1, 2, |zeros, letter| match letter {
            1 if zeros >= least => Some(Branch { next: 0, label: 1 }),
            0 if zeros < most => Some(Branch {
                next: zeros + 1,
                label: 0,
            }),
            _ => None,
        })
    }
}
