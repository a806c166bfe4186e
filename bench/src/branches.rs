//! The branches of a trellis, asked for once.

use crate::interfaces::{Measure, Trellis};

pub const MOST_STATES: usize = 64;
const MOST_BRANCHES: usize = 256;

/// Stands for the next state where there is no branch.
pub const ABSENT: u8 = 255;

/// The next state and the label for each state and letter, in their order.
pub struct Branches {
    count: usize,
    next: [u8; MOST_BRANCHES],
    labels: [i16; MOST_BRANCHES],
}

/// Room for what each branch costs.
pub type Costs = [u32; MOST_BRANCHES];

pub const NO_COSTS: Costs = [0; MOST_BRANCHES];

impl Branches {
    pub fn of<T: Trellis>(trellis: &T) -> Self {
        let letters = trellis.letters();
        let mut all = Branches {
            count: trellis.states() * letters,
            next: [ABSENT; MOST_BRANCHES],
            labels: [0; MOST_BRANCHES],
        };
        let places = all.next.iter_mut().zip(&mut all.labels).take(all.count);
        for (place, (next, label)) in places.enumerate() {
            if let Some(branch) = trellis.branch(place / letters, place % letters) {
                (*next, *label) = (branch.0 as u8, branch.1);
            }
        }
        all
    }

    /// The next states, those of one state together.
    pub fn next<const LETTERS: usize>(&self) -> &[[u8; LETTERS]] {
        self.next[..self.count].as_chunks().0
    }

    /// What each branch costs against a sample.
    pub fn costs<'a, M: Measure>(&self, measure: &M, sample: i16, costs: &'a mut Costs) -> &'a [u32] {
        let costs = &mut costs[..self.count];
        for (cost, &label) in costs.iter_mut().zip(&self.labels) {
            *cost = measure.cost(label, sample);
        }
        costs
    }
}
