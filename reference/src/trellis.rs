//! A trellis as a table of branches.

/// What one letter does in one state.
#[derive(Clone, Copy, Debug, PartialEq, Eq)]
pub struct Branch {
    pub next: usize,
    pub label: i32,
}

/// A number of states, a number of letters, and at most one branch for each state and letter.
#[derive(Clone, Debug)]
pub struct Trellis {
    states: usize,
    letters: usize,
    branches: Vec<Option<Branch>>,
}

impl Trellis {
    /// The trellis whose branches the rule gives, asked for each state and letter.
    pub fn from_rule(
        states: usize,
        letters: usize,
        mut rule: impl FnMut(usize, usize) -> Option<Branch>,
    ) -> Self {
        let branches = (0..states * letters)
            .map(|entry| rule(entry / letters, entry % letters))
            .collect();
        Trellis {
            states,
            letters,
            branches,
        }
    }

    pub fn states(&self) -> usize {
        self.states
    }

    pub fn letters(&self) -> usize {
        self.letters
    }

    pub fn branch(&self, state: usize, letter: usize) -> Option<Branch> {
        if state < self.states && letter < self.letters {
            self.branches[state * self.letters + letter]
        } else {
            None
        }
    }

    /// The branches out of a state, each with its letter, in the order of the letters.
    pub fn branches_from(&self, state: usize) -> impl Iterator<Item = (usize, Branch)> + '_ {
        (0..self.letters).filter_map(move |letter| Some((letter, self.branch(state, letter)?)))
    }
}
