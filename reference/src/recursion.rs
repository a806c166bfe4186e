//! The second engine: step by step, with one survivor for each state.
//!
//! It serves for any number of paths. Counts are modulo 2^64.

use crate::{description::Channel, report::Report};

/// What is known of all paths from a permitted start to one state.
#[derive(Clone, Copy, Debug)]
struct Arrivals {
    paths: u64,
    cost: u64,
    ties: u64,
    second: Option<u64>,
}

impl Arrivals {
    /// The one path without steps.
    const START: Arrivals = Arrivals {
        paths: 1,
        cost: 0,
        ties: 1,
        second: None,
    };

    /// The same paths with one more step of the given cost.
    fn after(self, cost: u64) -> Arrivals {
        Arrivals {
            cost: self.cost + cost,
            second: self.second.map(|second| second + cost),
            ..self
        }
    }

    /// Both groups of paths together.
    fn with(self, other: Arrivals) -> Arrivals {
        let (cheap, dear) = if other.cost < self.cost {
            (other, self)
        } else {
            (self, other)
        };
        let ties = if cheap.cost == dear.cost {
            cheap.ties.wrapping_add(dear.ties)
        } else {
            cheap.ties
        };
        Arrivals {
            paths: self.paths.wrapping_add(other.paths),
            cost: cheap.cost,
            ties,
            second: Some(cheap.second.map_or(dear.cost, |s| s.min(dear.cost))),
        }
    }
}

/// The last branch of the path chosen for a state.
#[derive(Clone, Copy, Debug)]
struct Chosen {
    before: usize,
    letter: usize,
}

/// The report on all admissible paths; nothing where there is none.
pub fn report(channel: &Channel, samples: &[i16]) -> Option<Report> {
    let states = channel.trellis.states();
    let permits = |rule: Option<usize>, state| rule.is_none_or(|only| only == state);
    let mut row: Vec<Option<Arrivals>> = (0..states)
        .map(|state| permits(channel.start, state).then_some(Arrivals::START))
        .collect();
    let mut choices: Vec<Vec<Option<Chosen>>> = Vec::with_capacity(samples.len());
    for &sample in samples {
        let (next_row, chosen) = step(channel, &row, sample);
        row = next_row;
        choices.push(chosen);
    }

    let mut total: Option<Arrivals> = None;
    let mut last_state = 0;
    for state in (0..states).filter(|&state| permits(channel.end, state)) {
        if let Some(arrivals) = row[state] {
            // A strictly smaller cost: among equals the lowest state stays.
            if total.is_none_or(|so_far| arrivals.cost < so_far.cost) {
                last_state = state;
            }
            total = Some(total.map_or(arrivals, |so_far| so_far.with(arrivals)));
        }
    }
    let total = total?;

    let mut letters = vec![0; samples.len()];
    let mut state = last_state;
    for (letter, chosen) in letters.iter_mut().zip(&choices).rev() {
        let branch = chosen[state].expect("a path that arrived has a last branch");
        *letter = branch.letter as u8;
        state = branch.before;
    }
    Some(Report {
        paths: total.paths,
        cost: total.cost,
        ties: total.ties,
        second: total.second,
        first_state: state,
        last_state,
        letters,
    })
}

type Step = (Vec<Option<Arrivals>>, Vec<Option<Chosen>>);

/// One step from every state. Branches are taken in the order of the states before them and then of their letters,
/// so a branch that is not strictly cheaper than the chosen one comes after it in the order among ties.
fn step(channel: &Channel, row: &[Option<Arrivals>], sample: i16) -> Step {
    let mut next_row: Vec<Option<Arrivals>> = vec![None; row.len()];
    let mut chosen = vec![None; row.len()];
    for (before, arrivals) in row.iter().enumerate() {
        let Some(arrivals) = arrivals else { continue };
        for (letter, branch) in channel.trellis.branches_from(before) {
            let longer = arrivals.after(channel.measure.cost(branch.label, sample));
            let entry = &mut next_row[branch.next];
            if entry.is_none_or(|so_far| longer.cost < so_far.cost) {
                chosen[branch.next] = Some(Chosen { before, letter });
            }
            *entry = Some(entry.map_or(longer, |so_far| so_far.with(longer)));
        }
    }
    (next_row, chosen)
}

#[cfg(test)]
mod tests {
    use super::*;
    use crate::{description, measure::ERASED};

    fn erased(text: &str, count: usize) -> Report {
        let channel = description::read(text.as_bytes(), 0).expect("an accepted description");
        report(&channel, &vec![ERASED; count]).expect("a path")
    }

    #[test]
    fn counts_wrap() {
        let text = "taps 2 1 1\nmeasure square\nstart 0\nend any\n";
        assert_eq!(erased(text, 63).ties, 1 << 63);
        assert_eq!(erased(text, 64).ties, 0);
        assert_eq!(erased(text, 64).second, Some(0));
        let text = "taps 2 1 1\nmeasure square\nstart any\nend any\n";
        assert_eq!(erased(text, 62).paths, 1 << 63);
        assert_eq!(erased(text, 63).paths, 0);
    }
}
