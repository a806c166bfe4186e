//! The first engine: every admissible path is written down, and the list is sorted.
//!
//! It follows the definitions word by word, and serves where the paths are few.

use crate::{description::Channel, report::Report};
use std::cmp::Ordering;

/// A path as far as it has come: the states that it was in, its letters, its cost.
#[derive(Clone, Debug)]
pub struct Path {
    pub states: Vec<usize>,
    pub letters: Vec<u8>,
    pub cost: u64,
}

impl Path {
    pub fn last_state(&self) -> usize {
        self.states[self.letters.len()]
    }

    /// The order among equally cheap paths: by the last state, and then from the last step to the first by the
    /// state before the step and the letter.
    pub fn order(&self, other: &Path) -> Ordering {
        let steps = |path: &Path| -> Vec<(usize, u8)> {
            let before = path.states.iter().copied();
            before.zip(path.letters.iter().copied()).rev().collect()
        };
        self.last_state()
            .cmp(&other.last_state())
            .then_with(|| steps(self).cmp(&steps(other)))
    }
}

/// All admissible paths in their order, the cheapest first; nothing where more than `limit` have to be followed.
pub fn paths(channel: &Channel, samples: &[i16], limit: usize) -> Option<Vec<Path>> {
    let permits = |rule: Option<usize>, state| rule.is_none_or(|only| only == state);
    let mut paths: Vec<Path> = (0..channel.trellis.states())
        .filter(|&state| permits(channel.start, state))
        .map(|state| Path {
            states: vec![state],
            letters: Vec::new(),
            cost: 0,
        })
        .collect();
    for &sample in samples {
        paths = paths
            .iter()
            .flat_map(|path| extensions(channel, path, sample))
            .collect();
        if paths.len() > limit {
            return None;
        }
    }
    paths.retain(|path| permits(channel.end, path.last_state()));
    paths.sort_by(|a, b| a.cost.cmp(&b.cost).then_with(|| a.order(b)));
    Some(paths)
}

fn extensions<'a>(
    channel: &'a Channel,
    path: &'a Path,
    sample: i16,
) -> impl Iterator<Item = Path> + 'a {
    let branches = channel.trellis.branches_from(path.last_state());
    branches.map(move |(letter, branch)| {
        let mut longer = path.clone();
        longer.states.push(branch.next);
        longer.letters.push(letter as u8);
        longer.cost += channel.measure.cost(branch.label, sample);
        longer
    })
}

/// The report on a list of all admissible paths in their order; nothing where there is none.
pub fn report(paths: &[Path]) -> Option<Report> {
    let (first, others) = paths.split_first()?;
    let ties = paths.iter().filter(|path| path.cost == first.cost).count();
    Some(Report {
        paths: paths.len() as u64,
        cost: first.cost,
        ties: ties as u64,
        second: others.iter().map(|path| path.cost).min(),
        first_state: first.states[0],
        last_state: first.last_state(),
        letters: first.letters.clone(),
    })
}
