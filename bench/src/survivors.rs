//! The survivor pass: for each state the cheapest path to it, how many cost that, and what the next one costs.

use crate::branches::{Branches, MOST_STATES, NO_COSTS};
use crate::interfaces::{Measure, Trellis};

pub const MOST_SAMPLES: usize = 512;

/// For each step and state the branch that the survivor arrives by: the state before it times 4, and its letter.
pub type Choices = [[u8; MOST_STATES]; MOST_SAMPLES];

/// A cost from here on is none. It leaves room for the costs of all samples.
const NONE: u64 = 1 << 62;

/// As many places as a byte has values, so that none is checked; absent branches lead to the last.
const PLACES: usize = 256;

/// What is known of the paths to each state.
struct Row {
    cost: [u64; PLACES],
    ties: [u64; PLACES],
    second: [u64; PLACES],
    choice: [u8; PLACES],
}

impl Row {
    fn none() -> Self {
        Row {
            cost: [NONE; PLACES],
            ties: [0; PLACES],
            second: [NONE; PLACES],
            choice: [0; PLACES],
        }
    }

    /// Before any sample: a path without cost to each permitted state.
    fn start(states: usize, start: Option<usize>) -> Self {
        let mut row = Row::none();
        for state in (0..states).filter(|&state| start.is_none_or(|only| only == state)) {
            row.cost[state] = 0;
            row.ties[state] = 1;
        }
        row
    }

    fn clear(&mut self, states: usize) {
        self.cost[..states].fill(NONE);
        self.ties[..states].fill(0);
        self.second[..states].fill(NONE);
    }

    /// More paths to a state: what the cheapest of them costs, how many cost that, and what the next one costs. A second
    /// is never below the cost that it stands beside, so one comparison finds the new one.
    #[inline(always)]
    fn add(&mut self, next: u8, cost: u64, ties: u64, second: u64, choice: u8) {
        let t = usize::from(next);
        let held = self.cost[t];
        if cost < held {
            self.cost[t] = cost;
            self.ties[t] = ties;
            self.second[t] = second.min(held);
            self.choice[t] = choice;
        } else {
            let more = if cost == held { ties } else { 0 };
            self.ties[t] = self.ties[t].wrapping_add(more);
            self.second[t] = self.second[t].min(cost);
        }
    }
}

/// One sample further.
fn advance<const LETTERS: usize>(branches: &Branches, costs: &[u32], from: &Row, to: &mut Row) {
    let branches = branches.next::<LETTERS>().iter().zip(costs.as_chunks::<LETTERS>().0);
    let known = from.cost.iter().zip(&from.ties).zip(&from.second);
    for (state, ((next, costs), ((&cost, &ties), &second))) in branches.zip(known).enumerate() {
        for letter in 0..LETTERS {
            let more = u64::from(costs[letter]);
            let choice = (4 * state + letter) as u8;
            to.add(next[letter], cost + more, ties, second + more, choice);
        }
    }
}

/// Where the cheapest path ends, what it costs, how many cost that, and what the next one costs, if there is one.
#[derive(Clone, Copy)]
pub struct Ending {
    pub last: usize,
    pub cost: u64,
    pub ties: u64,
    pub second: Option<u64>,
}

fn ending(row: &Row, states: usize, end: Option<usize>) -> Option<Ending> {
    let (mut last, mut cost, mut ties, mut second) = (0, NONE, 0u64, NONE);
    for state in (0..states).filter(|&state| end.is_none_or(|only| only == state)) {
        let new = row.cost[state];
        second = new.max(cost).min(second.min(row.second[state]));
        if new < cost {
            (last, cost, ties) = (state, new, row.ties[state]);
        } else if new == cost {
            ties = ties.wrapping_add(row.ties[state]);
        }
    }
    (cost < NONE).then_some(Ending {
        last,
        cost,
        ties,
        second: (second < NONE).then_some(second),
    })
}

/// Fills the table of choices for the samples, and answers the ending of the cheapest path.
pub fn choose<T: Trellis, M: Measure>(
    trellis: &T,
    measure: &M,
    samples: &[i16],
    start: Option<usize>,
    end: Option<usize>,
    table: &mut Choices,
) -> Option<Ending> {
    let states = trellis.states();
    let branches = Branches::of(trellis);
    let mut room = NO_COSTS;
    let (mut one, mut two) = (Row::start(states, start), Row::none());
    let (mut from, mut to) = (&mut one, &mut two);
    for (&sample, choices) in samples.iter().zip(table) {
        let costs = branches.costs(measure, sample, &mut room);
        to.clear(states);
        match trellis.letters() {
            1 => advance::<1>(&branches, costs, from, to),
            2 => advance::<2>(&branches, costs, from, to),
            3 => advance::<3>(&branches, costs, from, to),
            _ => advance::<4>(&branches, costs, from, to),
        }
        choices.copy_from_slice(&to.choice[..MOST_STATES]);
        std::mem::swap(&mut from, &mut to);
    }
    ending(from, states, end)
}

/// Goes back from the last state, writes a letter for each step, and answers the first state.
pub fn trace(table: &Choices, last: usize, letters: &mut [u8]) -> usize {
    let steps = &table[..letters.len()];
    let mut state = last % MOST_STATES;
    for (letter, choices) in letters.iter_mut().zip(steps).rev() {
        let byte = choices[state];
        *letter = byte % 4;
        state = usize::from(byte / 4);
    }
    state
}
