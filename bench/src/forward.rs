//! The forward pass: sums over all paths, in any algebra.

use crate::branches::{Branches, NO_COSTS};
use crate::interfaces::{Algebra, Measure, Refusal, Trellis};

fn permits(anchor: Option<usize>, state: usize) -> bool {
    anchor.is_none_or(|only| only == state)
}

/// Adds to a row what all branches bring of the weights in another. An absent branch leads past the row.
fn advance<const LETTERS: usize, A: Algebra>(
    branches: &Branches,
    algebra: &A,
    costs: &[u32],
    from: &[A::Weight],
    to: &mut [A::Weight],
) {
    let branches = branches.next::<LETTERS>().iter().zip(costs.as_chunks::<LETTERS>().0);
    for ((next, costs), &weight) in branches.zip(from) {
        for letter in 0..LETTERS {
            if let Some(sum) = to.get_mut(usize::from(next[letter])) {
                let brought = algebra.times(weight, algebra.weight(costs[letter]));
                *sum = algebra.plus(*sum, brought);
            }
        }
    }
}

/// All samples, over rows of one entry for each state; the sums are then in the first row, and zeros in the second.
fn advance_all<T: Trellis, M: Measure, A: Algebra>(
    trellis: &T,
    measure: &M,
    algebra: &A,
    samples: &[i16],
    first: &mut [A::Weight],
    second: &mut [A::Weight],
) {
    let branches = Branches::of(trellis);
    let mut room = NO_COSTS;
    let (mut from, mut to) = (&mut *first, &mut *second);
    for &sample in samples {
        let costs = branches.costs(measure, sample, &mut room);
        match trellis.letters() {
            1 => advance::<1, A>(&branches, algebra, costs, from, to),
            2 => advance::<2, A>(&branches, algebra, costs, from, to),
            3 => advance::<3, A>(&branches, algebra, costs, from, to),
            _ => advance::<4, A>(&branches, algebra, costs, from, to),
        }
        std::mem::swap(&mut from, &mut to);
        to.fill(algebra.zero());
    }
    if samples.len() % 2 == 1 {
        first.copy_from_slice(second);
        second.fill(algebra.zero());
    }
}

/// The sum of the weights of all admissible paths.
#[allow(clippy::too_many_arguments)]
pub fn forward<T: Trellis, M: Measure, A: Algebra>(
    trellis: &T,
    measure: &M,
    algebra: &A,
    samples: &[i16],
    start: Option<usize>,
    end: Option<usize>,
    first: &mut [A::Weight],
    second: &mut [A::Weight],
) -> Result<A::Weight, Refusal> {
    let states = trellis.states();
    let first = first.get_mut(..states).ok_or(Refusal::RowShort)?;
    let second = second.get_mut(..states).ok_or(Refusal::RowShort)?;
    for (state, weight) in first.iter_mut().enumerate() {
        *weight = if permits(start, state) {
            algebra.one()
        } else {
            algebra.zero()
        };
    }
    second.fill(algebra.zero());
    advance_all(trellis, measure, algebra, samples, first, second);
    let ends = first.iter().enumerate().filter(|&(state, _)| permits(end, state));
    Ok(ends.fold(algebra.zero(), |sum, (_, &weight)| algebra.plus(sum, weight)))
}
