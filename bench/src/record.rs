//! A record of samples over a trellis and a measure: it listens, it is settled, and then it answers.

use crate::branches::MOST_STATES;
use crate::forward::forward;
use crate::interfaces::{Algebra, Measure, Refusal, Trellis};
use crate::survivors::{Choices, Ending, MOST_SAMPLES, choose, trace};

struct Record<T, M> {
    trellis: T,
    measure: M,
    start: Option<usize>,
    end: Option<usize>,
    held: usize,
    samples: [i16; MOST_SAMPLES],
    choices: Choices,
    ending: Option<Ending>,
}

pub struct Listening<T, M>(Record<T, M>);

/// A record whose choices are made. It borrows the record's memory, and the record listens again when it is let go.
pub struct Settled<'a, T, M>(&'a Record<T, M>);

/// What a report answers beside the letters.
pub struct Report {
    pub first: usize,
    pub last: usize,
    pub cost: u64,
    pub ties: u64,
    pub second: Option<u64>,
}

impl<T: Trellis, M: Measure> Listening<T, M> {
    /// A new record: from state 0 to any state, and no samples.
    pub fn new(trellis: T, measure: M) -> Self {
        Listening(Record {
            trellis,
            measure,
            start: Some(0),
            end: None,
            held: 0,
            samples: [0; MOST_SAMPLES],
            choices: [[0; MOST_STATES]; MOST_SAMPLES],
            ending: None,
        })
    }

    pub fn take(&mut self, sample: i16) -> Result<(), Refusal> {
        let record = &mut self.0;
        let place = record.samples.get_mut(record.held).ok_or(Refusal::RecordFull)?;
        *place = sample;
        record.held += 1;
        Ok(())
    }

    pub fn rewind(&mut self, n: usize) -> Result<(), Refusal> {
        if n > self.0.held {
            return Err(Refusal::RewindBeyond);
        }
        self.0.held = n;
        Ok(())
    }

    pub fn settle(&mut self) -> Settled<'_, T, M> {
        let record = &mut self.0;
        record.ending = choose(
            &record.trellis,
            &record.measure,
            &record.samples[..record.held],
            record.start,
            record.end,
            &mut record.choices,
        );
        Settled(record)
    }
}

impl<T: Trellis, M: Measure> Settled<'_, T, M> {
    pub fn report(&self, buffer: &mut [u8], place: usize) -> Result<Report, Refusal> {
        let record = self.0;
        let ending = record.ending.ok_or(Refusal::NoPath)?;
        let letters = place
            .checked_add(record.held)
            .and_then(|end| buffer.get_mut(place..end))
            .ok_or(Refusal::BufferShort)?;
        Ok(Report {
            first: trace(&record.choices, ending.last, letters),
            last: ending.last,
            cost: ending.cost,
            ties: ending.ties,
            second: ending.second,
        })
    }

    pub fn weigh<A: Algebra>(
        &self,
        algebra: &A,
        first: &mut [A::Weight],
        second: &mut [A::Weight],
    ) -> Result<A::Weight, Refusal> {
        let record = self.0;
        forward(
            &record.trellis,
            &record.measure,
            algebra,
            &record.samples[..record.held],
            record.start,
            record.end,
            first,
            second,
        )
    }
}
