//! The frames of a run, one after another on one record.

use crate::branches::MOST_STATES;
use crate::channels::Counting;
use crate::interfaces::{Measure, Refusal, Trellis};
use crate::record::{Listening, Settled};
use crate::signal::{Noise, Signal};
use crate::survivors::MOST_SAMPLES;

/// What is done with each frame. Every part takes the samples, and all but the first settle.
#[derive(Clone, Copy, PartialEq)]
pub enum Part {
    Samples,
    Settle,
    Report,
    Weigh,
    Whole,
}

#[derive(Clone, Copy)]
pub struct Plan {
    pub frames: u64,
    pub samples: usize,
    pub part: Part,
}

struct Checksum(u64);

impl Checksum {
    fn add(&mut self, x: u64) {
        self.0 = self.0.wrapping_mul(1099511628211).wrapping_add(x);
    }
}

fn take_frame<T: Trellis, M: Measure>(
    listening: &mut Listening<T, M>,
    signal: &mut Signal<T>,
    samples: usize,
) -> Result<(), Refusal> {
    listening.rewind(0)?;
    signal.restart();
    for _ in 0..samples {
        listening.take(signal.sample())?;
    }
    Ok(())
}

fn ask_report<T: Trellis, M: Measure>(
    settled: &Settled<'_, T, M>,
    samples: usize,
    sum: &mut Checksum,
) -> Result<(), Refusal> {
    let mut letters = [0; MOST_SAMPLES];
    let report = settled.report(&mut letters, 0)?;
    sum.add(report.first as u64);
    sum.add(report.last as u64);
    sum.add(report.cost);
    sum.add(report.ties);
    sum.add(report.second.unwrap_or(u64::MAX));
    for &letter in letters.iter().take(samples) {
        sum.add(u64::from(letter));
    }
    Ok(())
}

fn ask_weigh<T: Trellis, M: Measure>(settled: &Settled<'_, T, M>, sum: &mut Checksum) -> Result<(), Refusal> {
    let mut first = [0; MOST_STATES];
    let mut second = [0; MOST_STATES];
    sum.add(settled.weigh(&Counting, &mut first, &mut second)?);
    Ok(())
}

fn ask<T: Trellis, M: Measure>(settled: &Settled<'_, T, M>, plan: Plan, sum: &mut Checksum) -> Result<(), Refusal> {
    match plan.part {
        Part::Samples => {}
        // a report whose letters find no room: only whether there is a path
        Part::Settle => {
            if let Err(refusal) = settled.report(&mut [], 0) {
                sum.add(refusal as u64);
            }
        }
        Part::Report => ask_report(settled, plan.samples, sum)?,
        Part::Weigh => ask_weigh(settled, sum)?,
        Part::Whole => {
            ask_report(settled, plan.samples, sum)?;
            ask_weigh(settled, sum)?;
        }
    }
    Ok(())
}

/// The frames of a plan, on one record that is settled anew for each; answers the checksum.
pub fn run<T: Trellis + Copy, M: Measure>(trellis: T, measure: M, noise: Noise, plan: Plan) -> Result<u64, Refusal> {
    let mut sum = Checksum(0);
    let mut signal = Signal::new(trellis, noise);
    let mut listening = Listening::new(trellis, measure);
    for _ in 0..plan.frames {
        take_frame(&mut listening, &mut signal, plan.samples)?;
        if plan.part == Part::Samples {
            continue;
        }
        let settled = listening.settle();
        ask(&settled, plan, &mut sum)?;
    }
    Ok(sum.0)
}
