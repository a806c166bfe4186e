//! What the program detect answers to a recording.

use crate::{
    fault::{Fault, Layer},
    listing,
    recording::{self, Held},
    recursion,
    report::Report,
};

/// Up to so many paths the list of all paths answers, and above it the recursion.
const FEW_PATHS: usize = 1_000;

/// The report on a recording, or its first fault.
pub fn detect(recording: &[u8]) -> Result<Report, Fault> {
    let Held {
        channel,
        samples,
        end_place,
    } = recording::read(recording)?;
    match listing::paths(&channel, &samples, FEW_PATHS) {
        Some(paths) => listing::report(&paths),
        None => recursion::report(&channel, &samples),
    }
    .ok_or(Fault::new(24, Layer::Calls, end_place))
}

/// The text that detect prints.
pub fn text(answer: &Result<Report, Fault>) -> String {
    match answer {
        Ok(report) => report.to_string(),
        Err(fault) => fault.to_string(),
    }
}

/// The status that detect ends with.
pub fn status(answer: &Result<Report, Fault>) -> u8 {
    u8::from(answer.is_err())
}
