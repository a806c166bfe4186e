//! The conformance vectors: recordings, each with what detect must print.
//!
//! Each case states by hand what matters in its answer. The rest is the reference's answer.

mod blocks;
mod channels;
mod lines;
mod makers;
mod sizes;
mod ties;

use crate::{detect, folder, recording};
use std::{collections::BTreeSet, fs, io, path::Path};

/// The channel that most cases use: two states, and the next state is the letter.
const USUAL: &str = "taps 2 1 1\nmeasure square\nstart 0\nend any\n";

/// The lines that follow a trellis line in most cases.
const REST: &str = "measure square\nstart 0\nend any\n";

/// A channel without a path on one or two samples.
const STRICT: &str = "rll 2 3\ntaps 2 1\nmeasure square\nstart 0\nend 0\n";

/// A recording, and the lines that its answer must have.
struct Case {
    name: String,
    recording: Vec<u8>,
    stated: Vec<String>,
}

/// A case that is refused with this answer: number, layer, place.
fn refused(name: &str, recording: Vec<u8>, answer: (u8, u8, usize)) -> Case {
    let (number, layer, place) = answer;
    Case {
        name: format!("refused-{number:02}-{name}"),
        recording,
        stated: vec![format!("refused {number} layer {layer} place {place}")],
    }
}

/// A case that is accepted, and whose answer has these lines among others.
fn accepted(name: &str, recording: Vec<u8>, stated: &[&str]) -> Case {
    Case {
        name: name.into(),
        recording,
        stated: stated.iter().map(|line| line.to_string()).collect(),
    }
}

/// A recording whose description has a fault, with samples that are in order.
fn described(text: &str) -> Vec<u8> {
    recording::recording(text, &[0, 2, 1])
}

/// Writes all vectors to a folder, and answers how many there are.
pub fn write(folder: &Path) -> io::Result<usize> {
    let cases: Vec<Case> = [
        blocks::cases(),
        lines::cases(),
        makers::cases(),
        sizes::cases(),
        channels::cases(),
        ties::cases(),
    ]
    .into_iter()
    .flatten()
    .collect();
    fs::create_dir_all(folder)?;
    let mut names = BTreeSet::new();
    for case in &cases {
        if !names.insert(&case.name) {
            return Err(io::Error::other(format!("two cases named {}", case.name)));
        }
        let answer = detect::detect(&case.recording);
        let output = detect::text(&answer);
        for line in &case.stated {
            if !output.lines().any(|printed| printed == line) {
                return Err(io::Error::other(format!(
                    "{}: no line '{line}' in\n{output}",
                    case.name
                )));
            }
        }
        folder::write_case(folder, &case.name, &case.recording, &output)?;
    }
    Ok(cases.len())
}
