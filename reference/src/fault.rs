//! Why a recording is refused, and where.

use std::fmt;

/// The part of the reading in which a fault was found.
#[derive(Clone, Copy, Debug, PartialEq, Eq)]
pub enum Layer {
    Blocks = 1,
    Lines = 2,
    Makers = 3,
    Calls = 4,
}

/// A refusal's number, with its layer and its place in the recording.
#[derive(Clone, Copy, Debug, PartialEq, Eq)]
pub struct Fault {
    pub number: u8,
    pub layer: Layer,
    pub place: usize,
}

impl Fault {
    pub fn new(number: u8, layer: Layer, place: usize) -> Self {
        Fault {
            number,
            layer,
            place,
        }
    }
}

impl fmt::Display for Fault {
    fn fmt(&self, out: &mut fmt::Formatter<'_>) -> fmt::Result {
        writeln!(
            out,
            "refused {} layer {} place {}",
            self.number, self.layer as u8, self.place
        )
    }
}
