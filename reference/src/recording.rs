//! A recording: its blocks, their checks, and the samples that they carry.

use crate::{
    description::{self, Channel},
    fault::{Fault, Layer},
};

/// The most bytes that a recording has.
pub const MOST_BYTES: usize = 65_536;

/// The most samples that are held.
pub const MOST_SAMPLES: usize = 512;

const HEADER_BYTES: usize = 4;

/// The kinds of blocks.
pub const DESCRIPTION: u16 = 1;
pub const SAMPLES: u16 = 2;
pub const END: u16 = 3;

/// What an accepted recording holds.
#[derive(Clone, Debug)]
pub struct Held {
    pub channel: Channel,
    pub samples: Vec<i16>,
    /// Where the end block begins.
    pub end_place: usize,
}

/// A block as it stands in a recording.
struct Block<'a> {
    kind: u16,
    payload: &'a [u8],
    place: usize,
    rest: &'a [u8],
}

impl<'a> Block<'a> {
    /// The block at the front of the bytes; nothing where they are too few.
    fn split_from(bytes: &'a [u8], place: usize) -> Option<Self> {
        let (header, after) = bytes.split_at_checked(HEADER_BYTES)?;
        let length = u16::from_le_bytes([header[0], header[1]]);
        let (payload, rest) = after.split_at_checked(usize::from(length))?;
        Some(Block {
            kind: u16::from_le_bytes([header[2], header[3]]),
            payload,
            place,
            rest,
        })
    }

    /// The block's own checks, before it is handled.
    fn check(&self) -> Result<(), Fault> {
        let refuse = |number| Err(Fault::new(number, Layer::Blocks, self.place));
        let is_first = self.place == 0;
        if !(DESCRIPTION..=END).contains(&self.kind) {
            return refuse(42);
        }
        if is_first != (self.kind == DESCRIPTION) {
            return refuse(43);
        }
        let is_misshapen = match self.kind {
            SAMPLES => self.payload.len() % 2 == 1,
            END => !self.payload.is_empty(),
            _ => false,
        };
        if is_misshapen {
            return refuse(44);
        }
        if self.kind == END && !self.rest.is_empty() {
            return refuse(45);
        }
        Ok(())
    }
}

/// What a recording holds, or its first fault.
pub fn read(recording: &[u8]) -> Result<Held, Fault> {
    if recording.len() > MOST_BYTES {
        return Err(Fault::new(46, Layer::Blocks, 0));
    }
    let first = next_block(recording, 0)?;
    let channel = description::read(first.payload, HEADER_BYTES)?;
    let mut samples = Vec::new();
    let mut rest = first.rest;
    loop {
        let block = next_block(rest, recording.len() - rest.len())?;
        if block.kind == END {
            return Ok(Held {
                channel,
                samples,
                end_place: block.place,
            });
        }
        for bytes in block.payload.chunks_exact(2) {
            if samples.len() == MOST_SAMPLES {
                return Err(Fault::new(22, Layer::Calls, block.place));
            }
            samples.push(i16::from_le_bytes([bytes[0], bytes[1]]));
        }
        rest = block.rest;
    }
}

/// The block that begins at a place, after its own checks.
fn next_block(bytes: &[u8], place: usize) -> Result<Block<'_>, Fault> {
    let block = Block::split_from(bytes, place).ok_or(Fault::new(40, Layer::Blocks, place))?;
    block.check()?;
    Ok(block)
}

/// The bytes of a block. The payload has at most 65,535 bytes.
pub fn block(kind: u16, payload: &[u8]) -> Vec<u8> {
    let length = u16::try_from(payload.len()).expect("a payload that a block can carry");
    let mut bytes = Vec::with_capacity(HEADER_BYTES + payload.len());
    bytes.extend(length.to_le_bytes());
    bytes.extend(kind.to_le_bytes());
    bytes.extend(payload);
    bytes
}

/// The bytes of a description block.
pub fn description_block(text: &str) -> Vec<u8> {
    block(DESCRIPTION, text.as_bytes())
}

/// The bytes of a sample block.
pub fn sample_block(samples: &[i16]) -> Vec<u8> {
    let payload: Vec<u8> = samples.iter().flat_map(|s| s.to_le_bytes()).collect();
    block(SAMPLES, &payload)
}

/// The bytes of an end block.
pub fn end_block() -> Vec<u8> {
    block(END, &[])
}

/// The usual recording: a description, all samples in one block, the end.
pub fn recording(text: &str, samples: &[i16]) -> Vec<u8> {
    [description_block(text), sample_block(samples), end_block()].concat()
}
