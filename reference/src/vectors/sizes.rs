//! As long as can be, and longer: bytes and samples.

use super::{accepted, refused, Case, USUAL};
use crate::recording::{
    description_block, end_block, recording, sample_block, MOST_BYTES, MOST_SAMPLES,
};

/// The usual channel with spaces in its first line, in a recording of so many bytes that has no samples.
fn spaced(total: usize) -> Vec<u8> {
    let spaces = " ".repeat(1 + total - 8 - USUAL.len());
    [
        description_block(&USUAL.replacen(' ', &spaces, 1)),
        end_block(),
    ]
    .concat()
}

/// The usual channel with three samples among empty sample blocks, in the largest recording.
fn many_blocks() -> Vec<u8> {
    let samples = sample_block(&[0, 2, 1]);
    let description = description_block(USUAL);
    let empty_blocks = (MOST_BYTES - description.len() - samples.len() - 4) / 4;
    let before = sample_block(&[]).repeat(empty_blocks / 2);
    let after = sample_block(&[]).repeat(empty_blocks - empty_blocks / 2);
    [description, before, samples, after, end_block()].concat()
}

fn usual(rest: &[Vec<u8>]) -> Vec<u8> {
    [description_block(USUAL), rest.concat()].concat()
}

pub fn cases() -> Vec<Case> {
    let end = end_block();
    let empty = sample_block(&[]);
    // Samples that no two paths match equally well: the letters 1 0 0 1 0 0 .. without noise.
    let pattern: Vec<i16> = (0..600).map(|step| [0, 0, -2][step % 3]).collect();
    let one_each: Vec<Vec<u8>> = pattern[..MOST_SAMPLES]
        .chunks(1)
        .map(sample_block)
        .collect();
    let full = sample_block(&pattern[..MOST_SAMPLES]);
    let mut followed = spaced(MOST_BYTES);
    followed.push(0);
    let mut filled = recording(USUAL, &[0, 2, 1]);
    filled.resize(MOST_BYTES, 0);
    vec![
        accepted(
            "size-65536-spaces",
            spaced(MOST_BYTES),
            &["samples 0", "letters"],
        ),
        accepted(
            "size-65536-blocks",
            many_blocks(),
            &["samples 3", "letters 110"],
        ),
        refused("size-65537-spaces", spaced(MOST_BYTES + 1), (46, 1, 0)),
        refused("size-65537-byte-after-end", followed, (46, 1, 0)),
        refused("size-70000-zeros", vec![0; 70_000], (46, 1, 0)),
        refused("size-65536-zeros-after-end", filled, (45, 1, 56)),
        accepted(
            "samples-512-one-block",
            usual(&[full.clone(), end.clone()]),
            &["samples 512", "cost 0", "paths 0", "ties 1"],
        ),
        accepted(
            "samples-512-two-blocks",
            usual(&[
                sample_block(&pattern[..200]),
                sample_block(&pattern[200..512]),
                end.clone(),
            ]),
            &["samples 512", "cost 0", "ties 1"],
        ),
        accepted(
            "samples-512-one-each",
            usual(&[one_each.concat(), end.clone()]),
            &["samples 512", "cost 0", "ties 1"],
        ),
        accepted(
            "samples-512-and-empty-blocks",
            usual(&[
                empty.clone(),
                full.clone(),
                empty.clone(),
                empty.clone(),
                end.clone(),
            ]),
            &["samples 512", "cost 0", "ties 1"],
        ),
        refused(
            "samples-513-one-block",
            usual(&[sample_block(&pattern[..513]), end.clone()]),
            (22, 4, 46),
        ),
        refused(
            "samples-513-last-alone",
            usual(&[full.clone(), sample_block(&[0]), end.clone()]),
            (22, 4, 1_074),
        ),
        refused(
            "samples-513-after-empty-block",
            usual(&[full.clone(), empty.clone(), sample_block(&[0]), end.clone()]),
            (22, 4, 1_078),
        ),
    ]
}
