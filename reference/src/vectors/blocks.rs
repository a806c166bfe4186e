//! Faults of blocks and of calls, and their order.

use super::{refused, Case, STRICT, USUAL};
use crate::recording::{block, description_block, end_block, recording, sample_block};

const MALFORMED: &str = "tap 2 1 1\nmeasure square\nstart 0\nend any\n";

/// The description block of the usual channel, 46 bytes, with more behind it.
fn usual(rest: &[&[u8]]) -> Vec<u8> {
    [&description_block(USUAL)[..], &rest.concat()].concat()
}

pub fn cases() -> Vec<Case> {
    let end = end_block();
    let samples = sample_block(&[0, 2, 1]);
    let full = sample_block(&[0; 512]);
    let over = sample_block(&[0; 513]);
    let description = description_block(USUAL);
    let first = |name, bytes: &[u8], number| refused(name, bytes.to_vec(), (number, 1, 0));
    let second = |name, rest: &[&[u8]], number| refused(name, usual(rest), (number, 1, 46));
    let strict = |rest: &[&[u8]]| [&description_block(STRICT)[..], &rest.concat()].concat();
    vec![
        // Cut short.
        first("block-empty-recording", &[], 40),
        first("block-three-bytes", &[0x2a, 0, 1], 40),
        first("block-header-alone", &[0x2a, 0, 1, 0], 40),
        second("block-nothing-after-description", &[], 40),
        refused(
            "block-nothing-after-samples",
            usual(&[&samples]),
            (40, 1, 56),
        ),
        second("block-three-bytes-of-a-header", &[&[0, 0, 3]], 40),
        second(
            "block-samples-reach-past-end",
            &[&[8, 0, 2, 0, 0, 0], &end],
            40,
        ),
        second("block-largest-length", &[&[255, 255, 2, 0, 0, 0], &end], 40),
        // Kinds.
        second("block-kind-0", &[&block(0, &[]), &end], 42),
        second("block-kind-4", &[&block(4, &[0, 0]), &end], 42),
        first("block-kind-257", &block(257, USUAL.as_bytes()), 42),
        second("block-kind-259", &[&block(259, &[])], 42),
        // Order of blocks.
        first(
            "block-samples-first",
            &[&samples[..], &description, &end].concat(),
            43,
        ),
        first("block-end-first", &end, 43),
        second("block-second-description", &[&description, &end], 43),
        refused(
            "block-description-after-samples",
            usual(&[&samples, &description, &end]),
            (43, 1, 56),
        ),
        // Payloads.
        second(
            "block-three-bytes-of-samples",
            &[&block(2, &[0, 0, 2]), &end],
            44,
        ),
        second("block-end-with-payload", &[&block(3, &[0, 0])], 44),
        // Bytes after the end.
        refused(
            "block-byte-after-end",
            usual(&[&samples, &end, &[0]]),
            (45, 1, 56),
        ),
        second("block-two-ends", &[&end, &end], 45),
        // The order of a block's own checks.
        second("order-cut-before-kind", &[&[1, 0, 7, 0]], 40),
        first("order-cut-before-first-kind", &[5, 0, 2, 0, 0], 40),
        second("order-cut-before-odd", &[&[3, 0, 2, 0, 0, 0]], 40),
        first("order-cut-before-lines", &[5, 0, 1, 0, b'X'], 40),
        first(
            "order-kind-before-first-kind",
            &[&block(9, &[])[..], &end].concat(),
            42,
        ),
        second("order-kind-before-odd", &[&block(5, &[0]), &end], 42),
        first(
            "order-first-kind-before-odd",
            &[&block(2, &[0; 3])[..], &end].concat(),
            43,
        ),
        first(
            "order-first-kind-before-bytes-after-end",
            &[&end[..], &[0]].concat(),
            43,
        ),
        second(
            "order-end-payload-before-bytes-after",
            &[&block(3, &[0]), &[0]],
            44,
        ),
        second("order-after-end-before-cut", &[&end, &[0, 0]], 45),
        // A block's checks before it is handled.
        second("order-odd-before-full", &[&block(2, &[0; 1_027]), &end], 44),
        refused(
            "order-odd-before-full-later",
            usual(&[&full, &block(2, &[0; 3]), &end]),
            (44, 1, 1_074),
        ),
        refused(
            "order-after-end-before-no-path",
            strict(&[&sample_block(&[1]), &end, &[0]]),
            (45, 1, 56),
        ),
        refused(
            "order-end-payload-before-no-path",
            strict(&[&sample_block(&[1]), &block(3, &[0])]),
            (44, 1, 56),
        ),
        // A block is handled before the next is looked at.
        refused(
            "order-line-before-next-cut",
            description_block(MALFORMED),
            (30, 2, 4),
        ),
        refused(
            "order-set-before-next-kind",
            [description_block(""), block(9, &[])].concat(),
            (34, 2, 4),
        ),
        refused(
            "order-start-before-next-kind",
            [
                description_block("taps 2 1 1\nmeasure square\nstart 2\nend any\n"),
                block(9, &[]),
            ]
            .concat(),
            (21, 3, 30),
        ),
        refused(
            "order-full-before-next-kind",
            usual(&[&over, &block(9, &[])]),
            (22, 4, 46),
        ),
        refused(
            "order-full-before-no-path",
            strict(&[&over, &end]),
            (22, 4, 50),
        ),
        refused(
            "order-no-end-before-no-path",
            strict(&[&sample_block(&[1])]),
            (40, 1, 56),
        ),
        // No admissible path.
        refused(
            "call-no-path-one-sample",
            recording(STRICT, &[1]),
            (24, 4, 56),
        ),
        refused(
            "call-no-path-several-blocks",
            strict(&[
                &sample_block(&[1]),
                &sample_block(&[]),
                &sample_block(&[1]),
                &end,
            ]),
            (24, 4, 66),
        ),
        refused(
            "call-no-path-without-samples",
            [
                description_block("taps 2 1 1\nmeasure square\nstart 0\nend 1\n"),
                end.clone(),
            ]
            .concat(),
            (24, 4, 44),
        ),
        refused(
            "call-no-path-no-branch",
            recording(
                "code 1 4 1 1 1\ntaps 2 1\nmeasure square\nstart 0\nend any\n",
                &[0],
            ),
            (24, 4, 65),
        ),
    ]
}
