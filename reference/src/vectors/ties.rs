//! Equally cheap paths: which comes first, how many there are, and what the second costs.

use super::{accepted, Case, USUAL};
use crate::{generate::samples_for, measure::ERASED, random::Random, recording::recording};

fn any_start(trellis: &str) -> String {
    format!("{trellis}\nmeasure square\nstart any\nend any\n")
}

fn erased(text: &str, count: usize) -> Vec<u8> {
    recording(text, &vec![ERASED; count])
}

pub fn cases() -> Vec<Case> {
    let one_tap = "taps 2 1\nmeasure square\nstart 0\nend any\n";
    let end_0 = "taps 2 1 1\nmeasure square\nstart 0\nend 0\n";
    let mut cases = vec![
        // The order.
        accepted(
            "tie-lower-last-state",
            recording(USUAL, &[0, 2, 1]),
            &[
                "paths 8",
                "cost 1",
                "ties 2",
                "second 1",
                "end 0",
                "letters 110",
            ],
        ),
        accepted(
            "tie-lower-last-state-again",
            recording(USUAL, &[-1, 0]),
            &["cost 1", "ties 2", "second 1", "letters 10"],
        ),
        accepted(
            "tie-from-the-end",
            recording(USUAL, &[-1, 0, -1]),
            &["cost 2", "ties 3", "second 2", "end 0", "letters 100"],
        ),
        accepted(
            "tie-lower-state-before",
            recording(end_0, &[-1, 0, -1]),
            &["cost 2", "ties 2", "second 2", "end 0", "letters 100"],
        ),
        accepted(
            "tie-lower-first-state",
            recording("taps 2 0 0 0\nmeasure square\nstart any\nend 3\n", &[0, 0]),
            &[
                "paths 4",
                "cost 0",
                "ties 4",
                "second 0",
                "start 0",
                "end 3",
                "letters 11",
            ],
        ),
        accepted(
            "tie-lower-letter",
            recording(one_tap, &[0, 0, 0]),
            &["cost 3", "ties 8", "second 3", "letters 000"],
        ),
        accepted(
            "tie-lower-letter-of-four",
            recording("taps 4 0\nmeasure square\nstart 0\nend any\n", &[7, 0]),
            &["cost 49", "ties 16", "second 49", "letters 00"],
        ),
        accepted(
            "tie-middle-letters-of-four",
            recording("taps 4 1\nmeasure square\nstart 0\nend any\n", &[0, 2, -2]),
            &["cost 3", "ties 8", "second 3", "letters 120"],
        ),
        accepted(
            "tie-end-given",
            recording("taps 2 1 1\nmeasure square\nstart 0\nend 1\n", &[0, 2, 1]),
            &[
                "paths 4",
                "cost 1",
                "ties 1",
                "second 5",
                "end 1",
                "letters 111",
            ],
        ),
        // The second.
        accepted(
            "second-as-cheap",
            recording(one_tap, &[1, 0]),
            &["cost 1", "ties 2", "second 1", "letters 10"],
        ),
        // Erased samples.
        accepted(
            "erased-one",
            erased(USUAL, 1),
            &["paths 2", "cost 0", "ties 2", "second 0", "letters 0"],
        ),
        accepted(
            "erased-in-the-middle",
            recording(USUAL, &[0, ERASED, 0]),
            &["samples 3"],
        ),
        accepted(
            "erased-all-any-start",
            erased(&any_start("taps 2 1 1"), 5),
            &["paths 64", "ties 64", "start 0", "letters 00000"],
        ),
        accepted(
            "erased-end-given",
            erased("taps 2 1 1 1\nmeasure square\nstart 0\nend 2\n", 4),
            &["ties 4", "end 2", "letters 0001"],
        ),
        accepted(
            "erased-bits",
            erased("code 3 0 7 5\nmeasure bits 2\nstart any\nend any\n", 6),
            &["paths 256", "ties 256", "second 0", "letters 000000"],
        ),
        accepted(
            "erased-rll",
            erased(
                "rll 1 3\ntaps 2 1 -1\nmeasure square\nstart any\nend any\n",
                9,
            ),
            &["cost 0", "second 0"],
        ),
        // Counts modulo 2^64.
        accepted(
            "wrap-63-erased",
            erased(USUAL, 63),
            &[
                "paths 9223372036854775808",
                "ties 9223372036854775808",
                "second 0",
            ],
        ),
        accepted(
            "wrap-64-erased",
            erased(USUAL, 64),
            &["paths 0", "cost 0", "ties 0", "second 0"],
        ),
        accepted(
            "wrap-63-erased-any-start",
            erased(&any_start("taps 2 1 1"), 63),
            &["paths 0", "ties 0", "second 0"],
        ),
        accepted(
            "wrap-32-erased-four-letters",
            erased("taps 4 1\nmeasure square\nstart 0\nend any\n", 32),
            &["paths 0", "ties 0", "second 0"],
        ),
        accepted(
            "wrap-paths-alone",
            recording(one_tap, &[1; 64]),
            &["paths 0", "cost 0", "ties 1", "second 4"],
        ),
        accepted(
            "wrap-rll-200-erased",
            erased(
                "rll 1 3\ntaps 2 1 -1\nmeasure square\nstart 0\nend any\n",
                200,
            ),
            &["cost 0", "second 0"],
        ),
        accepted(
            "wrap-rll-512-erased",
            erased(
                "rll 2 7\ntaps 2 1\nmeasure bits 3\nstart any\nend any\n",
                512,
            ),
            &["cost 0", "second 0"],
        ),
        accepted(
            "wrap-ties-at-a-cost",
            recording(one_tap, &[0; 70]),
            &["paths 0", "cost 70", "ties 0", "second 70"],
        ),
    ];
    // Many ties on 64 states: labels of a few values, samples between them.
    let full = [
        (
            "taps",
            "taps 2 1 0 0 1 0 0 1\nmeasure square\nstart any\nend any\n",
        ),
        (
            "four-letters",
            "taps 4 1 0 0 1\nmeasure bits 1\nstart any\nend any\n",
        ),
        (
            "code",
            "code 7 1 171 133\nmeasure bits 2\nstart any\nend any\n",
        ),
        (
            "code-over-taps",
            "code 5 2 23 35\ntaps 4 1 1\nmeasure square\nstart any\nend any\n",
        ),
        (
            "rll-over-taps",
            "rll 1 7\ntaps 2 1 0 0 -1\nmeasure square\nstart any\nend any\n",
        ),
    ];
    for (seed, (name, text)) in full.iter().enumerate() {
        let samples = samples_for(&mut Random::new(200 + seed as u64, 0), text, 24, 2);
        cases.push(accepted(
            &format!("tie-full-{name}"),
            recording(text, &samples),
            &["samples 24"],
        ));
    }
    cases
}
