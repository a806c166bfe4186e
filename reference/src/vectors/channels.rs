//! Accepted recordings on channels of every accepted set.

use super::{accepted, Case, USUAL};
use crate::{
    generate::samples_for,
    random::Random,
    recording::{description_block, end_block, recording},
};

/// A recording whose samples follow some path with noise, one in twelve erased.
fn walked(text: &str, seed: u64, count: usize) -> Vec<u8> {
    let samples = samples_for(&mut Random::new(seed, 0), text, count, 12);
    recording(text, &samples)
}

/// Channels of 64 states, of every accepted set.
const FULL: &[(&str, &str)] = &[
    (
        "taps",
        "taps 2 3 -5 7 2 -1 4 1\nmeasure square\nstart 0\nend any\n",
    ),
    (
        "taps-bits",
        "taps 2 1 2 4 8 16 32 64\nmeasure bits 8\nstart any\nend 63\n",
    ),
    (
        "taps-four-letters",
        "taps 4 9 -4 2 1\nmeasure square\nstart 63\nend any\n",
    ),
    ("code", "code 7 1 171 133\nmeasure bits 2\nstart 0\nend 0\n"),
    (
        "code-four-outputs",
        "code 7 10 171 133 165 117\nmeasure bits 4\nstart any\nend any\n",
    ),
    (
        "code-square",
        "measure square\nend 5\nstart any\ncode 7 0 155 117 123\n",
    ),
    (
        "code-over-one-tap",
        "code 7 1 171 133\ntaps 4 2\nmeasure square\nstart 0\nend any\n",
    ),
    (
        "code-over-taps",
        "code 4 0 15\ntaps 2 2 -1 1 3\nmeasure square\nstart any\nend 9\n",
    ),
    (
        "code-over-four-letters",
        "code 5 2 23 35\ntaps 4 3 -1\nmeasure square\nstart 0\nend any\n",
    ),
    (
        "code-over-missing",
        "code 4 0 15 17\ntaps 2 2 -1 1 3\nmeasure square\nstart any\nend any\n",
    ),
    (
        "rll-over-one-tap",
        "rll 2 63\ntaps 2 1\nmeasure square\nstart any\nend any\n",
    ),
    (
        "rll-over-two-taps",
        "rll 1 31\ntaps 2 1 -1\nmeasure square\nstart 0\nend any\n",
    ),
    (
        "rll-over-taps",
        "rll 1 7\ntaps 2 1 1 -1 -1\nmeasure square\nstart 7\nend any\n",
    ),
    (
        "rll-over-four-letters",
        "rll 1 15\ntaps 4 2 1\nmeasure bits 5\nstart any\nend any\n",
    ),
];

pub fn cases() -> Vec<Case> {
    let mut cases = Vec::new();
    for (seed, (name, text)) in FULL.iter().enumerate() {
        cases.push(accepted(
            &format!("full-{name}-40"),
            walked(text, seed as u64, 40),
            &["samples 40"],
        ));
    }
    for (at, name) in [
        (0, "taps"),
        (3, "code"),
        (8, "code-over-four-letters"),
        (12, "rll-over-taps"),
    ] {
        cases.push(accepted(
            &format!("full-{name}-512"),
            walked(FULL[at].1, 100 + at as u64, 512),
            &["samples 512"],
        ));
    }
    cases.extend(small());
    cases.extend(costs());
    cases.extend(written());
    cases
}

/// Small channels, and what is absent.
fn small() -> Vec<Case> {
    let none = |text| [description_block(text), end_block()].concat();
    vec![
        accepted(
            "none-one-path",
            none(USUAL),
            &[
                "samples 0",
                "paths 1",
                "cost 0",
                "ties 1",
                "second none",
                "start 0",
                "end 0",
                "letters",
            ],
        ),
        accepted(
            "none-empty-block",
            recording(USUAL, &[]),
            &["samples 0", "paths 1", "second none", "letters"],
        ),
        accepted(
            "none-two-states",
            none("taps 2 1 1\nmeasure square\nstart any\nend any\n"),
            &[
                "paths 2", "ties 2", "second 0", "start 0", "end 0", "letters",
            ],
        ),
        accepted(
            "none-end-given",
            none("taps 2 1 1\nmeasure square\nstart any\nend 1\n"),
            &[
                "paths 1",
                "ties 1",
                "second none",
                "start 1",
                "end 1",
                "letters",
            ],
        ),
        accepted(
            "second-absent",
            recording(
                "rll 2 3\ntaps 2 1\nmeasure square\nstart 0\nend 0\n",
                &[1, 1, 1],
            ),
            &["paths 1", "cost 8", "ties 1", "second none", "letters 001"],
        ),
        accepted(
            "second-absent-one-branch",
            recording(
                "rll 0 0\ntaps 2 1\nmeasure square\nstart 0\nend any\n",
                &[0, 5],
            ),
            &["paths 1", "second none", "letters 11"],
        ),
        accepted(
            "code-four-states",
            recording("code 3 0 7 5\nmeasure bits 2\nstart 0\nend 0\n", &[3, 2, 2]),
            &["cost 1", "ties 1", "second 4", "letters 100"],
        ),
        accepted(
            "code-over-four-letters",
            recording(
                "code 3 0 7 5\ntaps 4 1\nmeasure square\nstart 0\nend any\n",
                &[3, 1, 3],
            ),
            &["cost 0", "letters 100"],
        ),
        accepted(
            "code-over-two-letters",
            recording(
                "code 3 0 7 5\ntaps 2 1 1\nmeasure square\nstart 4\nend any\n",
                &[0, 1, 2],
            ),
            &["samples 3"],
        ),
        accepted(
            "rll-over-difference",
            recording(
                "rll 1 3\ntaps 2 1 -1\nmeasure square\nstart 0\nend any\n",
                &[0, 2, -2, 0, 2],
            ),
            &["cost 0", "letters 01001"],
        ),
        accepted(
            "four-letters-one-tap",
            recording(
                "taps 4 5\nmeasure square\nstart 0\nend any\n",
                &[-15, -4, 6, 14, 0],
            ),
            &["letters 01231"],
        ),
        accepted(
            "four-letters-two-taps",
            recording(
                "taps 4 3 -1\nmeasure square\nstart 1\nend any\n",
                &[10, -12, 1, 6],
            ),
            &["letters 3012"],
        ),
        accepted(
            "start-any-reported",
            recording("taps 2 1 4\nmeasure square\nstart any\nend any\n", &[3, -3]),
            &["cost 0", "start 1", "letters 01"],
        ),
    ]
}

/// Costs at the ends of their ranges, and the erased mark.
fn costs() -> Vec<Case> {
    let wide = "taps 2 127 127 127 127 127 127 127\nmeasure square\nstart 63\nend any\n";
    let bits = "taps 2 1 2\nmeasure bits 8\nstart 0\nend any\n";
    vec![
        accepted(
            "cost-largest-samples",
            recording(wide, &[i16::MAX; 512]),
            &["samples 512"],
        ),
        accepted(
            "cost-above-32-bits",
            recording(
                "taps 2 1\nmeasure square\nstart 0\nend any\n",
                &[i16::MAX; 5],
            ),
            &[
                "cost 5368053780",
                "ties 1",
                "second 5368184848",
                "letters 11111",
            ],
        ),
        accepted(
            "cost-minus-32767",
            recording(USUAL, &[-32_767]),
            &[
                "cost 1073545225",
                "ties 1",
                "second 1073676289",
                "letters 0",
            ],
        ),
        accepted(
            "cost-erased-bits",
            recording(bits, &[i16::MIN, 1, i16::MIN]),
            &["samples 3"],
        ),
        accepted(
            "cost-minus-32767-bits",
            recording(bits, &[-32_767]),
            &["cost 6", "ties 1", "second 7", "letters 0"],
        ),
        accepted(
            "cost-bits-low-byte",
            recording(
                "taps 2 1\nmeasure bits 8\nstart 0\nend any\n",
                &[255, 257, -1, -255],
            ),
            &["cost 0", "letters 0101"],
        ),
    ]
}

/// Descriptions that say the same in other words.
fn written() -> Vec<Case> {
    let listing = &[
        "paths 8",
        "cost 1",
        "ties 2",
        "second 1",
        "start 0",
        "end 0",
        "letters 110",
    ];
    let same = |name, text: &str| accepted(name, recording(text, &[0, 2, 1]), listing);
    vec![
        same(
            "written-other-order",
            "end any\nmeasure square\ntaps 2 1 1\nstart 0\n",
        ),
        same(
            "written-spaces",
            "taps   2  1    1\nmeasure  square\nstart   0\nend  any\n",
        ),
        same(
            "written-leading-zeros",
            "taps 000002 000001 01\nmeasure square\nstart 000000\nend any\n",
        ),
        same(
            "written-minus-zero",
            "taps 2 1 1\nmeasure square\nstart -000000\nend any\n",
        ),
        accepted(
            "written-minus-zero-tap",
            recording(
                "taps 2 1 1 -0\nmeasure square\nstart 0\nend any\n",
                &[0, 2, 1],
            ),
            &["paths 8", "cost 1", "ties 2", "end 1", "letters 110"],
        ),
        accepted(
            "written-octal",
            recording(
                "code 03 -000 000007 05\nmeasure bits 02\nstart -0\nend 00\n",
                &[3, 2, 2],
            ),
            &["cost 1", "second 4", "letters 100"],
        ),
    ]
}
