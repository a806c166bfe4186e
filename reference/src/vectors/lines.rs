//! Faults of the lines of a description, and their order.

use super::{described, refused, Case, REST};
use crate::recording::{block, end_block};

pub fn cases() -> Vec<Case> {
    // A fault at an offset of the text, which begins at 4.
    let fault = |name, text: &str, number, offset: usize| {
        refused(name, described(text), (number, 2, 4 + offset))
    };
    // A fault of the first line, with the usual lines behind it.
    let first = |name, line: &str| fault(name, &format!("{line}\n{REST}"), 30, 0);
    // A fault of a later line, behind taps of 9 bytes.
    let later = |name, rest: &str, number, offset| {
        fault(name, &format!("taps 2 1\n{rest}"), number, offset)
    };
    let raw =
        |name, text: &[u8], answer| refused(name, [block(1, text), end_block()].concat(), answer);
    vec![
        // No form.
        later("line-empty-last", &format!("{REST}\n"), 30, 40),
        later("line-unended-last", REST.trim_end(), 30, 32),
        first("line-space-in-front", " taps 2 1"),
        later(
            "line-space-behind",
            "measure square \nstart 0\nend any\n",
            30,
            9,
        ),
        first("line-tab", "taps\t2 1"),
        first("line-carriage-return", "taps 2 1\r"),
        first("line-capital", "Taps 2 1"),
        raw(
            "line-byte-0",
            b"taps 2 1\0\nmeasure square\nstart 0\nend any\n",
            (30, 2, 4),
        ),
        raw(
            "line-byte-255",
            b"taps 2 \xff\nmeasure square\nstart 0\nend any\n",
            (30, 2, 4),
        ),
        first("line-unknown-name", "tap 2 1"),
        first("line-name-too-long", "tapss 2 1"),
        first("line-no-taps", "taps 2"),
        first("line-eight-taps", "taps 2 1 1 1 1 1 1 1 1"),
        first("line-seven-digits", "taps 2 0000001"),
        first("line-no-generators", "code 3 0"),
        first("line-eight-generators", "code 3 0 1 1 1 1 1 1 1 1"),
        first("line-generator-digit-8", "code 4 0 18"),
        first("line-generator-minus", "code 3 0 -7 5"),
        later(
            "line-bits-no-width",
            "measure bits\nstart 0\nend any\n",
            30,
            9,
        ),
        later(
            "line-measure-unknown",
            "measure cube\nstart 0\nend any\n",
            30,
            9,
        ),
        later(
            "line-start-name",
            "measure square\nstart all\nend any\n",
            30,
            24,
        ),
        // Seen before.
        later("line-taps-twice", &format!("taps 2 1\n{REST}"), 31, 9),
        later(
            "line-measure-twice",
            "measure bits 2\nmeasure square\nstart 0\nend any\n",
            31,
            24,
        ),
        later(
            "order-form-before-repeat",
            &format!("taps 2\n{REST}"),
            30,
            9,
        ),
        later(
            "order-unended-before-repeat",
            &format!("{REST}end any"),
            30,
            40,
        ),
        later(
            "order-repeat-before-later-form",
            "taps 2 1\nmeasure cube\n",
            31,
            9,
        ),
        later(
            "order-form-before-later-repeat",
            "measure cube\ntaps 2 1\n",
            30,
            9,
        ),
        later(
            "order-repeat-before-maker",
            &format!("taps 3 1\n{REST}"),
            31,
            9,
        ),
        // No accepted set.
        fault("set-empty-text", "", 34, 0),
        fault("set-no-trellis", REST, 34, 0),
        later("set-no-start", "measure square\nend any\n", 34, 0),
        later("set-no-end", "measure square\nstart 0\n", 34, 0),
        fault("set-rll-alone", &format!("rll 1 3\n{REST}"), 34, 0),
        fault(
            "set-code-and-rll",
            &format!("code 3 0 7 5\nrll 1 3\n{REST}"),
            34,
            0,
        ),
        fault(
            "set-code-rll-and-taps",
            &format!("code 3 0 7 5\nrll 1 3\ntaps 2 1\n{REST}"),
            34,
            0,
        ),
        fault(
            "order-set-before-makers",
            "taps 9 1\nmeasure bits 0\nend any\n",
            34,
            0,
        ),
    ]
}
