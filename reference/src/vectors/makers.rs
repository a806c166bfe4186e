//! Faults of numbers, and their order.

use super::{described, refused, Case, REST};

pub fn cases() -> Vec<Case> {
    // A fault at an offset of the text, which begins at 4.
    let fault = |name, text: &str, number, offset: usize| {
        refused(name, described(text), (number, 3, 4 + offset))
    };
    let first = |name, line: &str, number| fault(name, &format!("{line}\n{REST}"), number, 0);
    let later = |name, rest: &str, number, offset| {
        fault(name, &format!("taps 2 1\n{rest}"), number, offset)
    };
    vec![
        // Taps.
        first("taps-three-letters", "taps 3 1", 1),
        first("order-letters-before-taps", "taps 8 1 2 3 4 5 6 200", 1),
        first("taps-five-for-four-letters", "taps 4 1 1 1 1 1", 2),
        first("order-tap-count-before-values", "taps 4 200 1 1 1 1", 2),
        first("taps-above-127", "taps 2 1 128", 3),
        fault(
            "taps-below-minus-127",
            "measure square\ntaps 2 -128\nstart 0\nend any\n",
            3,
            15,
        ),
        // Code.
        first("code-length-8", "code 8 0 1", 4),
        first("order-length-before-count", "code 8 0 1 1 1 1 1", 4),
        first("code-five-generators", "code 3 0 1 1 1 1 1", 5),
        first("order-count-before-generators", "code 3 99 0 10 1 1 1", 5),
        first("code-generator-0", "code 3 0 7 0", 6),
        first("order-generators-before-inversion", "code 3 4 7 10", 6),
        first("code-inversion-above", "code 3 4 7 5", 7),
        first("code-inversion-below", "code 3 -1 7 5", 7),
        // Run-length limit.
        later("rll-least-above-most", &format!("rll 3 2\n{REST}"), 8, 9),
        first("rll-most-64", "rll 0 64\ntaps 2 1", 8),
        // Cascade.
        first("cascade-66-states", "rll 0 32\ntaps 2 1 1", 10),
        fault(
            "cascade-128-states",
            "measure square\nstart 0\nend any\ntaps 2 1 1\ncode 7 1 171 133\n",
            10,
            42,
        ),
        // Bits.
        later("bits-width-0", "measure bits 0\nstart 0\nend any\n", 11, 9),
        later("bits-width-9", "measure bits 9\nstart 0\nend any\n", 11, 9),
        // Start and end.
        fault(
            "start-2",
            "taps 2 1 1\nmeasure square\nstart 2\nend any\n",
            21,
            26,
        ),
        fault(
            "start-minus-1",
            "taps 2 1 1\nmeasure square\nstart -1\nend any\n",
            21,
            26,
        ),
        fault(
            "end-2",
            "taps 2 1 1\nmeasure square\nstart 1\nend 2\n",
            21,
            34,
        ),
        fault(
            "start-in-cascade",
            "code 3 0 7 5\ntaps 2 1 1\nmeasure square\nstart 8\nend any\n",
            21,
            39,
        ),
        fault(
            "order-start-before-end",
            "end 2\ntaps 2 1 1\nmeasure square\nstart 2\n",
            21,
            32,
        ),
        // Layer 3 goes by kind, whatever the order of the lines: taps, code, rll, cascade, bits, start, end.
        fault(
            "order-taps-before-code",
            "end 99\nstart 99\nmeasure bits 0\ncode 0 0 1\ntaps 3 1\n",
            1,
            42,
        ),
        fault(
            "order-taps-before-rll",
            "end 99\nstart 99\nmeasure bits 0\nrll 3 2\ntaps 2 128\n",
            3,
            39,
        ),
        fault(
            "order-code-before-bits",
            "end 99\nstart 99\nmeasure bits 0\ntaps 2 1 1\ncode 7 4 171 133\n",
            7,
            42,
        ),
        fault(
            "order-rll-before-bits",
            "end 99\nstart 99\nmeasure bits 0\ntaps 2 1 1\nrll 3 2\n",
            8,
            42,
        ),
        fault(
            "order-code-before-cascade",
            "taps 4 1 1 1 1\ncode 7 4 171 133\nmeasure square\nstart 0\nend any\n",
            7,
            15,
        ),
        fault(
            "order-cascade-before-bits",
            "end 99\nstart 99\nmeasure bits 0\nrll 0 63\ntaps 2 1 1\n",
            10,
            31,
        ),
        fault(
            "order-bits-before-start",
            "end 99\nstart 99\nmeasure bits 0\nrll 0 63\ntaps 2 1\n",
            11,
            16,
        ),
    ]
}
