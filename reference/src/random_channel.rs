//! Random descriptions of each accepted set.

use crate::random::Random;

/// How large a random trellis is to be.
#[derive(Clone, Copy, PartialEq, Eq)]
pub enum Size {
    Any,
    /// Exactly 64 states.
    Full,
}

/// How far apart the labels of a random trellis may lie.
#[derive(Clone, Copy, PartialEq, Eq)]
pub enum Spread {
    /// Taps of −1, 0 and 1: many paths cost the same.
    Narrow,
    Wide,
}

/// A trellis as the lines of a description, and its number of states.
struct Drawn {
    lines: Vec<String>,
    states: usize,
}

/// The lines of an accepted description, in any order.
pub fn lines(random: &mut Random, size: Size, spread: Spread) -> Vec<String> {
    let Drawn { mut lines, states } = match random.below(4) {
        0 => taps_alone(random, size, spread),
        1 => code_alone(random, size),
        2 => code_over_taps(random, size, spread),
        _ => run_length_over_taps(random, size, spread),
    };
    lines.push(measure(random, spread));
    lines.push(format!("start {}", state_or_any(random, states)));
    lines.push(format!("end {}", state_or_any(random, states)));
    random.shuffle(&mut lines);
    lines
}

fn taps_alone(random: &mut Random, size: Size, spread: Spread) -> Drawn {
    let letters = random.pick(&[2, 4]);
    let most = if letters == 2 { 6 } else { 3 };
    let memory = match size {
        Size::Full => most,
        Size::Any => random.below(most + 1),
    };
    Drawn {
        lines: vec![taps_line(random, letters, memory, spread)],
        states: letters.pow(memory as u32),
    }
}

fn code_alone(random: &mut Random, size: Size) -> Drawn {
    let constraint = match size {
        Size::Full => 7,
        Size::Any => random.between(1, 7),
    };
    let outputs = random.between(1, 4);
    Drawn {
        lines: vec![code_line(random, constraint, outputs)],
        states: 1 << (constraint - 1),
    }
}

fn code_over_taps(random: &mut Random, size: Size, spread: Spread) -> Drawn {
    let letters = random.pick(&[2, 4, 4]);
    let digits = if letters == 2 { 1 } else { 2 };
    let (constraint, memory) = match size {
        Size::Full => {
            let memory = random.below(6 / digits + 1);
            (7 - memory * digits, memory)
        }
        Size::Any => {
            let memory = random.below(6 / digits + 1);
            (1 + random.below(7 - memory * digits), memory)
        }
    };
    // Mostly as many outputs as the taps have letters for; with more of them some branches are missing.
    let outputs = if random.once_in(4) {
        random.between(1, 4)
    } else {
        random.between(1, digits as i32)
    };
    Drawn {
        lines: vec![
            code_line(random, constraint as i32, outputs),
            taps_line(random, letters, memory, spread),
        ],
        states: letters.pow(memory as u32) << (constraint - 1),
    }
}

fn run_length_over_taps(random: &mut Random, size: Size, spread: Spread) -> Drawn {
    let letters: usize = random.pick(&[2, 2, 4]);
    let memory = random.below(if letters == 2 { 7 } else { 4 });
    let inner = letters.pow(memory as u32);
    let most_outer = 64 / inner;
    let outer = match size {
        Size::Full => most_outer,
        Size::Any => 1 + random.below(most_outer.min(8)),
    };
    let most = outer - 1;
    let least = random.below(outer.min(4));
    Drawn {
        lines: vec![
            format!("rll {least} {most}"),
            taps_line(random, letters, memory, spread),
        ],
        states: outer * inner,
    }
}

fn taps_line(random: &mut Random, letters: usize, memory: usize, spread: Spread) -> String {
    let most = match spread {
        Spread::Narrow => 1,
        Spread::Wide => random.pick(&[2, 9, 127]),
    };
    let taps: Vec<String> = (0..=memory)
        .map(|_| random.between(-most, most).to_string())
        .collect();
    format!("taps {letters} {}", taps.join(" "))
}

fn code_line(random: &mut Random, constraint: i32, outputs: i32) -> String {
    let inversion = random.below(1 << outputs);
    let generators: Vec<String> = (0..outputs)
        .map(|_| format!("{:o}", random.between(1, (1 << constraint) - 1)))
        .collect();
    format!("code {constraint} {inversion} {}", generators.join(" "))
}

fn measure(random: &mut Random, spread: Spread) -> String {
    let widest = if spread == Spread::Narrow { 2 } else { 8 };
    if random.once_in(2) {
        "measure square".into()
    } else {
        format!("measure bits {}", random.between(1, widest))
    }
}

fn state_or_any(random: &mut Random, states: usize) -> String {
    match random.below(4) {
        0 | 1 => "any".into(),
        2 => "0".into(),
        _ => random.below(states).to_string(),
    }
}
