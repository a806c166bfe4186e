//! Both engines on the same problems.

use crate::{
    description::Channel,
    generate, listing,
    measure::{Measure, ERASED},
    random::Random,
    recording, recursion,
    trellis::{Branch, Trellis},
};

/// Up to so many paths are listed here.
const MOST_PATHS: usize = 30_000;

/// How the comparison went.
#[derive(Default)]
pub struct Figures {
    pub described: u64,
    pub drawn: u64,
    pub tied: u64,
    pub without_path: u64,
}

/// Compares the engines on `count` problems, half of them from descriptions, half on trellises of any shape.
/// The error is what they disagree on.
pub fn run(seed: u64, count: u64) -> Result<Figures, String> {
    let mut figures = Figures::default();
    let mut stream = 0;
    while figures.described + figures.drawn < count {
        let random = &mut Random::new(seed, stream);
        stream += 1;
        let is_described = stream % 2 == 0;
        let (channel, samples) = if is_described {
            let held = recording::read(&generate::small(random))
                .map_err(|fault| format!("a small recording is refused: {fault}"))?;
            (held.channel, held.samples)
        } else {
            drawn(random)
        };
        let Some(paths) = listing::paths(&channel, &samples, MOST_PATHS) else {
            continue;
        };
        let listed = listing::report(&paths);
        let found = recursion::report(&channel, &samples);
        if listed != found {
            return Err(format!(
                "stream {}: {channel:?} {samples:?}\nlist: {listed:?}\nrecursion: {found:?}",
                stream - 1
            ));
        }
        if is_described {
            figures.described += 1;
        } else {
            figures.drawn += 1;
        }
        match listed {
            None => figures.without_path += 1,
            Some(report) if report.ties > 1 => figures.tied += 1,
            Some(_) => {}
        }
    }
    Ok(figures)
}

/// A trellis of any shape. No description gives most of these: branches into one state may come from different
/// states by different letters.
fn drawn(random: &mut Random) -> (Channel, Vec<i16>) {
    let states = 1 + random.below(6);
    let letters = 1 + random.below(4);
    let missing_once_in = 2 + random.below(8);
    let trellis = Trellis::from_rule(states, letters, |_, _| {
        (!random.once_in(missing_once_in)).then(|| Branch {
            next: random.below(states),
            label: random.between(-1, 1),
        })
    });
    let mut rule = || match random.below(2) {
        0 => None,
        _ => Some(random.below(states)),
    };
    let (start, end) = (rule(), rule());
    let count = random.below(7);
    let samples = (0..count)
        .map(|_| random.pick(&[-1, 0, 1, ERASED]))
        .collect();
    let channel = Channel {
        trellis,
        measure: random.pick(&[Measure::Square, Measure::Bits(1), Measure::Bits(2)]),
        start,
        end,
    };
    (channel, samples)
}
