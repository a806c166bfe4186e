//! Random letters sent through a trellis, with noise on the labels; the same in every run.

use crate::interfaces::Trellis;

pub struct Random(u64);

impl Random {
    pub fn new() -> Self {
        Random(0x9e37_79b9_7f4a_7c15)
    }

    fn next(&mut self) -> u64 {
        self.0 ^= self.0 << 13;
        self.0 ^= self.0 >> 7;
        self.0 ^= self.0 << 17;
        self.0
    }

    fn below(&mut self, bound: u64) -> u64 {
        (self.next() >> 32) % bound
    }
}

#[derive(Clone, Copy)]
pub enum Noise {
    /// Each of the two lowest bits flipped once in sixteen times.
    Flips,
    /// At most 3 more or less.
    Small,
}

fn flipped(random: &mut Random, label: i16, mask: i16) -> i16 {
    if random.below(16) == 0 { label ^ mask } else { label }
}

impl Noise {
    fn sample(self, random: &mut Random, label: i16) -> i16 {
        match self {
            Noise::Flips => {
                let low = flipped(random, label, 1);
                flipped(random, low, 2)
            }
            Noise::Small => label.saturating_add(random.below(7) as i16 - 3),
        }
    }
}

pub struct Signal<T> {
    trellis: T,
    noise: Noise,
    random: Random,
    state: usize,
}

impl<T: Trellis> Signal<T> {
    pub fn new(trellis: T, noise: Noise) -> Self {
        Signal {
            trellis,
            noise,
            random: Random::new(),
            state: 0,
        }
    }

    /// A new frame starts in state 0.
    pub fn restart(&mut self) {
        self.state = 0;
    }

    pub fn sample(&mut self) -> i16 {
        let letter = self.random.below(self.trellis.letters() as u64) as usize;
        let (next, label) = self.trellis.branch(self.state, letter).unwrap_or((self.state, 0));
        self.state = next;
        self.noise.sample(&mut self.random, label)
    }
}
