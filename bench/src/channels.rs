//! The trellises, the measures and the algebra of the workloads.

use crate::interfaces::{Algebra, Measure, Trellis};

/// A channel with taps. The state holds the last letters, the newest highest.
#[derive(Clone, Copy)]
pub struct Taps {
    letters: usize,
    taps: [i32; 7],
    count: usize,
    states: usize,
}

impl Taps {
    /// Two letters and at most seven taps, or four letters and at most four.
    pub fn new(letters: usize, taps: &[i32]) -> Self {
        let mut held = [0; 7];
        held[..taps.len()].copy_from_slice(taps);
        Taps {
            letters,
            taps: held,
            count: taps.len(),
            states: letters.pow(taps.len() as u32 - 1),
        }
    }

    fn level(&self, letter: usize) -> i32 {
        2 * letter as i32 - (self.letters as i32 - 1)
    }

    fn label(&self, register: usize) -> i16 {
        let mut place = self.letters * self.states;
        let mut rest = register;
        let mut sum = 0;
        for tap in self.taps.iter().take(self.count) {
            place /= self.letters;
            sum += tap * self.level(rest / place);
            rest %= place;
        }
        sum as i16
    }
}

impl Trellis for Taps {
    fn states(&self) -> usize {
        self.states
    }

    fn letters(&self) -> usize {
        self.letters
    }

    fn branch(&self, state: usize, letter: usize) -> Option<(usize, i16)> {
        if state >= self.states || letter >= self.letters {
            return None;
        }
        let register = letter * self.states + state;
        Some((register / self.letters, self.label(register)))
    }
}

/// A convolutional code of rate 1/n. The state holds the last letters, the newest highest.
#[derive(Clone, Copy)]
pub struct Code {
    states: usize,
    inversion: u32,
    generators: [u32; 4],
    count: usize,
}

impl Code {
    /// A constraint length of at most 7, and at most four generators.
    pub fn new(constraint: u32, inversion: u32, generators: &[u32]) -> Self {
        let mut held = [0; 4];
        held[..generators.len()].copy_from_slice(generators);
        Code {
            states: 1 << (constraint - 1),
            inversion,
            generators: held,
            count: generators.len(),
        }
    }

    fn label(&self, register: u32) -> i16 {
        let word = self
            .generators
            .iter()
            .take(self.count)
            .fold(0, |word, generator| 2 * word + (register & generator).count_ones() % 2);
        (word ^ self.inversion) as i16
    }
}

impl Trellis for Code {
    fn states(&self) -> usize {
        self.states
    }

    fn letters(&self) -> usize {
        2
    }

    fn branch(&self, state: usize, letter: usize) -> Option<(usize, i16)> {
        if state >= self.states || letter >= 2 {
            return None;
        }
        let register = letter * self.states + state;
        Some((register / 2, self.label(register as u32)))
    }
}

/// The lowest bits that differ.
#[derive(Clone, Copy)]
pub struct Bits {
    pub width: u32,
}

impl Measure for Bits {
    fn cost(&self, label: i16, sample: i16) -> u32 {
        let lowest = (1u16 << self.width) - 1;
        ((label ^ sample) as u16 & lowest).count_ones()
    }
}

/// The squared difference.
#[derive(Clone, Copy)]
pub struct Square;

impl Measure for Square {
    fn cost(&self, label: i16, sample: i16) -> u32 {
        let apart = (i32::from(label) - i32::from(sample)).unsigned_abs();
        apart * apart
    }
}

/// How many paths there are, modulo 2 ^ 64.
#[derive(Clone, Copy)]
pub struct Counting;

impl Algebra for Counting {
    type Weight = u64;

    fn zero(&self) -> u64 {
        0
    }

    fn one(&self) -> u64 {
        1
    }

    fn plus(&self, a: u64, b: u64) -> u64 {
        a.wrapping_add(b)
    }

    fn times(&self, a: u64, b: u64) -> u64 {
        a.wrapping_mul(b)
    }

    fn weight(&self, _cost: u32) -> u64 {
        1
    }
}
