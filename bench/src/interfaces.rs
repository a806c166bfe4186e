//! What the record is generic in, and why a call is refused.

/// A trellis of 1 to 64 states and 1 to 4 letters, with at most one branch for each state and letter.
pub trait Trellis {
    fn states(&self) -> usize;
    fn letters(&self) -> usize;
    /// The next state and the label.
    fn branch(&self, state: usize, letter: usize) -> Option<(usize, i16)>;
}

/// What a label costs against a sample.
pub trait Measure {
    fn cost(&self, label: i16, sample: i16) -> u32;
}

/// Weights that are summed over paths and multiplied along them.
pub trait Algebra {
    type Weight: Copy;
    fn zero(&self) -> Self::Weight;
    fn one(&self) -> Self::Weight;
    fn plus(&self, a: Self::Weight, b: Self::Weight) -> Self::Weight;
    fn times(&self, a: Self::Weight, b: Self::Weight) -> Self::Weight;
    fn weight(&self, cost: u32) -> Self::Weight;
}

#[derive(Clone, Copy, Debug)]
pub enum Refusal {
    RecordFull = 22,
    RewindBeyond = 23,
    NoPath = 24,
    BufferShort = 25,
    RowShort = 26,
}
