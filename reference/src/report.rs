//! What is found behind the samples, and how it is printed.

use std::fmt;

#[derive(Clone, Debug, PartialEq, Eq)]
pub struct Report {
    /// How many admissible paths there are, modulo 2^64.
    pub paths: u64,
    pub cost: u64,
    /// How many of them are as cheap as any, modulo 2^64.
    pub ties: u64,
    /// The least cost among the paths other than the reported one.
    pub second: Option<u64>,
    pub first_state: usize,
    pub last_state: usize,
    pub letters: Vec<u8>,
}

impl fmt::Display for Report {
    fn fmt(&self, out: &mut fmt::Formatter<'_>) -> fmt::Result {
        writeln!(out, "samples {}", self.letters.len())?;
        writeln!(out, "paths {}", self.paths)?;
        writeln!(out, "cost {}", self.cost)?;
        writeln!(out, "ties {}", self.ties)?;
        match self.second {
            Some(second) => writeln!(out, "second {second}")?,
            None => writeln!(out, "second none")?,
        }
        writeln!(out, "start {}", self.first_state)?;
        writeln!(out, "end {}", self.last_state)?;
        if self.letters.is_empty() {
            return writeln!(out, "letters");
        }
        let digits: String = self.letters.iter().map(u8::to_string).collect();
        writeln!(out, "letters {digits}")
    }
}
