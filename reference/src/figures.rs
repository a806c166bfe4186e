//! How many recordings got which answer.

use crate::{fault::Fault, report::Report};
use std::{collections::BTreeMap, fmt};

#[derive(Default)]
pub struct Figures {
    accepted: u64,
    tied: u64,
    refused: BTreeMap<u8, u64>,
}

impl Figures {
    pub fn add(&mut self, answer: &Result<Report, Fault>) {
        match answer {
            Ok(report) => {
                self.accepted += 1;
                self.tied += u64::from(report.ties != 1);
            }
            Err(fault) => *self.refused.entry(fault.number).or_default() += 1,
        }
    }
}

impl fmt::Display for Figures {
    fn fmt(&self, out: &mut fmt::Formatter<'_>) -> fmt::Result {
        let refused: u64 = self.refused.values().sum();
        writeln!(out, "recordings {}", self.accepted + refused)?;
        writeln!(out, "accepted {}, tied {}", self.accepted, self.tied)?;
        write!(out, "refused {refused}:")?;
        for (number, count) in &self.refused {
            write!(out, " {number}={count}")?;
        }
        writeln!(out)
    }
}
