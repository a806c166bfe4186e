//! The yardstick of the benchmark: the same record, workloads and checksum as the proved program, in plain Rust.
//!
//!   bench WORKLOAD FRAMES [PART [SAMPLES]]

mod branches;
mod channels;
mod forward;
mod frames;
mod interfaces;
mod record;
mod signal;
mod survivors;

use channels::{Bits, Code, Square, Taps};
use frames::{Part, Plan, run};
use signal::Noise;
use std::process::ExitCode;
use survivors::MOST_SAMPLES;

const TAPS: [i32; 7] = [1, 3, 5, -2, 7, 4, 2];

fn read_part(name: Option<&str>) -> Option<Part> {
    match name.unwrap_or("whole") {
        "samples" => Some(Part::Samples),
        "settle" => Some(Part::Settle),
        "report" => Some(Part::Report),
        "weigh" => Some(Part::Weigh),
        "whole" => Some(Part::Whole),
        _ => None,
    }
}

fn read_plan(words: &[String]) -> Option<Plan> {
    Some(Plan {
        frames: words.get(1)?.parse().ok()?,
        part: read_part(words.get(2).map(String::as_str))?,
        samples: words.get(3).map_or(Some(MOST_SAMPLES), |word| word.parse().ok())?,
    })
}

fn run_taps(letters: usize, count: usize, plan: Plan) -> Option<u64> {
    run(Taps::new(letters, &TAPS[..count]), Square, Noise::Small, plan).ok()
}

fn checksum(words: &[String]) -> Option<u64> {
    let plan = read_plan(words)?;
    match words.first()?.as_str() {
        "ccsds" => run(Code::new(7, 1, &[0o171, 0o133]), Bits { width: 2 }, Noise::Flips, plan).ok(),
        "taps2" => run_taps(2, 7, plan),
        "taps4" => run_taps(4, 4, plan),
        name => match name.strip_prefix("memory")?.parse() {
            Ok(memory @ 1..=6) => run_taps(2, memory + 1, plan),
            _ => None,
        },
    }
}

fn main() -> ExitCode {
    let words: Vec<String> = std::env::args().skip(1).collect();
    match checksum(&words) {
        Some(sum) => {
            println!("checksum {sum}");
            ExitCode::SUCCESS
        }
        None => {
            eprintln!("bench WORKLOAD FRAMES [PART [SAMPLES]]");
            ExitCode::FAILURE
        }
    }
}
