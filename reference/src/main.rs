//! A second implementation of detect, and what is made with it.

mod cascade;
mod code;
mod compare;
mod description;
mod detect;
mod fault;
mod figures;
mod folder;
mod generate;
mod lines;
mod listing;
mod measure;
mod random;
mod random_channel;
mod recording;
mod recursion;
mod report;
mod run_length;
mod self_check;
mod taps;
mod trellis;
mod vectors;

use std::{
    env,
    error::Error,
    io::{self, Read, Write},
    path::Path,
    process::ExitCode,
};

const USAGE: &str = "\
reference                                    answers the recording on standard input as detect does
reference self-check SEED COUNT              compares both engines on COUNT problems
reference generate SEED COUNT FOLDER         writes COUNT recordings with their answers
reference compare PROGRAM SEED COUNT FOLDER  compares a detect program on COUNT recordings
reference vectors FOLDER                     writes the conformance vectors
reference paths                              lists all paths behind the recording on standard input
";

fn main() -> ExitCode {
    let arguments: Vec<String> = env::args().skip(1).collect();
    let words: Vec<&str> = arguments.iter().map(String::as_str).collect();
    match run(&words) {
        Ok(status) => ExitCode::from(status),
        Err(error) => {
            eprintln!("{error}");
            ExitCode::FAILURE
        }
    }
}

fn run(words: &[&str]) -> Result<u8, Box<dyn Error>> {
    match *words {
        [] => return answer(),
        ["self-check", seed, count] => {
            let figures = self_check::run(seed.parse()?, count.parse()?)?;
            println!(
                "both engines agree on {} problems: {} described, {} drawn; {} tied, {} without a path",
                figures.described + figures.drawn,
                figures.described,
                figures.drawn,
                figures.tied,
                figures.without_path
            );
        }
        ["generate", seed, count, folder] => {
            print!(
                "{}",
                folder::generate(Path::new(folder), seed.parse()?, count.parse()?)?
            );
        }
        ["compare", program, seed, count, folder] => {
            let (seed, count) = (seed.parse()?, count.parse()?);
            print!(
                "{}",
                compare::run(Path::new(program), seed, count, Path::new(folder))?
            );
        }
        ["vectors", folder] => println!("{} vectors", vectors::write(Path::new(folder))?),
        ["paths"] => print_paths()?,
        _ => return Err(USAGE.into()),
    }
    Ok(0)
}

/// A recording from standard input: one byte more than the largest is enough to tell that it is too long.
fn read_recording() -> io::Result<Vec<u8>> {
    let mut recording = Vec::new();
    let most = recording::MOST_BYTES as u64 + 1;
    io::stdin().lock().take(most).read_to_end(&mut recording)?;
    Ok(recording)
}

fn answer() -> Result<u8, Box<dyn Error>> {
    let answer = detect::detect(&read_recording()?);
    io::stdout().write_all(detect::text(&answer).as_bytes())?;
    Ok(detect::status(&answer))
}

/// One line for each path in their order: its states, its letters, its cost.
fn print_paths() -> Result<(), Box<dyn Error>> {
    let held = recording::read(&read_recording()?).map_err(|fault| fault.to_string())?;
    let paths = listing::paths(&held.channel, &held.samples, 100_000).ok_or("too many paths")?;
    for path in paths {
        println!("{:?} {:?} {}", path.states, path.letters, path.cost);
    }
    Ok(())
}
