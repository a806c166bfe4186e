//! Recordings with their answers, written to a folder as NAME.bin and NAME.out.

use crate::{detect, figures::Figures, generate};
use std::{fs, io, path::Path};

pub fn write_case(folder: &Path, name: &str, recording: &[u8], output: &str) -> io::Result<()> {
    fs::write(folder.join(format!("{name}.bin")), recording)?;
    fs::write(folder.join(format!("{name}.out")), output)
}

/// Writes the first `count` recordings of a seed with their answers.
pub fn generate(folder: &Path, seed: u64, count: u64) -> io::Result<Figures> {
    fs::create_dir_all(folder)?;
    let mut figures = Figures::default();
    for index in 0..count {
        let recording = generate::recording(seed, index);
        let answer = detect::detect(&recording);
        write_case(
            folder,
            &format!("{index:06}"),
            &recording,
            &detect::text(&answer),
        )?;
        figures.add(&answer);
    }
    Ok(figures)
}
